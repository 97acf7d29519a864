"""One model of document 01 with requests 1, 3, 4, 5, 8, 9, 10 and 13 of document 02, written from their words alone. Words in quotes are
theirs.

    figures      every number that the documents fix, named once
    text         lines of a text and their forms
    plan         the plan and its reader, with rows 1 to 4
    calls        events, steps and answers as values
    core         the clock, the line, requests, reservations, frames
    rows         the rows from 11 on, one by one
    flat         turns by the flat rule
    control      turns by control hub by hub, with moves and returns, by request 4's rule 2 or document 01's
    hub          the core with turns: calls and answers, and lists of them
    offers       request 9: many offers in one call, each answered as the single reserve would be
    fit          request 10: the smallest single change that turns a 17 into a grant
    log          the program: a text in, its log out
    words        demand 3's words, read off a list of calls, and request 1's recorded time in their manner
    waits        request 1 over a list of calls: records and waits against these words
    any_moment   request 5 over a list of calls
    travel       request 13 over a list of calls
"""
