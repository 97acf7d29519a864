"""Document 01's words about a list of calls. They "are read off the calls and their answers alone", never off a hub."""
import itertools

from .calls import HIGH, NORMAL, Grant, Quiet, Rest, Taken


def accepted(entry, *words):
    return isinstance(entry.answer, Taken) and entry.call.word in words


def is_grant_to(entry, k):
    return isinstance(entry.answer, Grant) and entry.answer.node == k


def clock_after(entries):
    """"The latest time of an accepted event or a handled instant, at first 0"."""
    handled = [entry.answer.time for entry in entries if isinstance(entry.answer, Grant | Rest)]
    return max([0, *handled, *(entry.call.t for entry in entries if isinstance(entry.answer, Taken))])


def reserved(plan, entries, f):
    """"Reserved in frame f, and in force there: the n and b of k's last accepted reserve with t below f × T, or n = 0", for every k."""
    shares = dict.fromkeys(range(1, plan.nodes + 1), (0, 0))
    for entry in entries:
        if accepted(entry, 'reserve') and entry.call.t < f * plan.frame:
            shares[entry.call.k] = entry.call.n, entry.call.b
    return shares


def high_grants(plan, entries, k, f):
    """"A high grant in f: a step's answer that grants k in class high, with s in f"."""
    granted = [entry.answer for entry in entries if is_grant_to(entry, k)]
    return [grant for grant in granted if grant.class_ == HIGH and grant.time // plan.frame == f]


def puts_up_high(plan, entries, place):
    """Whether an entry puts up a high request: "if a high event put it up while k's n in force was at least 1". By request 8 one with
    n = 0 is taken as normal: it is no high request in any of these words, and its grant is no high grant."""
    asked = entries[place]
    return accepted(asked, 'high') and reserved(plan, entries, asked.call.t // plan.frame)[asked.call.k][0] > 0


# Request 1: "the time at which its standing request was first put up"


def asks_standing(entries, k):
    """The places of k's accepted normals and highs, the first to put up its request and each that replaced one: those behind the last
    "accepted off of k or a grant to k"."""
    places = []
    for place in reversed(range(len(entries))):
        if is_grant_to(entries[place], k) or accepted(entries[place], 'off') and entries[place].call.k == k:
            break
        if accepted(entries[place], 'normal', 'high') and entries[place].call.k == k:
            places.append(place)
    return places[::-1]


def made_normal(plan, entries, asked, clock):
    """The first frame start since a high request was put up, "up to the clock", that "made it normal": its node has n = 0 in force there,
    or its bits are above the b; None if there is none."""
    for f in range(asked.t // plan.frame + 1, clock // plan.frame + 1):
        n, b = reserved(plan, entries, f)[asked.k]
        if n == 0 or asked.b > b:
            return f * plan.frame
    return None


def classes_since(plan, entries, k, clock):
    """The classes in which k's request has stood, in order, each with the time from which it did: of every ask the class that it put up,
    and normal again where a start made it so before the next ask. A start comes "before any event .. of that time"."""
    asks = asks_standing(entries, k)
    times = [*(entries[place].call.t for place in asks[1:]), clock]
    for place, until in zip(asks, times):
        asked, high = entries[place].call, puts_up_high(plan, entries, place)
        yield (HIGH if high else NORMAL), asked.t
        if high and (start := made_normal(plan, entries, asked, until)) is not None:
            yield NORMAL, start


def first_put_up(plan, entries, k, clock):
    """The recorded time of k's request behind these entries, with the clock moved on to a time at which nothing else is due; None without
    a request. It is where the last run of one class began: "a change of class sets it anew, also the change at a frame's start"."""
    runs = [[time for _, time in run] for _, run in itertools.groupby(classes_since(plan, entries, k, clock), key=lambda pair: pair[0])]
    return runs[-1][0] if runs else None


def waits(plan, entries):
    """Of each entry "the grant's time less the recorded time", or 0 where its answer is no grant."""
    grants = [(i, entry.answer) for i, entry in enumerate(entries) if isinstance(entry.answer, Grant)]
    found = {i: grant.time - first_put_up(plan, entries[:i], grant.node, grant.time) for i, grant in grants}
    return [found.get(i, 0) for i in range(len(entries))]


def run_past(entries, t):
    """Whether every instant up to t is handled: by the clock, or by a quiet step of a later bound."""
    last = entries[-1]
    return clock_after(entries) > t or isinstance(last.answer, Quiet) and last.call.t > t
