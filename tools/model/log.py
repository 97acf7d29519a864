"""The program of document 01: a text in, its log out."""
from .calls import EVENTS, Grant, Refused, Rest, call, written
from .hub import Hub
from .plan import Plan
from .text import Lines, Refusal, form


def log(text, nearest=True):
    return ''.join(line + '\n' for line in log_lines(text, nearest)).encode()


def log_lines(text, nearest):
    """"It writes first `(nodes N hubs H)`, then" what is answered. "A bad plan gives only the refused line"."""
    lines = Lines(text)
    try:
        plan = Plan(lines)
    except Refusal as no:
        yield refused_line(lines, no)
        return
    yield f'(nodes {plan.nodes} hubs {plan.hubs})'
    hub = Hub(plan, nearest)
    while lines.left():
        for answer in answers_to(hub, lines.next()):
            yield refused_line(lines, answer) if isinstance(answer, Refused) else written(answer)


def refused_line(lines, no):
    return f'(refused {lines.number} {no.number})'


def answers_to(hub, line):
    """What an event's line has the program write: grants and rests before it, and a refusal of its own."""
    event = read_event(line)
    if event is None:
        yield Refused(1)
        return
    yield from steps_before(hub, event.t)
    answer = hub.perform(event)
    if isinstance(answer, Refused):
        yield answer


def read_event(line):
    """The event of a line, or None where it is no form of one."""
    for word, letters in EVENTS.items():
        if (numbers := form(line, word.encode(), len(letters))) is not None:
            return call(word, *numbers)
    return None


def steps_before(hub, t):
    """"Before an event with a time allowed by row 11 it makes all steps strictly before t": row 11 refuses steps of other times too."""
    while isinstance(answer := hub.perform(call('step', t)), Grant | Rest):
        yield answer
