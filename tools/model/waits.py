"""Request 1 of document 02, "Log by waiting time": the hub's records held against the words, which know calls and answers alone."""
from . import words
from .hub import Hub
from .log import answers_to
from .plan import Plan
from .text import Lines, Refusal


def hold_waits(plan, entries):
    """Holds every grant's wait against the words; how many grants had one."""
    by_words = words.waits(plan, entries)
    for entry, wait in zip(entries, by_words):
        if entry.wait != wait:
            raise RuntimeError(f'{entry.answer}, but by the words it waited {wait}')
    return sum(wait > 0 for wait in by_words)


def hold_records(plan, calls):
    """Makes the calls and holds every node's record behind each of them against the words; how many times a record was looked at."""
    hub, entries, seen = Hub(plan), [], 0
    for call in calls:
        entries.append(hub.enter(call))
        for k in range(1, plan.nodes + 1):
            request = hub.core.requests.get(k)
            recorded = request.since if request else None
            if recorded != words.first_put_up(plan, entries, k, words.clock_after(entries)):
                raise RuntimeError(f'node {k} has {recorded} in its record behind {call}')
            seen += request is not None
    return seen


class ListedHub(Hub):
    """A hub that keeps the list of its calls."""

    def __init__(self, plan):
        super().__init__(plan)
        self.entries = []

    def perform(self, call):
        answer = super().perform(call)
        self.entries.append(self.entry(call, answer))
        return answer


def hold_text(text):
    """Holds the calls that the program makes of a text; how many of its grants waited. A bad plan has none."""
    lines = Lines(text)
    try:
        hub = ListedHub(Plan(lines))
    except Refusal:
        return 0
    while lines.left():
        list(answers_to(hub, lines.next()))
    return hold_waits(hub.plan, hub.entries)
