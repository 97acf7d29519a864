"""The hub: its core with whose turn it is, as calls and their answers."""
from typing import NamedTuple

from .calls import Answer, Call, Grant, Quiet, Refused, Rest, Taken
from .control import Control
from .core import Core
from .flat import Flat
from .rows import refusing_row


class Entry(NamedTuple):
    """A call of a list, its answer, and the returns of the root's pointer to port 1 in it."""
    call: Call
    answer: Answer
    returns: int

    @property
    def wait(self):
        """Of a grant; 0 of every other answer."""
        return self.answer.wait if isinstance(self.answer, Grant) else 0


class Hub:
    """Each grant's node is found twice, by control hub by hub and by the flat rule; where they differ it stops."""

    def __init__(self, plan, nearest=True):
        self.plan, self.core = plan, Core(plan)
        self.control, self.flat = Control(plan, nearest), Flat(plan)

    def perform(self, call):
        """The answer to a call; "a refusal .. changes no state"."""
        number = refusing_row(self.core, call)
        if number is not None:
            return Refused(number)
        if call.word == 'step':
            return self.step(call.t)
        self.core.take(call)
        return Taken()

    def step(self, bound):
        """"Handles the due instant if it is strictly before t"."""
        if not self.core.due_before(bound):
            return Quiet()
        self.core.advance(self.core.due())
        sought = self.core.sought()
        counting = self.core.counting(sought)
        return self.grant(sought, counting) if counting else self.rest()

    def rest(self):
        """"A rest is handled only where a busy line ends and no request counts"."""
        self.core.line_end = None
        self.control.rest()
        return Rest(self.core.clock, self.control.moves)

    def grant(self, sought, counting):
        node = self.control.grant(sought, counting)
        if node != self.flat.grant(sought, counting):
            raise RuntimeError(f'the flat rule and control differ at {self.core.clock}')
        end, wait = self.core.grant(node)
        return Grant(self.core.clock, node, sought, end, self.control.moves, wait)

    def enter(self, call):
        """The entry of a call in a list of calls."""
        return self.entry(call, self.perform(call))

    def entry(self, call, answer):
        """The same of a call that has just been answered."""
        return Entry(call, answer, self.control.returns if isinstance(answer, Grant) else 0)


def run(plan, calls, nearest=True):
    """"The first call gets a taken plan's hub before any event, each later one what the last returned or left"."""
    hub = Hub(plan, nearest)
    return [hub.enter(call) for call in calls]
