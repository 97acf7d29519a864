"""What doesn't depend on whose turn it is: the clock, the line, requests, reservations, frames and the due instant."""
import collections
from typing import NamedTuple

from .calls import CLASSES, HIGH, NORMAL


class Request(NamedTuple):
    class_: int
    bits: int
    since: int  # "the time at which its standing request was first put up"


class Share(NamedTuple):
    """"n high packets a frame, each at most b bits"."""
    n: int = 0
    b: int = 0

    def holds(self, bits):
        """Whether a high request of so many bits is the node's own: "n = 0, or .. longer than the b in force" is not."""
        return self.n > 0 and bits <= self.b


class Core:
    def __init__(self, plan):
        self.plan = plan
        self.clock = 0  # "the latest time of an accepted event or a handled instant, at first 0"
        self.line_end = None  # until when the line is busy, None while it rests
        self.requests = {}  # node -> its standing request
        self.latest = collections.defaultdict(Share)  # node -> its latest accepted reservation
        self.force = collections.defaultdict(Share)  # node -> the one in force; "in frame 0 nothing is reserved"
        self.high_grants = collections.Counter()  # node -> how many in the frame

    # Frames

    def frame_of(self, t):
        """"Frame f runs from f × T up to, not including, (f + 1) × T"."""
        return t // self.plan.frame

    def next_frame(self):
        return (self.frame_of(self.clock) + 1) * self.plan.frame

    def in_force(self, k, t):
        """k's share at t, which may lie in a later frame than the clock."""
        return (self.latest if t >= self.next_frame() else self.force)[k]

    def advance(self, t):
        """Moves the clock. Where it passes several frame starts, those behind the first find nothing left to change."""
        if t >= self.next_frame():
            self.start_frame()
        self.clock = t

    def start_frame(self):
        """"Reservations for it come into force together and high grants of every node count from 0"; then requests become normal.

        The clock stands before the start. "A change of class sets" the recorded time "anew, also the change at a frame's start": to that
        start itself, however much later the call comes.
        """
        self.force = self.latest.copy()
        self.high_grants.clear()
        for k, request in self.requests.items():
            if request.class_ == HIGH and not self.force[k].holds(request.bits):
                self.requests[k] = Request(NORMAL, request.bits, since=self.next_frame())

    # Requests that count, and the due instant

    def counts(self, k):
        """"A high request counts while its node's high grants in the frame are below n .. A normal request always counts"."""
        return self.requests[k].class_ == NORMAL or self.high_grants[k] < self.force[k].n

    def counting(self, class_):
        return {k for k, request in self.requests.items() if request.class_ == class_ and self.counts(k)}

    def sought(self):
        """"The class sought is high if any high request counts, else normal"."""
        return HIGH if self.counting(HIGH) else NORMAL

    def due(self):
        """"When the line is busy, at its end; when it rests, at the clock if some request counts, else at the next frame start if one
        is held, else never", which is None."""
        if self.line_end is not None:
            return self.line_end
        if any(self.counts(k) for k in self.requests):
            return self.clock
        return self.next_frame() if self.requests else None

    def due_before(self, t):
        due = self.due()
        return due is not None and due < t

    # Changes

    def class_put_up(self, event):
        """The class of the request that an accepted normal or high event puts up. "A high request from a node with n = 0 in force is taken
        as normal"; in a strict plan row 16 has refused it."""
        return CLASSES[event.word] if self.in_force(event.k, event.t).n > 0 else NORMAL

    def put_up(self, event):
        """"In place of any earlier one of its own". "A replacing request of the same class keeps that time, and a change of class sets it
        anew"; a class is the one in which a request stands, whatever its event was called."""
        class_, standing = self.class_put_up(event), self.requests.get(event.k)
        keeps = standing is not None and standing.class_ == class_
        self.requests[event.k] = Request(class_, event.b, standing.since if keeps else event.t)

    def take(self, event):
        """What an accepted event changes."""
        self.advance(event.t)
        if event.word in CLASSES:
            self.put_up(event)
        elif event.word == 'off':
            self.requests.pop(event.k, None)
        elif event.word == 'reserve':
            self.latest[event.k] = Share(event.n, event.b)

    def grant(self, k):
        """Takes k's request, with the clock at the grant's time; the packet's end, "s + b + O", and the wait, "the grant's time less the
        recorded time"."""
        request = self.requests.pop(k)
        if request.class_ == HIGH:
            self.high_grants[k] += 1
        self.line_end = self.clock + request.bits + self.plan.overhead
        return self.line_end, self.clock - request.since

    def load(self, share):
        """n × c of a reservation, "with c = b + O"."""
        return share.n * (share.b + self.plan.overhead)

    def fits(self, k, share):
        """Whether "D plus the sum of n × c over all nodes, .. with the new one in place of its node's old, is at most T"."""
        shares = {**self.latest, k: share}
        return self.plan.interrupt + sum(self.load(each) for each in shares.values()) <= self.plan.frame
