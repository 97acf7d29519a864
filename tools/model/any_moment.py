"""Request 5 of document 02, "Any moment, not only a frame's start", of one high request in a list of calls."""
import itertools

from . import words
from .calls import HIGH


class Wait:
    """"Let a node put up a high request at time t with fewer than n high grants in that frame, keep it standing, and let no reservation
    change come into force until the grant. Then, with the steps run that far, its grant comes no later than t + D + the sum of c over all
    other nodes with a reservation in force." The request is the one at a place of the list: each premise, the grant, and the limit.

    One that was taken as normal never has "fewer than n" before it, since its n is 0.
    """

    def __init__(self, plan, entries, place):
        self.plan, self.entries, self.since = plan, entries, entries[place + 1:]
        asked = entries[place].call
        self.time, self.node, self.bits = asked.t, asked.k, asked.b
        self.first_frame = self.time // plan.frame
        self.grant = next((entry.answer for entry in self.since if words.is_grant_to(entry, self.node)), None)
        self.last_frame = (self.grant.time if self.grant else words.clock_after(entries)) // plan.frame
        self.limit = self.time + plan.interrupt + self.others()
        self.left = len(words.high_grants(plan, entries[:place], self.node, self.first_frame)) < self.shares()[self.node][0]
        self.stands = not any(words.accepted(entry, 'normal', 'off') for entry in self.own_events())
        self.unchanged = all(self.shares(f) == self.shares() for f in range(self.first_frame, self.last_frame + 1))
        self.ran = words.run_past(entries, self.limit)

    def shares(self, f=None):
        return words.reserved(self.plan, self.entries, self.first_frame if f is None else f)

    def others(self):
        """"The sum of c over all other nodes with a reservation in force"."""
        return sum(b + self.plan.overhead for k, (n, b) in self.shares().items() if k != self.node and n > 0)

    def own_events(self):
        """The node's accepted events before the grant. A normal or an off breaks the stand; a high only replaces the packet. One taken as
        normal needs no mention: with fewer than n grants n is at least 1, and so it stays where no change comes into force."""
        waited = itertools.takewhile(lambda entry: not words.is_grant_to(entry, self.node), self.since)
        return [entry for entry in waited if words.accepted(entry, 'normal', 'high', 'off') and entry.call.k == self.node]

    def holds(self):
        return self.left and self.stands and self.unchanged and self.ran

    def kept(self):
        return self.grant is not None and self.grant.class_ == HIGH and self.grant.time <= self.limit

    def is_replaced(self):
        return any(words.accepted(entry, 'high') and entry.call.t > self.time for entry in self.own_events())

    def crosses_a_start(self):
        return self.last_frame > self.first_frame
