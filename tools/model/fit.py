"""Request 10 of document 02, "What would make it fit": "the smallest single change that would turn it into a grant", by plain search."""
import copy
from dataclasses import dataclass

from .calls import Answer, call
from .offers import answer_at


@dataclass(frozen=True)
class Answered(Answer):
    """"An offer whose Slip 9 answer isn't 17 gets that answer back"."""
    number: int

    def word(self):
        return 'answer'


@dataclass(frozen=True)
class Packets(Answer):
    """The change to so many packets, "for the same node and b"."""
    n: int

    def answer_at(self, hub, t, offer):
        return answer_at(hub, t, offer._replace(n=self.n))


@dataclass(frozen=True)
class Bits(Answer):
    """The change to packets of so many bits, "at the same n"."""
    b: int

    def answer_at(self, hub, t, offer):
        return answer_at(hub, t, offer._replace(b=self.b))


@dataclass(frozen=True)
class Release(Answer):
    """The "whole release" of another node, with the offer as it is."""
    node: int

    def answer_at(self, hub, t, offer):
        return answer_at(released(hub, t, self.node), t, offer)


@dataclass(frozen=True)
class Nothing(Answer):
    """"If none, say so"."""


def changes(hub, offer):
    """Every single change, in the request's order. "The largest lower n of at least 1 .. If none, the largest lower b from 512 on .. If
    none, the other node .. with the least n × c, the lower number winning a tie"."""
    yield from (Packets(n) for n in reversed(range(1, offer.n)))
    yield from (Bits(b) for b in reversed(range(hub.plan.shortest_packet, offer.b)))
    yield from (Release(k) for k in others(hub, offer.k))


def others(hub, node):
    """The other nodes that have something reserved, the least n × c of their latest reservations first. The offering node isn't among
    them: its own reservation is replaced in every try."""
    loads = [(hub.core.load(share), k) for k, share in hub.core.latest.items() if k != node and share.n > 0]
    return [k for _, k in sorted(loads)]


def released(hub, t, node):
    """The hub as a node's release at t leaves it; the hub itself is only read. Where an offer at t has got as far as row 17, no row refuses
    a release at t."""
    left = copy.deepcopy(hub)
    left.perform(call('reserve', t, node, 0, 0))
    return left


def fit_at(hub, t, offer):
    """The first change that turns a 17 at t "into a grant", every one before it having failed. In a hall t is a later clock than the hub's
    own."""
    number = answer_at(hub, t, offer)
    if number != 17:
        return Answered(number)
    return next((change for change in changes(hub, offer) if change.answer_at(hub, t, offer) == 0), Nothing())


def fit(hub, offer):
    """The same at the clock, which is Slip 9's time."""
    return fit_at(hub, hub.core.clock, offer)
