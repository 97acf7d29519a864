"""Request 9 of document 02, "Many offers in one pass": what the single reserve would answer to each offer, with nothing reserved."""
from typing import NamedTuple

from .calls import Refused, Taken, call
from .figures import MOST_OFFERS
from .rows import refusing_row


class Offer(NamedTuple):
    """A reservation that is asked about and not made: for node k, n packets a frame of at most b bits, or none, with n = 0 and b = 0.

    Each number has 64 bits. Rows 13, 14 and 15 refuse all that are too large, before row 17 multiplies any.
    """
    k: int
    n: int
    b: int


def answer_at(hub, t, offer):
    """"0 or the number that the single call would give" at t: the number of the first row that refuses it."""
    return refusing_row(hub.core, call('reserve', t, *offer)) or 0


def answers_at(hub, t, offers):
    """"Each as if alone against the present table": the hub is only read, so each offer finds the same table, whatever stands before it.

    The time is a parameter since in a hall it is a later clock than the hub's own, at which row 12 can refuse.
    """
    return [answer_at(hub, t, offer) for offer in offers]


def answers(hub, offers):
    """The same "at the clock", which is never late (11) and before which no instant is due (12): rows 13, 14, 15 and 17 are left."""
    return answers_at(hub, hub.core.clock, offers)


def offer_all(hub, offers, buffer):
    """The call: the answers go into the lent bytearray, "a byte each", and "bytes behind the answers stay".

    "More than 64 offers, or a buffer shorter than the answers, is 18, and nothing is written". No offer and an empty buffer are neither.
    """
    if len(offers) > MOST_OFFERS or len(buffer) < len(offers):
        return Refused(18)
    buffer[:len(offers)] = bytes(answers(hub, offers))
    return Taken()


def offer_numbers(hub, numbers, buffer):
    """The same with plain numbers, three an offer. Numbers that end within an offer are 1, before any 18: our own decision, since request 9
    knows whole offers only."""
    if len(numbers) % 3:
        return Refused(1)
    return offer_all(hub, [Offer(*numbers[i:i + 3]) for i in range(0, len(numbers), 3)], buffer)
