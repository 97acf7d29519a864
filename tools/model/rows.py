"""Where each no is said to an event or a step: the rows from 11 on, in the table's order. "The first row decides"."""
from .calls import CALLS, EVENTS
from .core import Share
from .figures import LATEST_TIME, MOST_PACKETS

ROWS = []  # a row's number, the calls it speaks of, and its condition


def row(number, words):
    def added(condition):
        ROWS.append((number, tuple(words), condition))
        return condition
    return added


def refusing_row(core, call):
    """The number of the first row that refuses a call, or None."""
    return next((number for number, words, refuses in ROWS if call.word in words and refuses(core, call)), None)


# "t above 10^15, or before the clock"
@row(11, CALLS)
def time_not_allowed(core, call):
    return call.t > LATEST_TIME or call.t < core.clock


# "An instant strictly before t is due."
@row(12, EVENTS)
def instant_due(core, call):
    return core.due_before(call.t)


# "k is 0 or above N"
@row(13, ('normal', 'high', 'off', 'reserve'))
def no_node(core, call):
    return not 1 <= call.k <= core.plan.nodes


# "n above 64"
@row(14, ('reserve',))
def too_many_packets(core, call):
    return call.n > MOST_PACKETS


# "b outside 512 to 12,000; in a reserve with n = 0 instead: b not 0"; request 3: "takes the longest packet from the plan"
@row(15, ('normal', 'high', 'reserve'))
def no_length(core, call):
    if call.n == 0:
        return call.b != 0
    return not core.plan.shortest_packet <= call.b <= core.plan.longest_packet


# "n in force at t is 0, or b above the b in force"; by request 8 only `(strict)` "keeps the refusal" where n is 0
@row(16, ('high',))
def not_reserved(core, call):
    share = core.in_force(call.k, call.t)
    return call.b > share.b if share.n > 0 else core.plan.strict


# "The frame can't hold it."
@row(17, ('reserve',))
def frame_full(core, call):
    return not core.fits(call.k, Share(call.n, call.b))
