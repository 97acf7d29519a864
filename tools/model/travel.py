"""Request 13 of document 02, "A round's travel": how far control goes in a run of grants of one class."""
from .calls import Grant, Rest


def grants_behind(entries, place):
    """The grants behind the one at a place, "of one class with no rest and no other class between"."""
    first = entries[place].answer
    for entry in entries[place + 1:]:
        if isinstance(entry.answer, Rest) or isinstance(entry.answer, Grant) and entry.answer.class_ != first.class_:
            return
        if isinstance(entry.answer, Grant):
            yield entry


def farthest(plan, entries):
    """Holds the bound against every run of grants; how many go as far as they may, on a plan with lower hubs."""
    met = 0
    for place, first in enumerate(entries):
        if isinstance(first.answer, Grant):
            met += met_behind(plan, entries, place)
    return met


def met_behind(plan, entries, place):
    """"With H hubs and w returns of the root's pointer to port 1, the moves after the first grant are at most 2 × (H − 1) × (w + 1)"."""
    met = moves = returns = 0
    for entry in grants_behind(entries, place):
        moves, returns = moves + entry.answer.moves, returns + entry.returns
        most = 2 * (plan.hubs - 1) * (returns + 1)
        if moves > most:
            raise RuntimeError(f'{moves} moves behind {entries[place].answer}, with {returns} returns')
        met += plan.hubs > 1 and moves == most
    return met
