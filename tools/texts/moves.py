"""Moves at a change of class, from none to the most, on a plan with two arms of hubs."""
import itertools

from .case import Cases, plan

cases = Cases()


def arm(levels):
    """A hub with a node, and below it a hub with a node, and so on."""
    return ['(hub', '(node)', *(arm(levels - 1) if levels > 1 else []), ')']


# The root's ports: node 1; an arm with node d + 1 at depth d = 1 .. 4; another with node d + 5; node 10.
ARMS = plan(100000, 1000, 13000, '(hub', '(node)', *arm(4), *arm(4), '(node)', ')')


def arms_nodes(up, marked, fresh):
    """x at the depth `marked` of the first arm, y and z at the depths `up` and `fresh` of the second; at depth 0 the root's own nodes."""
    return 1 + marked, 5 + up if up else 10, 5 + fresh if fresh else 10


def arms_log(first, then, up, marked, fresh):
    """x in one class, y in the other, then z and x in the first: by the rules' words, where depth is the moves from the root.

    x: down to it. y: up to the root for the class, down to it. z: up for the class; x stands behind its hub's pointer, so down the marked
    line and up it; then down to z. x again: up from z, round the root to port 1, down afresh.
    """
    x, y, z = arms_nodes(up, marked, fresh)
    return [
        '(nodes 10 hubs 9)',
        f'(grant 100000 {x} {first} 101512 {marked} 0)',
        f'(grant 101512 {y} {then} 103024 {marked + up} 1511)',
        f'(grant 103024 {z} {first} 104536 {up + marked + marked + fresh} 1424)',
        f'(grant 104536 {x} {first} 106048 {fresh + marked} 2936)',
        f'(rest 106048 {marked})']


def to_normal(x, y, z):
    return [f'(reserve 0 {y} 1 512)', f'(normal 100000 {x} 512)', f'(high 100001 {y} 512)', f'(normal 101600 {x} 512)',
            f'(normal 101600 {z} 512)', '(until 120000)']


def to_high(x, y, z):
    return [f'(reserve 0 {x} 2 512)', f'(reserve 0 {z} 1 512)', f'(high 100000 {x} 512)', f'(normal 100001 {y} 512)',
            f'(high 101600 {x} 512)', f'(high 101600 {z} 512)', '(until 120000)']


TRIPLES = [
    (0, 0, 0), (0, 0, 1), (2, 0, 0), (1, 1, 0), (0, 1, 2), (0, 2, 1), (3, 1, 1), (1, 2, 2), (4, 0, 4), (2, 3, 1), (3, 2, 3), (1, 4, 2),
    (4, 3, 2), (2, 4, 3), (3, 4, 3), (4, 4, 3), (4, 4, 4)]
for moves, (up, marked, fresh) in enumerate(TRIPLES):
    assert up + 2 * marked + fresh == moves
    nodes = arms_nodes(up, marked, fresh)
    parts = f'up {up}, the marked line {marked} down and up, afresh {fresh}'
    cases.worked(f'moves-{moves}-to-normal', f'{moves} moves at a change to normal: {parts}', ARMS + to_normal(*nodes),
                 arms_log(1, 2, up, marked, fresh))
    cases.worked(f'moves-{moves}-to-high', f'{moves} moves at a change to high: {parts}', ARMS + to_high(*nodes),
                 arms_log(2, 1, up, marked, fresh))


# A normal grant at the depth `turn` of the first arm, a high one at the greater depth `deep`, and a normal one there: the normal pointers
# lead down to the hub at the depth `turn`, whose own is behind its node and not marked (at depth 0 none leads anywhere). So up to that hub,
# and down from it afresh; by the old rule 2 it took 2 × deep.
for deep in range(1, 5):
    for turn in range(deep):
        cases.worked(f'turn-at-{turn}-from-{deep}', f'a change to normal turns at depth {turn}, from depth {deep}', ARMS + [
            f'(reserve 0 {deep + 1} 1 512)', f'(normal 100000 {turn + 1} 512)', f'(high 100001 {deep + 1} 512)',
            f'(normal 101600 {deep + 1} 512)', '(until 120000)',
        ], ['(nodes 10 hubs 9)', f'(grant 100000 {turn + 1} 1 101512 {turn} 0)', f'(grant 101512 {deep + 1} 2 103024 {turn + deep} 1511)',
            f'(grant 103024 {deep + 1} 1 104536 {2 * (deep - turn)} 1424)', f'(rest 104536 {deep})'])

every = []
for i, depths in enumerate(itertools.product(range(5), repeat=3)):
    x, y, z = arms_nodes(*depths)
    t = 100000 * (1 + i)
    every += [f'(reserve {t - 50000} {y} 1 512)', f'(normal {t} {x} 512)', f'(high {t + 1} {y} 512)', f'(normal {t + 1600} {x} 512)',
              f'(normal {t + 1600} {z} 512)', f'(reserve {t + 20000} {y} 0 0)']
cases.by_model(
    'moves-one-after-the-other', 'all 125 of these depths in one text, so that each meets the pointers that the others left',
    ARMS + every + ['(until 20000000)'])
