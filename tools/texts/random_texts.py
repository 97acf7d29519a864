"""Random events on random plans; their logs are the model's."""
import random

from model.calls import call, written
from model.figures import FRAMING_MEANT, LATEST_TIME, LONGEST_PACKETS, MOST_LEVELS, MOST_PORTS
from model.hub import Hub
from model.log import answers_to, log
from model.plan import plan_of

from .case import Cases, as_bytes, framed, one_line_later, plan, strict

cases = Cases()

LARGEST_NUMBER = 9999999999999999  # of 16 digits


def random_tree(rng, hubs, nodes, empties):
    """Lines of a tree with at most so many of each, its ports in random order."""
    level, ports = {1: 1}, {1: []}

    def put(port, deepest):
        free = [h for h in ports if len(ports[h]) < MOST_PORTS and level[h] <= deepest]
        if free:
            hub = rng.choice(free)
            ports[hub].insert(rng.randint(0, len(ports[hub])), port)
            return hub
        return None

    for h in range(2, hubs + 1):
        above = put(h, MOST_LEVELS - 1)
        if above:
            level[h], ports[h] = level[above] + 1, []
    for port in ['(node)'] * nodes + ['(empty)'] * empties:
        put(port, MOST_LEVELS)

    def lines(hub):
        inside = [line for port in ports[hub] for line in (lines(port) if port in ports else [port])]
        return ['(hub', *(inside or ['(empty)']), ')']
    return lines(1)


def random_figures(rng, framing):
    T = rng.choice([100000, 100000, 4000000, rng.randint(100000, 400000)])
    O = rng.choice([0, 1000, 50000, rng.randint(0, 50000)])
    D = T if rng.random() < .08 else LONGEST_PACKETS[framing] + O + rng.choice([0, 0, rng.randint(0, 20000)])
    return T, O, min(T, D)


def random_time(rng, core):
    """Near the clock, the due instant and the next frame start; now and then one that row 11 refuses."""
    due, start = core.due(), core.next_frame()
    times = [core.clock, core.clock + rng.randint(0, 3000), core.clock + rng.randint(0, core.plan.frame // 2), start,
             start + rng.randint(0, 9), start - 1]
    if due is not None:
        times += [due, due + 1, due + rng.randint(0, 2000)] * 2
    return rng.choice(times) if rng.random() < .97 else rng.choice([LATEST_TIME + 1, max(0, core.clock - 1), LARGEST_NUMBER])


def random_length(rng, plan):
    """Of framing 5 also a length just above framing 3's longest."""
    longer = [longest + 1 for longest in LONGEST_PACKETS.values() if longest < plan.longest_packet]
    return rng.choice([512, 512, 600, 4000, plan.longest_packet, rng.randint(512, plan.longest_packet), *longer])


def random_event(rng, core, unreserved):
    """Now and then with a number that a row refuses. `unreserved` says how often a node without a share asks high."""
    nodes, t = core.plan.nodes, random_time(rng, core)
    k = rng.randint(1, nodes) if rng.random() < .97 else rng.choice([0, nodes + 1, LARGEST_NUMBER])
    n, b = rng.choice([0, 1, 1, 2, 3]), random_length(rng, core.plan)
    x = rng.random()
    if x < .2:
        return random_reserve(rng, core, t, k, n, b)
    if x < .8:
        return random_request(rng, core, t, k, b, unreserved)
    return call('off', t, k) if x < .9 else call('until', t)


def random_reserve(rng, core, t, k, n, b):
    if rng.random() < .1:
        n, b = rng.choice([64, 65, LARGEST_NUMBER]), rng.choice([0, 511, 512, core.plan.longest_packet + 1])
    return call('reserve', t, k, n, b if n or rng.random() < .1 else 0)


def random_request(rng, core, t, k, b, unreserved):
    longest = core.in_force(k, t).b if 1 <= k <= core.plan.nodes else 0
    high = rng.random() < (.8 if longest else unreserved)
    b = b if rng.random() < .96 else rng.choice([0, 511, core.plan.longest_packet + 1, LARGEST_NUMBER])
    return call('high' if high else 'normal', t, k, min(b, longest) if high and longest and rng.random() < .9 else b)


def damaged(rng, line):
    """One byte changed, taken out or put in; no LF and no byte 0."""
    at, byte = rng.randrange(len(line) + 1), rng.choice('()0123456789 \r\tabehilmnorstuvxNH')
    return rng.choice([line[:at] + byte + line[at + 1:], line[:at] + line[at + 1:], line[:at] + byte + line[at:]])


def random_plan(rng, sizes, framing=None):
    """The framing line is there if a framing is given."""
    lines = plan(*random_figures(rng, framing or FRAMING_MEANT), *random_tree(rng, *sizes))
    return framed(framing, lines) if framing else lines


def random_events(rng, plan_lines, count, unreserved=.1):
    """A hub of the plan goes along, so that each event's time is near the clock."""
    hub, lines = Hub(plan_of(plan_lines)), []
    for _ in range(count):
        line = written(random_event(rng, hub.core, unreserved))
        lines.append(damaged(rng, line) if rng.random() < .06 else line)
        list(answers_to(hub, lines[-1].encode()))
    return lines


def random_text(rng, sizes, events, framing=None):
    """As it was before request 8: the events go along with a hub that refuses unreserved high requests."""
    lines = random_plan(rng, sizes, framing)
    return lines + random_events(rng, strict(lines), events)


def relying(lines):
    """A text that relied on that refusal, so that its log isn't the same but for the line numbers, gets `(strict)`; another stays."""
    relied = log(as_bytes(strict(lines))).decode() != one_line_later(log(as_bytes(lines)))
    return strict(lines) if relied else lines


def damaged_plan(rng, lines, plan_lines):
    """One line of the plan damaged, until no other line is like it; the line's place."""
    at = rng.randrange(plan_lines)
    while lines[at] in lines[:at] + lines[at + 1:]:
        lines[at] = damaged(rng, lines[at])
    return at


SIZES = [
    (1, 1, 0), (1, 32, 0), (1, 2, 30), (2, 3, 1), (3, 5, 2), (5, 6, 0), (6, 8, 4), (9, 12, 3), (12, 20, 10), (16, 40, 0), (20, 60, 30),
    (24, 100, 50), (32, 40, 0), (32, 200, 100), (32, 256, 0), (32, 256, 700), (8, 225, 0)]
DAMAGED_SIZES = [(4, 6, 2), (12, 30, 5), (32, 256, 20)]
FRAMED_SIZES = [(1, 2, 0), (2, 3, 1), (5, 8, 3), (9, 12, 3), (20, 60, 30), (32, 256, 0)]


def add_cases():
    rng = random.Random(13)
    for i, sizes in enumerate(SIZES, 1):
        purpose = 'random events on at most {} hubs, {} nodes and {} empty ports'.format(*sizes)
        cases.by_model(f'random-{i}', purpose, relying(random_text(rng, sizes, 300)))
    for i, sizes in enumerate(DAMAGED_SIZES, len(SIZES) + 1):
        lines = random_text(rng, sizes, 20)
        at = damaged_plan(rng, lines, len(lines) - 20)
        cases.by_model(f'random-{i}', f'random, with one damaged line in its plan, {at + 1}', lines)
    short = relying(random_text(rng, (6, 9, 3), 200))
    cases.by_model(f'random-{len(SIZES) + 4}', 'random, cut in its last line', as_bytes(short)[:-3])


def add_framed_cases():
    """From numbers of their own, so that those above stay as they are."""
    rng = random.Random(3)
    for framing in LONGEST_PACKETS:
        for i, sizes in enumerate(FRAMED_SIZES, 1):
            purpose = 'random events with framing {} on at most {} hubs, {} nodes and {} empty ports'.format(framing, *sizes)
            cases.by_model(f'random-framing-{framing}-{i}', purpose, relying(random_text(rng, sizes, 150, framing)))


add_cases()
add_framed_cases()
