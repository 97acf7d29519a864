#!/usr/bin/env python3
"""Holds request 10's definition `fit_for` of crates/fit against its call vectors, and against the model of tools/model on random cases.

    python3 tools/random_fits.py [SEED [COUNT]]               default 1 200

Every fit of ../shared/vectors/calls/10-*.calls is a theorem about the definition, over the cells that the calls before it leave: its answer
is the vector's, and the model has no part in it. Each random case is a theorem too, with the model's answer. It has a random plan of either
framing, with figures at the ends of their ranges too. Of the at most 12 calls most are reserves that fill the frame up to a chosen room,
equal n × c among them; the others are calls as of tools/random_runs.py, so that frames begin, packets run, and reservations are given up or
wait for their frame. The offer is aimed at where one packet or one bit decides between two answers, or its numbers stand at the limits of
rows 13, 14 and 15 or are huge. The checker computes all of it. It works in a temporary folder, over the libraries that `rt check` built
of the crates (else they are proved there at first); it is no part of the gate.

At the end it says how many of each kind of answer agreed, and which edges the random ones have; or which differ. `cases(seed, count)` gives
the random ones, `random0` being the first.
"""
import collections
import itertools
import random
import sys
from typing import NamedTuple

from call_vectors import read_fit, told
from model.calls import Answer, call
from model.core import Share
from model.figures import LONGEST_PACKETS, MOST_PACKETS
from model.fit import Answered, Bits, Nothing, Packets, Release, changes, fit, others
from model.hub import Hub
from model.offers import Offer
from model.plan import plan_of
from offer_theorems import FITTED, hold, vector_lists
from random_offers import edge_offer, huge_offer
from random_runs import random_call, random_plan_lines

MOST_CALLS = 12


class Case(NamedTuple):
    """The model's answer to an offer at the clock behind these calls, which are made on a fresh hub of the plan of these lines."""
    lines: list
    calls: list
    offer: Offer
    answer: Answer

    def hub(self):
        """The hub that is asked."""
        hub = Hub(plan_of(self.lines))
        for made in self.calls:
            hub.perform(made)
        return hub


# Plans


def fit_plan_lines(rng):
    """A tree as of tools/random_runs.py, of at most 12 nodes, that mostly has several. Framing 3 is meant or written out, and where D is T
    there is no room at all."""
    least = rng.choice([1, 2, 3, 4, 4, 5, 6])
    while (lines := random_plan_lines(rng)).count('(node)') < least:
        pass
    framing, overhead = rng.choice([*LONGEST_PACKETS]), rng.choice([0, 1, 1000, 1000, 7000, 50000])
    frame = rng.choice([100000, 100000, 120000, 200000, 200000, 300000, 4000000])
    interrupt = rng.choice([0, 0, 1, 1000, 20000]) + LONGEST_PACKETS[framing] + overhead
    header = [f'(framing {framing})'] if framing == 5 or rng.random() < .5 else []
    header += ['(strict)'] if rng.random() < .3 else []
    figures = [f'(frame {frame})', f'(overhead {overhead})', f'(interrupt {min(interrupt, frame)})']
    return [*figures, *header, *lines[lines.index('(hub'):]]


# Calls that fill the frame


def room(hub, k):
    """What the other nodes' reservations leave to k."""
    return hub.plan.frame - hub.plan.interrupt - sum(hub.core.load(share) for node, share in hub.core.latest.items() if node != k)


def shares_of(hub, load):
    """Of every n the b with the most n × c up to this load, where that is a packet's length."""
    lengths = ((n, load // n - hub.plan.overhead) for n in range(1, MOST_PACKETS + 1))
    return [(n, b) for n, b in lengths if hub.plan.shortest_packet <= b <= hub.plan.longest_packet]


def exact_shares(hub, load):
    """Every n and b whose n × c is this load."""
    return [(n, b) for n, b in shares_of(hub, load) if load % n == 0]


def random_share(rng, hub, k):
    """Some of k's room; or the n × c of another node, by the same n and b or by others, so that they tie."""
    if (nodes := others(hub, k)) and rng.random() < .6:
        return rng.choice(exact_shares(hub, hub.core.load(hub.core.latest[rng.choice(nodes)])))
    return rng.choice(shares_of(hub, room(hub, k) // rng.randint(1, 6)) or [(1, hub.plan.shortest_packet)])


def small_load(rng, hub):
    """Some of the shortest packets give or take a bit, or anything up to a longest one."""
    shortest, longest = (b + hub.plan.overhead for b in (hub.plan.shortest_packet, hub.plan.longest_packet))
    return rng.choice([rng.randint(1, 4) * shortest + rng.choice([-1, 0, 1]), rng.randint(shortest, longest)])


def small_share(rng, hub):
    return rng.choice(shares_of(hub, small_load(rng, hub)) or [(1, hub.plan.shortest_packet)])


def filling_share(rng, hub, k):
    """All of k's room, but for a small load or nothing that is left; of what can't be filled as much as can be."""
    load = room(hub, k) - rng.choice([0, 1, *(small_load(rng, hub) for _ in range(5))])
    return rng.choice(exact_shares(hub, load) or shares_of(hub, load) or [(MOST_PACKETS, hub.plan.longest_packet)])


def filling_calls(rng, hub, k):
    """Each is to be made before the next is asked for. Others than k reserve, and then one may give it up again or a frame begin; the last
    of them fills the frame. k may have reserved something before, or reserve in what is left."""
    def reserve(node, share):
        return call('reserve', hub.core.clock, node, *share)
    nodes = [node for node in range(1, hub.plan.nodes + 1) if node != k]
    *nodes, last = rng.sample(nodes, rng.randint(1, min(7, len(nodes)))) if nodes else [k]
    if rng.random() < .3:
        yield reserve(k, small_share(rng, hub))
    for node in nodes:
        yield reserve(node, random_share(rng, hub, node))
    if rng.random() < .3:
        yield call('until', hub.core.next_frame())
    if nodes and rng.random() < .4:
        yield reserve(rng.choice(nodes), (0, 0))
    yield reserve(last, filling_share(rng, hub, last))
    if rng.random() < .2:
        yield reserve(k, small_share(rng, hub))


def mixed_calls(rng, hub, k):
    """The same with any other call now and then."""
    for made in filling_calls(rng, hub, k):
        yield made
        if rng.random() < .2:
            yield random_call(rng, hub)


def fit_calls(rng, hub, k):
    """As many of these as there may be, made on the hub."""
    for made in itertools.islice(mixed_calls(rng, hub, k), MOST_CALLS):
        hub.perform(made)
        yield made


# Offers


def aimed_shares(rng, hub, load):
    """Those with exactly this n × c or a bit more; where there are none, or now and then, those that come near it."""
    exact = exact_shares(hub, load + rng.choice([0, 0, 1])) if rng.random() < .7 else []
    return exact or shares_of(hub, load)


def packets_offer(rng, hub, k):
    """As many packets as k's room just holds or doesn't, or more."""
    n, b = rng.choice(aimed_shares(rng, hub, room(hub, k)) or [(1, hub.plan.shortest_packet)])
    return Offer(k, min(MOST_PACKETS, n + rng.choice([0, 1, 1, 2, rng.randint(0, MOST_PACKETS)])), b)


def bits_offer(rng, hub, k):
    """Packets of so many bits that k's room just holds one or none, or of any number; as many as it just holds or doesn't of the shortest,
    or fewer."""
    plan, free = hub.plan, room(hub, k)
    most, bits = free // (plan.shortest_packet + plan.overhead), free - plan.overhead
    n = rng.choice([1, most, most, most + 1, rng.randint(1, max(1, most))])
    b = rng.choice([bits, bits + 1, bits + 1, plan.longest_packet, rng.randint(plan.shortest_packet, plan.longest_packet)])
    return Offer(k, min(MOST_PACKETS, max(1, n)), min(plan.longest_packet, max(plan.shortest_packet, b)))


def release_offer(rng, hub, k):
    """What k's room just holds or doesn't with another node's release, and in no case with fewer packets or fewer bits instead."""
    plan, free = hub.plan, room(hub, k)
    loads = [free + hub.core.load(hub.core.latest[node]) for node in others(hub, k)]
    shares = [share for load in loads for share in aimed_shares(rng, hub, load)]
    fitting = [(n, b) for n, b in shares if n * (plan.shortest_packet + plan.overhead) > free and (n == 1 or b + plan.overhead > free)]
    return Offer(k, *rng.choice(fitting)) if fitting else bits_offer(rng, hub, k)


def limit_offer(rng, hub, k):
    """At the limits of rows 14 and 15, or of rows 13, 14 and 15."""
    offer = rng.choice([edge_offer, edge_offer, huge_offer])(rng, hub)
    return rng.choice([offer, offer._replace(k=k)])


def fit_offer(rng, hub, k):
    """Mostly of node k."""
    return rng.choice([packets_offer, packets_offer, bits_offer, bits_offer, bits_offer, release_offer, release_offer, release_offer,
                       limit_offer, limit_offer])(rng, hub, k)


# Cases


def random_case(rng):
    lines = fit_plan_lines(rng)
    hub = Hub(plan_of(lines))
    k = rng.randint(1, hub.plan.nodes)
    calls = list(fit_calls(rng, hub, k))
    offer = fit_offer(rng, hub, k)
    return Case(lines, calls, offer, fit(hub, offer))


def cases(seed, count):
    """So many of a seed, always the same."""
    rng = random.Random(seed)
    return (random_case(rng) for _ in range(count))


# Theorems


class Asked(NamedTuple):
    """An offer behind these calls, and the answer in the vectors' words."""
    name: str
    calls: list
    offer: Offer
    answer: str

    def theorem(self, plan):
        return FITTED.theorem(plan, self.name, self.calls, map(str, self.offer), self.answer.capitalize())


def asked_by(name, calls, vector):
    """A line of fit, or None."""
    offer = read_fit(vector.call)
    return offer and Asked(name, calls, offer, vector.answer)


def random_lists(random_cases):
    for i, case in enumerate(random_cases):
        yield f'random{i}-plan', case.lines, [Asked(f'random{i}', case.calls, case.offer, told(case.answer))]


# What they reach


def spare(hub, offer, change=None):
    """The bit times that the frame has to spare with an offer, perhaps changed; below 0 it can't hold it."""
    released = hub.core.load(hub.core.latest[change.node]) if isinstance(change, Release) else 0
    n = change.n if isinstance(change, Packets) else offer.n
    b = change.b if isinstance(change, Bits) else offer.b
    return room(hub, offer.k) + released - hub.core.load(Share(n, b))


def edges_of_17(hub, offer, answer):
    """What is remarkable about an answer that names a change or says that there is none: each with whether it is so."""
    before = [None, *itertools.takewhile(lambda change: change != answer, changes(hub, offer))]
    loads = {node: hub.core.load(hub.core.latest[node]) for node in others(hub, offer.k)}
    named = loads[answer.node] if isinstance(answer, Release) else None
    return {
        'full to the bit': not isinstance(answer, Nothing) and spare(hub, offer, answer) == 0,
        'one before lacks a bit': any(spare(hub, offer, change) == -1 for change in before),
        'one packet less': answer == Packets(offer.n - 1),
        'one bit less': answer == Bits(offer.b - 1),
        'a tie': list(loads.values()).count(named) > 1,
        'a smaller one fails': named is not None and min(loads.values()) < named,
        'no other reserved': not loads,
        'its own replaced': hub.core.latest[offer.k].n > 0,
    }


def edges(case):
    """The same about any case."""
    hub, offer, answer = case.hub(), case.offer, case.answer
    core = hub.core
    given_up = any(share.n > 0 and core.latest[node].n == 0 for node, share in core.force.items())
    of_hub = {f'framing {hub.plan.framing}': True, 'line busy': core.line_end is not None, 'one given up in force': given_up}
    if isinstance(answer, Answered):
        return {**of_hub, 'full to the bit': answer.number == 0 < offer.n and spare(hub, offer) == 0}
    return {**of_hub, **edges_of_17(hub, offer, answer)}


# All of it


def kind(answer):
    """The word of an answer in the vectors' words, and the number of one that comes back."""
    return answer if answer.startswith('answer') else answer.partition(' ')[0]


def counted(counter):
    return ', '.join(f'{times} {each}' for each, times in sorted(counter.items()))


def edges_by_kind(random_cases):
    """How many cases of each kind of answer there are, and how many of these have each edge."""
    kinds, met = collections.Counter(), collections.defaultdict(collections.Counter)
    for case in random_cases:
        kinds[kind(told(case.answer))] += 1
        met[kind(told(case.answer))].update(edge for edge, is_so in edges(case).items() if is_so)
    return [(times, each, met[each]) for each, times in sorted(kinds.items())]


def main():
    seed, count = ([int(x) for x in sys.argv[1:]] + [1, 200][len(sys.argv) - 1:])[:2]
    vectors, random_cases = list(vector_lists(10, asked_by)), list(cases(seed, count))
    hold(FITTED, [*vectors, *random_lists(random_cases)], 'random_fits', seed)
    kinds = collections.Counter(kind(asked.answer) for *_, all_asked in vectors for asked in all_asked)
    print(f'agreed: {kinds.total()} answers of the vectors ({counted(kinds)}); {count} random ones of seed {seed}:')
    for times, each, met in edges_by_kind(random_cases):
        print(f'  {times} {each}: {counted(met)}')


if __name__ == '__main__':
    main()
