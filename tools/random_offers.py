#!/usr/bin/env python3
"""Holds request 9's definitions of crates/offers against its call vectors, and against the model of tools/model on random lists of calls.

    python3 tools/random_offers.py [SEED [RUNS [CALLS]]]      default 1 30 40

Every line of offers of ../shared/vectors/calls/09-*.calls is a theorem about the definitions, over the cells that the calls before it
leave: the number and the whole buffer left behind are the vector's, and the model has no part in it. Each run is a random plan and a random
list of calls, as of tools/random_runs.py, with offers in a random buffer at every few calls; there the right side is the model's. Their
numbers stand at the limits of rows 13, 14 and 15, at the room that the reservations leave (row 17), or are huge; lists have up to 64
offers, or too many, and some end within an offer. The checker computes all of it. It works in a temporary folder, over the libraries that
`rt check` built of the crates (else they are proved there at first); it is no part of the gate.

The last line counts the offers and their answers; 1 and 18 are the answers to whole lists, whose offers have none.
"""
import collections
import random
import sys
from typing import NamedTuple

from call_vectors import UNTOUCHED, read_offers, stated_outcome, told
from model.figures import LONGEST_PACKETS, MOST_OFFERS, MOST_PACKETS
from model.hub import Hub
from model.offers import Offer, offer_numbers
from model.plan import plan_of
from offer_theorems import OFFERED, hold, vector_lists
from random_runs import random_plan_lines, random_run
from theorems import as_list

LARGEST = 2**64 - 1


class Asked(NamedTuple):
    """Offers as plain numbers, behind these calls, in a buffer of these bytes; and the answer with the whole buffer left."""
    name: str
    calls: list
    numbers: list
    buffer: list
    outcome: list

    def theorem(self, plan):
        numbers, buffer, outcome = (as_list(map(str, each)) for each in (self.numbers, self.buffer, self.outcome))
        return OFFERED.theorem(plan, self.name, self.calls, [numbers, buffer], outcome)


def asked_by(name, calls, vector):
    """A line of offers, or None."""
    if (offers := read_offers(vector.call)) is None:
        return None
    numbers = [number for offer in offers.offered for number in offer]
    outcome = [int(number) for number in stated_outcome(offers, vector.answer)]
    return Asked(name, calls, numbers, [UNTOUCHED] * offers.length, outcome)


# Random offers


def edge_offer(rng, hub):
    """At the limits of rows 13, 14 and 15, of either framing."""
    plan = hub.plan
    shortest, longest = plan.shortest_packet, rng.choice([*LONGEST_PACKETS.values()])
    return Offer(rng.choice([0, 1, 1, plan.nodes, plan.nodes, plan.nodes + 1]), rng.choice([0, 0, 1, 2, MOST_PACKETS, MOST_PACKETS + 1]),
                 rng.choice([0, 0, 1, *(b + more for b in (shortest, longest) for more in (-1, 0, 1))]))


def huge_offer(rng, hub):
    """One of its numbers is the largest of 64 bits, or one that fewer bits couldn't tell from the small one."""
    offer = edge_offer(rng, hub)
    field = rng.choice(Offer._fields)
    return offer._replace(**{field: rng.choice([LARGEST, *(getattr(offer, field) + 2**bits for bits in (8, 16, 32, 63))])})


def aimed_offer(rng, hub):
    """At the room that the other nodes' reservations leave to its node, plus or minus a bit."""
    plan, core, k = hub.plan, hub.core, rng.randint(1, hub.plan.nodes)
    room = plan.frame - plan.interrupt - sum(core.load(share) for node, share in core.latest.items() if node != k)
    fitting = {n: room // n - plan.overhead for n in range(1, MOST_PACKETS + 1)}
    in_range = [n for n, b in fitting.items() if plan.shortest_packet <= b <= plan.longest_packet]
    n = rng.choice(in_range or [1])
    return Offer(k, n, max(0, fitting[n] + rng.choice([-1, 0, 1, 1])))


def random_numbers(rng, hub):
    """Those of a list of offers. Now and then it has as many as are taken, or one more; and now and then it ends within an offer."""
    count = rng.randint(0, 6) if rng.random() < .95 else rng.choice([MOST_OFFERS, MOST_OFFERS + 1])
    offers = [rng.choice([edge_offer, huge_offer, aimed_offer, aimed_offer])(rng, hub) for _ in range(count)]
    torn = edge_offer(rng, hub)[:rng.randint(1, 2)] if rng.random() < .08 else ()
    return [*(number for offer in offers for number in offer), *torn]


def random_asked(rng, name, hub, calls):
    """In a buffer that is exact, longer or one byte short; the outcome is the model's."""
    numbers = random_numbers(rng, hub)
    length = max(0, len(numbers) // 3 + rng.choice([0, 0, 0, 1, 5, -1]))
    buffer = bytearray(rng.randbytes(length))
    before = [*buffer]
    return Asked(f'{name}-behind{len(calls)}', calls, numbers, before, [int(told(offer_numbers(hub, numbers, buffer))), *buffer])


def random_list(rng, name, plan, count):
    """The offers of a run of so many calls."""
    hub, calls = Hub(plan), []
    for entry in random_run(rng, plan, count):
        if rng.random() < .2:
            yield random_asked(rng, name, hub, [*calls])
        hub.perform(entry.call)
        calls.append(entry.call)
    yield random_asked(rng, name, hub, calls)


def random_lists(rng, runs, count):
    for i in range(runs):
        lines = random_plan_lines(rng)
        yield f'random{i}-plan', lines, list(random_list(rng, f'random{i}', plan_of(lines), count))


# All of it


class Tally:
    def __init__(self, lists):
        self.lists = self.offers = 0
        self.answers = collections.Counter()
        for asked in (asked for *_, all_asked in lists for asked in all_asked):
            self.add(asked)

    def add(self, asked):
        """Of a list that is refused the number is its only answer."""
        number, *left = asked.outcome
        count = len(asked.numbers) // 3
        self.lists += 1
        self.offers += count
        self.answers.update([number] if number else left[:count])

    def __str__(self):
        met = ', '.join(f'{count} times {answer}' for answer, count in sorted(self.answers.items()))
        return f'{self.offers} offers in {self.lists} lists ({met})'


def main():
    seed, runs, count = ([int(x) for x in sys.argv[1:]] + [1, 30, 40][len(sys.argv) - 1:])[:3]
    vectors, randoms = list(vector_lists(9, asked_by)), list(random_lists(random.Random(seed), runs, count))
    hold(OFFERED, [*vectors, *randoms], 'random_offers', seed)
    print(f'agreed: of the vectors {Tally(vectors)}; of {runs} random runs of {count} calls {Tally(randoms)}')


if __name__ == '__main__':
    main()
