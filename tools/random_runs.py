#!/usr/bin/env python3
"""Holds the definitions of crates/rules against the model of tools/model, on random lists of calls.

    python3 tools/random_runs.py [SEED [RUNS [CALLS]]]        default 1 100 80

Each run is a random plan of either framing, strict or not, and a random list of calls, refused ones among them and high requests of nodes
that have reserved nothing. Its answers by the model are written as a theorem about the definitions (`answers p (control p) calls` is this
list), which the checker computes; and so are those by the rule 2 that document 01 had before (`from_root`), and the returns of the root's
pointer in each call (`call_returns`), and the wait of each grant, once as the definitions record it (`watched`) and once by request 1's
words (`stand_at`). Request 13's bound is held against the model's own moves and returns, and so are the model's waits and every node's
recorded time behind each call against its own reading of request 1's words, which know calls and answers alone. For some high requests of
each list, up to two taken as normal among them, request 5's premises, the grant and the limit are looked up in the list by the model, and
by the definitions there (`figures` of `AnyMomentRuns`); where all premises hold, the grant is held against the limit. It works in a
temporary folder; it is no part of the gate.
"""
import collections
import pathlib
import random
import shutil
import subprocess
import sys
import tempfile

from model.any_moment import Wait
from model.calls import HIGH, Grant, Refused, call, class_name
from model.figures import LATEST_TIME, LONGEST_PACKETS, MOST_LEVELS, MOST_PACKETS
from model.hub import Hub, run
from model.plan import plan_of
from model.travel import farthest
from model.waits import hold_records, hold_waits
from model.words import accepted, puts_up_high
from theorems import HEAD, list_theorem, wait_theorem

ROOT = pathlib.Path(__file__).resolve().parent.parent

# Random plans


def random_hub(rng, level):
    lines = ['(hub']
    for _ in range(rng.randint(1, 4)):
        x = rng.random()
        if x < .5 or level == MOST_LEVELS:
            lines.append('(node)')
        elif x < .62:
            lines.append('(empty)')
        else:
            lines += random_hub(rng, level + 1)
    return lines + [')']


def random_plan_lines(rng):
    """At most 12 nodes and 10 hubs, so that the checker computes its lists in a short time. Framing 3 is meant or written out; half are
    strict."""
    while True:
        tree = random_hub(rng, 1)
        frame, overhead = rng.choice([100000, 100000, 120000]), rng.choice([0, 1000, 7000])
        framing = rng.choice([*LONGEST_PACKETS])
        header = [f'(framing {framing})'] if framing == 5 or rng.random() < .5 else []
        header += ['(strict)'] if rng.random() < .5 else []
        interrupt = LONGEST_PACKETS[framing] + overhead + rng.choice([0, 1000, 20000])
        if 1 <= tree.count('(node)') <= 12 and tree.count('(hub') <= 10:
            return [f'(frame {frame})', f'(overhead {overhead})', f'(interrupt {interrupt})', *header, *tree]


# Random calls

RESERVES = [(0, 0), (1, 4000), (1, 12000), (2, 512), (2, 4000), (3, 512), (5, 512), (MOST_PACKETS + 1, 512), (0, 512), (1, 0), (29, 2000),
            (40, 1000), (1, 12001), (1, 36000), (1, 36001)]


def random_length(rng, plan):
    """Mostly one of the plan's; else at the ends of either framing, which its own takes or not."""
    if rng.random() < .94:
        return rng.choice([512, 512, 600, 4000, 12000, plan.longest_packet])
    return rng.choice([plan.shortest_packet - 1, *(longest + more for longest in LONGEST_PACKETS.values() for more in (0, 1))])


def random_call(rng, hub):
    """Times near the clock, the due instant and the next frame's start; now and then a number that a row refuses."""
    plan, core, due = hub.plan, hub.core, hub.core.due()
    start = core.next_frame()
    near = [core.clock, core.clock + rng.randint(0, 3000), core.clock + rng.randint(0, 60000), start, start + rng.randint(0, 9)]
    if due is not None:
        near += [due, due, due + 1, max(0, due - 1)]
    t = rng.choice(near) if rng.random() < .98 else rng.choice([LATEST_TIME + 1, max(0, core.clock - 1)])
    k = rng.randint(1, plan.nodes) if rng.random() < .97 else rng.choice([0, plan.nodes + 1])
    b = random_length(rng, plan)
    x = rng.random()
    if x < .42 or (due is not None and rng.random() < .35):
        return call('step', max(t, (due or 0) + 1) if rng.random() < .9 else t)
    if x < .60:
        return call('normal', t, k, b)
    if x < .80:
        return call('high', t, k, b)
    if x < .85:
        return call('off', t, k)
    if x < .95:
        return call('reserve', t if rng.random() < .4 else core.clock, k, *rng.choice(RESERVES))
    return call('until', t)


def replacing_call(rng, hub, k):
    """Another high request of a node whose high request counts, not before it."""
    core = hub.core
    return call('high', rng.randint(core.clock, core.due()), k, rng.randint(hub.plan.shortest_packet, core.force[k].b))


def loaded_call(rng, hub):
    waiting = sorted(hub.core.counting(HIGH))
    if waiting and rng.random() < .2:
        return replacing_call(rng, hub, rng.choice(waiting))
    if rng.random() < .4:
        return call('step', (hub.core.due() or hub.core.clock) + 1)
    word = rng.choice(['normal', 'normal', 'high'])
    b = rng.choice([512, 512, hub.plan.longest_packet]) if word == 'normal' else 512
    return call(word, hub.core.clock, rng.randint(1, hub.plan.nodes), b)


def first_calls(rng, plan):
    """In half of the lists most nodes reserve at first."""
    shares = [(1, 512), (2, 512), (1, 4000), (1, plan.longest_packet)]
    reserves = [call('reserve', 0, k, *rng.choice(shares)) for k in range(1, plan.nodes + 1) if rng.random() < .8]
    return [*reserves, call('until', plan.frame)] if rng.random() < .5 else []


def calls_over_a_start(rng, hub):
    """A packet runs over the next frame start while a high request stands, for whose node less, nothing or the same is reserved; the first
    call behind the start may replace the request. Of a hub at which other instants are due, rows refuse most of them."""
    core, start, longest = hub.core, hub.core.next_frame(), hub.plan.longest_packet
    reserved = [k for k in range(1, hub.plan.nodes + 1) if core.force[k].n > 0]
    if not reserved:
        return []
    k, t = rng.choice(reserved), max(core.clock, start - rng.randint(10, 9000))
    n, b = core.force[k]
    share = rng.choice([(0, 0), (n, b), (n, max(hub.plan.shortest_packet, b - 1))])
    later = start + rng.randint(0, 1500)
    asked = [call(word, later, k, rng.choice([600, b])) for word in rng.sample(['normal', 'high', 'normal'], rng.randint(0, 2))]
    return [call('step', t), call('normal', t, rng.randint(1, hub.plan.nodes), longest), call('step', t + 1),
            call('high', t + 2, k, b), call('reserve', t + 3, k, *share), *asked, call('step', start + longest + hub.plan.overhead)]


def random_run(rng, plan, count):
    """The entries of so many calls. Half of the lists are loaded: so many requests stand that the line seldom rests."""
    hub, loaded, entries, next_calls = Hub(plan), rng.random() < .5, [], first_calls(rng, plan)
    while len(entries) < count:
        if not next_calls and rng.random() < .06:
            next_calls = calls_over_a_start(rng, hub)
        if next_calls:
            made = next_calls.pop(0)
        else:
            made = loaded_call(rng, hub) if loaded and rng.random() < .8 else random_call(rng, hub)
        entries.append(hub.enter(made))
    return entries


def waits(rng, plan, entries):
    """Some of the list's high requests, one that is replaced and up to two taken as normal among them, also as they are if it ends before;
    few frames, since each is looked at."""
    found = []
    for end in (len(entries), rng.randint(1, len(entries))):
        cut = entries[:end]
        places = [i for i, entry in enumerate(cut) if accepted(entry, 'high')]
        asked = [Wait(plan, cut, i) for i in places if puts_up_high(plan, cut, i)]
        as_normal = [Wait(plan, cut, i) for i in places if not puts_up_high(plan, cut, i)]
        found += rng.sample(asked, min(3, len(asked)))
        found += rng.sample(as_normal, min(2, len(as_normal)))
        found += [wait for wait in asked if wait.holds() and wait.is_replaced()][:1]
    return [wait for wait in found if wait.last_frame - wait.first_frame < 20]


# Each run's theorems, with what it met


def kind_of(answer):
    """A refusal with its row, a grant with its class."""
    details = [answer.number] if isinstance(answer, Refused) else [class_name(answer.class_)] if isinstance(answer, Grant) else []
    return ' '.join(str(word) for word in [answer.word(), *details])


class Tally:
    def __init__(self):
        self.answers, self.waits = collections.Counter(), collections.Counter()
        self.most_moves = self.other_moves = self.returns = self.farthest = self.taken_as_normal = 0
        self.waited = self.records = 0

    def add_list(self, plan, entries, by_root):
        for answer in (entry.answer for entry in entries):
            self.answers[kind_of(answer)] += 1
            self.most_moves = max(self.most_moves, answer.moves if isinstance(answer, Grant) else 0)
        self.other_moves += sum(entry.answer != old.answer for entry, old in zip(entries, by_root))
        self.returns += sum(entry.returns for entry in entries)
        self.farthest += farthest(plan, entries)
        self.waited += hold_waits(plan, entries)
        self.records += hold_records(plan, [entry.call for entry in entries])
        self.taken_as_normal += sum(accepted(entry, 'high') and not puts_up_high(plan, entries, i) for i, entry in enumerate(entries))

    def add_wait(self, wait):
        self.waits['looked at'] += 1
        self.waits['premises hold'] += wait.holds()
        self.waits['over a start'] += wait.holds() and wait.crosses_a_start()
        self.waits['replaced later'] += wait.holds() and wait.is_replaced()
        for premise in ('left', 'stands', 'unchanged', 'ran'):
            self.waits[f'not {premise}'] += not getattr(wait, premise)

    def __str__(self):
        return (f'at most {self.most_moves} moves, {self.other_moves} steps with other moves than by the root, {self.returns} returns, '
                f'request 13 met {self.farthest} times, {self.taken_as_normal} high requests taken as normal; '
                f'request 1: {self.waited} grants that waited, {self.records} records; '
                f'request 5: {dict(self.waits.most_common())} {dict(self.answers.most_common())}')


def theorems_of_run(rng, i, count, tally):
    plan = plan_of(random_plan_lines(rng))
    entries = random_run(rng, plan, count)
    by_root = run(plan, [entry.call for entry in entries], nearest=False)
    tally.add_list(plan, entries, by_root)
    yield list_theorem(i, plan, entries, by_root)
    for j, wait in enumerate(waits(rng, plan, entries)):
        if wait.holds() and not wait.kept():
            sys.exit(f'random_runs: request 5 fails: {vars(wait)}')
        tally.add_wait(wait)
        yield wait_theorem(f'wait{i}-{j}', i, wait)


# The checker


def crates_below(names):
    """The crates of these names and all that they stand on, each with its line of crates.txt as it is: rt's stamp of a proof has it too."""
    lines = [line for line in (ROOT / 'crates.txt').read_text().splitlines() if line and not line.startswith('#')]
    lines, found, left = {line.partition(':')[0].split()[0]: line for line in lines}, {}, [*names]
    while left:
        name = left.pop()
        if name not in found:
            found[name] = lines[name]
            left += lines[name].partition(':')[2].split()
    return found


def copy_crate(name, folder):
    """With the library that `rt check` built of it, so that it isn't proved again; rt does that where the crate is another since."""
    shutil.copytree(ROOT / 'crates' / name, folder / 'crates' / name, ignore=shutil.ignore_patterns('out'))
    if (ROOT / 'crates' / name / 'out/rlib').exists():
        shutil.copytree(ROOT / 'crates' / name / 'out/rlib', folder / 'crates' / name / 'out/rlib')


def check(theorems, *names):
    """Has the checker compute the theorems, beside a copy of the crates of these names."""
    crates = crates_below(names)
    files = {'crates.txt': '\n'.join([*crates.values(), f'runs: {" ".join(crates)}', '']),
             'crates/runs/src/lib.rt': '// random runs\n#![tactic(auto)]\n', 'crates/runs/proofs/Lib.antt': 'pub mod Runs\n',
             'crates/runs/proofs/Runs.antt': theorems}
    with tempfile.TemporaryDirectory() as folder:
        folder = pathlib.Path(folder)
        for name in crates:
            copy_crate(name, folder)
        for name, text in files.items():
            (folder / name).parent.mkdir(parents=True, exist_ok=True)
            (folder / name).write_text(text)
        return subprocess.run(['rt', 'check'], cwd=folder / 'crates/runs', capture_output=True, text=True)


def main():
    seed, runs, count = ([int(x) for x in sys.argv[1:]] + [1, 100, 80][len(sys.argv) - 1:])[:3]
    rng, tally, theorems = random.Random(seed), Tally(), [HEAD]
    for i in range(runs):
        theorems += theorems_of_run(rng, i, count, tally)
    done = check('\n'.join(theorems), 'rules')
    if done.returncode:
        print(done.stdout[-3000:], done.stderr[-3000:])
        sys.exit(f'random_runs: the definitions and the model differ, or the check failed (seed {seed})')
    print(f'{runs} runs of {count} calls agree; {tally}')


if __name__ == '__main__':
    main()
