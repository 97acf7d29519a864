#!/usr/bin/env python3
"""Holds the program of the log suite against the model of tools/model, on random texts.

    python3 tools/random_plans.py [SEED [BATCHES]]        default 1 20; the program must have been built

The texts are plans at and past every limit, many of them damaged: bytes changed, cut out or put in, lines cut and swapped. Some have a
framing line or the line `(strict)`, in its place or elsewhere, or what is none; the events behind have lengths at the ends of both
framings, high requests with and without a share, and requests that wait, are replaced in either class and stand over a frame's start.
A batch is some 480,000 bytes of texts, separated by byte 0. It is no part of the gate.
"""
import collections
import random
import re
import subprocess
import sys

from model.figures import FRAME_RANGE, LONGEST_PACKETS, SHORTEST_PACKET
from model.log import log
from texts.suite import PROGRAM

FIGURES = (b'frame', b'overhead', b'interrupt')
FRAMINGS = [b'(framing 3)', b'(framing 5)', b'(framing 5)']
OTHER_FRAMINGS = [
    b'(framing 4)', b'(framing 0)', b'(framing 35)', b'(framing 261)', b'(framing 4294967301)', b'(framing 9999999999999999)',
    b'(framing 10000000000000005)', b'(framing 18446744073709551621)', b'(framing)', b'(framing )', b'(framing 03)', b'(framing 05)',
    b'(framing 04)', b'(framing 3 5)', b'(framing  5)', b'(framing5)', b'(framing 5', b'(frame 5)', b'(strict)']
OTHER_STRICTS = [
    b'(strict )', b'( strict)', b'(Strict)', b'(strict', b'strict)', b'(strict))', b'(strict) ', b'(stric)', b'(stricts)', b'(strict 0)',
    b'(strict 1)', b'(strict 5)', b'(strict 9999999999999999)', b'(strict 10000000000000000)', b'(framing 3)']
LENGTHS = [SHORTEST_PACKET - 1, SHORTEST_PACKET, *(b for longest in LONGEST_PACKETS.values() for b in (longest, longest, longest + 1))]
BATCH_BYTES = 480000
MOST_INPUT_BYTES = 524288


def random_hub(rng, level):
    lines = [b'(hub']
    count = rng.choice([1, 1, 2, 3, 4, 8, 31, 32, 33]) if rng.random() < .4 else rng.randint(0, 5)
    for _ in range(count):
        x = rng.random()
        if x < .5 or (x >= .7 and level >= rng.choice([2, 3, 4, 5, 6])):
            lines.append(b'(node)')
        elif x < .7:
            lines.append(b'(empty)')
        else:
            lines += random_hub(rng, level + 1)
    return lines + [b')']


def random_figures(rng):
    """Mostly T and O within their ranges, so that the lines behind are read; D at both of its least values."""
    frame = rng.choice([100000, 100000, 4000000, rng.randint(90000, 4100000)] if rng.random() < .9 else [99999, 4000001])
    overhead = rng.choice([0, 1000, 1000, 50000, rng.randint(0, 51000)] if rng.random() < .95 else [50001])
    least = rng.choice(list(LONGEST_PACKETS.values())) + overhead
    interrupt = rng.choice([least, least, least - 1, frame, frame + 1, rng.randint(10000, frame)])
    return [b'(%s %d)' % pair for pair in zip(FIGURES, (frame, overhead, interrupt))]


def put_framing(rng, lines):
    """A framing line or what is none, mostly as the fourth line; elsewhere it stands near there, behind the root's `(hub` too."""
    at = 3 if rng.random() < .9 else rng.randint(0, min(6, len(lines)))
    lines.insert(at, rng.choice(FRAMINGS if rng.random() < .75 else OTHER_FRAMINGS))


def put_strict(rng, lines):
    """`(strict)` or what is none, mostly just before the root's line; elsewhere it stands near there, behind it too."""
    at = lines.index(b'(hub') if rng.random() < .9 else rng.randint(0, min(7, len(lines)))
    lines.insert(at, b'(strict)' if rng.random() < .8 else rng.choice(OTHER_STRICTS))


def random_events(rng):
    """Requests of nodes 1 and 2 and reservations of node 1: the plan's framing takes some, and before one is in force n is 0. Where `last`
    is a frame's start, a packet of node 2 runs over it, and node 1's request may be turned there; else they wait within a frame."""
    late = FRAME_RANGE[1]  # in no plan's frame 0
    last = 2 * late
    events = [b'(until 5)', b'(normal 5 1 %d)', b'(high 5 1 %d)', b'(reserve 6 1 1 %d)', b'(reserve 7 1 2 %d)', b'(normal 8 2 %d)',
              b'(high 9 2 %d)', b'(high %d 1 %%d)' % late, b'(high %d 2 %%d)' % late, b'(high %d 1 %%d)' % (late + 100),
              b'(reserve %d 1 0 0)' % (late + 200), b'(normal %d 2 %%d)' % (last - 300), b'(high %d 1 %%d)' % (last - 200),
              b'(reserve %d 1 0 0)' % (last - 100), b'(reserve %d 1 1 %%d)' % (last - 50), b'(high %d 1 %%d)' % last,
              b'(until %d)' % (last + 1), b'(normal %d 1 %%d)' % (last + 100), b'(until %d)' % (last + late)]
    chosen = [event for event in events if rng.random() < .6]
    return [event % rng.choice(LENGTHS) if b'%d' in event else event for event in chosen]


def cut(rng, text):
    """Its last LF, that of a framing line or of `(strict)` with all behind it, or anything."""
    places = [len(text) - 1, rng.randint(0, len(text))]
    places += [text.index(b'\n', text.index(word)) for word in (b'(framing', b'(strict)') if word in text]
    return text[:rng.choice(places)]


def damaged(rng, text):
    text = bytearray(text)
    for _ in range(rng.choice([1, 1, 2])):
        at, x = rng.randrange(len(text) + 1), rng.random()
        if x < .4:
            text[at:at + 1] = bytes([rng.choice(b'()0123456789 \n\rnodehubXE')])
        elif x < .7:
            del text[at:at + 1]
        else:
            text[at:at] = bytes([rng.choice(b'() 0\n')])
    return bytes(text)


def random_text(rng):
    lines = random_figures(rng) + random_hub(rng, 1) + (random_events(rng) if rng.random() < .6 else [])
    for _ in range(rng.choice([0, 0, 1, 1, 1, 2] if rng.random() < .5 else [0, 1])):
        put_framing(rng, lines)
    for _ in range(rng.choice([0, 0, 0, 1, 1, 1, 1, 2])):
        put_strict(rng, lines)
    if rng.random() < .1:
        a, b = rng.randrange(len(lines)), rng.randrange(len(lines))
        lines[a], lines[b] = lines[b], lines[a]
    text = b''.join(line + b'\n' for line in lines)
    if rng.random() < .2:
        text = cut(rng, text)
    return damaged(rng, text) if rng.random() < .4 else text


def random_batch(rng):
    texts = []
    while sum(map(len, texts)) + len(texts) < BATCH_BYTES:
        texts += [random_text(rng) for _ in range(50)]
    while sum(map(len, texts)) + len(texts) > MOST_INPUT_BYTES:
        texts.pop()
    return texts


def logs_of(texts):
    """The program writes a line `--` behind each log."""
    done = subprocess.run([PROGRAM], input=b'\0'.join(texts), capture_output=True, check=True)
    *logs, behind = done.stdout.split(b'--\n')
    if behind or len(logs) != len(texts):
        sys.exit('random_plans: not a log for each text')
    return logs


def kind_of(text, log):
    """Of a refused plan its row; of a taken one the lines between its figures and its root."""
    first = log.split(b'\n')[0]
    if not first.startswith(b'(nodes'):
        return f'refused by {first[-2:-1].decode()}'
    lines = text.decode(errors='replace').split('\n')
    return ' '.join(['taken with', *(lines[3:lines.index('(hub')] or ['neither'])])


def waited(log):
    """How many of its grants waited."""
    return len(re.findall(rb'(?m)^\(grant .* [1-9][0-9]*\)$', log))


def main():
    seed, batches = ([int(x) for x in sys.argv[1:]] + [1, 20][len(sys.argv) - 1:])[:2]
    if not PROGRAM.exists():
        sys.exit(f"random_plans: 'tools/proving {PROGRAM.name}' builds the program first")
    rng, kinds, waits = random.Random(seed), collections.Counter(), 0
    for _ in range(batches):
        texts = random_batch(rng)
        for text, written in zip(texts, logs_of(texts)):
            if written != log(text):
                sys.exit(f'random_plans: {written!r} for a text whose log is {log(text)!r} (seed {seed}):\n{text!r}')
            kinds[kind_of(text, written)] += 1
            waits += waited(written)
    print(f'{sum(kinds.values())} texts agree, with {waits} grants that waited;', dict(kinds.most_common()))


if __name__ == '__main__':
    main()
