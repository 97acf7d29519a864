#!/usr/bin/env python3
"""Holds the model of tools/model against lists of calls with their answers, in the form that ../shared/vectors/calls/README.md tells.

    python3 tools/call_vectors.py [FOLDER [FILE..]]           default ../shared/vectors/calls

It takes the files of the folder that are of requests that have landed (tools/landed), and those that are named besides. The calls are
the six of document 01, request 9's offers and request 10's fit; any other line is a difference, so that no answer is passed over. Each
difference is said with its file and line; the last line is "N answers agree, M don't". Status 0: M is 0 and N isn't. tools/vectors runs it.
"""
import itertools
import pathlib
import re
import sys
from typing import NamedTuple

from model.calls import CALLS, Refused, Taken, call
from model.fit import fit
from model.hub import Hub
from model.offers import Offer, offer_all
from model.plan import Plan
from model.text import Lines, Refusal, refuse
from texts.vectors import VECTORS, landed

FOLDER = VECTORS / 'calls'
UNTOUCHED = 255  # every byte of a lent buffer before the call; it is no answer, so that a byte that was written can be told

# Files and their lines


class Vector(NamedTuple):
    """A call and its answer as they stand in a file, with the number of their line."""
    line: int
    call: str
    answer: str


class Section(NamedTuple):
    """A plan's lines with the number of the line before them, and the vectors up to the next plan, which are made on one hub."""
    line: int
    plan: list
    vectors: list


def files_of(request, folder=FOLDER):
    return sorted(pathlib.Path(folder).glob(f'{request:02}-*.calls'))


def files(folder=FOLDER, *named):
    """Those of the requests that have landed and those named, each once."""
    found = [*itertools.chain.from_iterable(files_of(request, folder) for request in landed()), *map(pathlib.Path, named)]
    return list({path.resolve(): path for path in found}.values())


def sections(path):
    """Vectors before the first plan are a section too, one whose plan has no lines."""
    numbered = enumerate(path.read_text().splitlines(), 1)
    lines = ((number, line) for number, line in numbered if line and not line.startswith('#'))
    found = [Section(0, [], [])]
    for number, line in lines:
        if line == 'plan':
            plan = itertools.takewhile(lambda numbered: numbered[1] != '.', lines)
            found.append(Section(number, [each for _, each in plan], []))
        else:
            asked, _, answer = line.partition(' = ')
            found[-1].vectors.append(Vector(number, asked, answer))
    return found if found[0].vectors else found[1:]


# Calls


class Offers(NamedTuple):
    """The call `offers L | k n b | ..`, L being the length of the lent buffer."""
    length: int
    offered: list


def read_call(text):
    """One of the six calls, or None."""
    word, *numbers = text.split(' ')
    if word in CALLS and len(numbers) == len(CALLS[word]) and all(re.fullmatch('[0-9]+', number) for number in numbers):
        return call(word, *map(int, numbers))
    return None


def read_offers(text):
    """The offers of a call, or None."""
    if not re.fullmatch(r'offers [0-9]+( \| [0-9]+ [0-9]+ [0-9]+)*', text):
        return None
    length, *offered = text.removeprefix('offers ').split(' | ')
    return Offers(int(length), [Offer(*map(int, numbers.split(' '))) for numbers in offered])


def read_fit(text):
    """The offer that a call `fit k n b` asks about, or None."""
    found = re.fullmatch('fit ([0-9]+) ([0-9]+) ([0-9]+)', text)
    return Offer(*map(int, found.groups())) if found else None


# Answers


def told(answer):
    """An answer in the vectors' words: an event's and a refusal are numbers alone."""
    if isinstance(answer, Refused):
        return str(answer.number)
    return '0' if isinstance(answer, Taken) else ' '.join(str(word) for word in answer.words())


def stated_outcome(offers, answer):
    """Of an answer to offers, `0 | a a ..` or 18: the number, and the whole buffer that it says is left behind."""
    number, *answers = re.findall('[0-9]+', answer)
    return [number, *answers, *[str(UNTOUCHED)] * (offers.length - len(answers))]


def outcome(hub, offers):
    """The same by the model."""
    buffer = bytearray([UNTOUCHED] * offers.length)
    return [told(offer_all(hub, offers.offered, buffer)), *map(str, buffer)]


def difference(hub, vector):
    """What the model answers and should answer, or None where these agree."""
    if (event := read_call(vector.call)) is not None:
        given, stated = told(hub.perform(event)), vector.answer
    elif (offers := read_offers(vector.call)) is not None and re.fullmatch(r'18|0 \|( [0-9]+)*', vector.answer):
        given, stated = ' '.join(outcome(hub, offers)), ' '.join(stated_outcome(offers, vector.answer))
    elif (offer := read_fit(vector.call)) is not None:
        given, stated = told(fit(hub, offer)), vector.answer
    else:
        return f"'{vector.call} = {vector.answer}' is no call with its answer that the model knows"
    return None if given == stated else f"to '{vector.call}' the model answers '{given}', not '{stated}'"


# All of it


def hub_of(section):
    """The hub of a section's plan, behind which no line may stand; a Refusal where it is none."""
    lines = Lines(''.join(line + '\n' for line in section.plan).encode())
    plan = Plan(lines)
    refuse(1, lines.left())
    return Hub(plan)


def differences(path):
    """The place of each vector of a file, with its difference or None. A plan that is refused is one, and so is each vector behind it."""
    for section in sections(path):
        try:
            hub = hub_of(section)
        except Refusal as no:
            yield from ((f'{path}:{each.line}', f'the plan is refused by {no.number}') for each in [section, *section.vectors])
        else:
            yield from ((f'{path}:{vector.line}', difference(hub, vector)) for vector in section.vectors)


def main():
    found = [each for path in files(*sys.argv[1:]) for each in differences(path)]
    differing = [(place, what) for place, what in found if what is not None]
    for place, what in differing:
        print(f'{place}: {what}')
    agreeing = len(found) - len(differing)
    print(f"{agreeing} answers agree, {len(differing)} don't")
    sys.exit(bool(differing) or not agreeing)


if __name__ == '__main__':
    main()
