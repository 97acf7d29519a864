#!/usr/bin/env python3
"""Writes the texts that the program is run on, and the logs that it must write.

    python3 tools/log_texts.py [FOLDER]     writes FOLDER/stdin and FOLDER/stdout      (default: the program's crate, texts.suite.FOLDER)
    python3 tools/log_texts.py --list       prints each text's name, its sizes, where its log is from and what it is for

`stdin` holds the texts with a byte 0 between one and the next; `stdout` holds their logs, each followed by a line `--`.
The texts stand in tools/texts, by subject. The logs are those of the model. It must give each vector's own file, where
several requests have one that of the last to land; each log that is `worked`, by hand from document 01 and the requests that landed, and
stated with its text; and of each plan text the first line that is stated there. Each wait is worked out a second time, from the calls and
answers alone. Where something differs, nothing is written and the script fails.
"""
import collections
import pathlib
import sys

from model.figures import MOST_TEXT_BYTES
from model.log import log
from model.waits import hold_text
from texts import (
    control, depths, forms, framing, held, largest, moves, order, plans, random_texts, ranges, requests, reservations, rows, strict, suite,
    trials, vectors, waits, waits_at_starts)

SUBJECTS = (
    plans, vectors, trials, forms, rows, reservations, order, held, ranges, requests, control, moves, depths, framing, strict, waits,
    waits_at_starts, largest, random_texts)
CASES = [case for subject in SUBJECTS for case in subject.cases]
ORIGINS = ('plan', 'vector', 'worked', 'reference')
MOST_INPUT_BYTES = 1048576  # of the program, all texts together


def print_list():
    for case in CASES:
        lines = log(case.text).count(b'\n')
        print(f'{case.name:34} {len(case.text):6} bytes {lines:5} lines  {case.origin:9}  {case.purpose}')


def differs(case, given):
    """Whether what is stated of a log isn't what the model gives."""
    first_line = given.split(b'\n')[0].decode()
    return case.log not in (None, given) or case.first_line not in (None, first_line)


def hold_against_stated(logs):
    differing = [(case, given) for case, given in zip(CASES, logs) if differs(case, given)]
    for case, given in differing:
        stated = case.first_line if case.log is None else case.log.decode()
        print(f'== {case.name}: {case.purpose}', f'-- {case.origin}:', stated, '-- the model:', given.decode(), sep='\n')
    if differing:
        sys.exit(f'log_texts: the model differs from {len(differing)} logs; nothing written')


def texts_too_long():
    return [case.name for case in CASES if len(case.text) > MOST_TEXT_BYTES]


def hold_to_the_suite(stdin):
    """No text may hold the byte that separates them, and the last may not be empty; few are cut, and all subjects are there."""
    if stdin.count(0) != len(CASES) - 1 or len(stdin) >= MOST_INPUT_BYTES or not CASES[-1].text:
        sys.exit('log_texts: a byte 0 in a text, too many bytes, or an empty text at the end')
    if len({case.name for case in CASES}) != len(CASES) or len(texts_too_long()) > 4:
        sys.exit('log_texts: a name twice, or many texts that are cut')
    if not vectors.cases:
        sys.exit(f'log_texts: there are no vectors in {vectors.VECTORS}')


def write(folder):
    logs = [log(case.text) for case in CASES]
    hold_against_stated(logs)
    stdin, stdout = b'\0'.join(case.text for case in CASES), b''.join(each + b'--\n' for each in logs)
    hold_to_the_suite(stdin)
    waited = sum(hold_text(case.text) for case in CASES)
    folder.mkdir(exist_ok=True)
    (folder / 'stdin').write_bytes(stdin)
    (folder / 'stdout').write_bytes(stdout)
    counts = collections.Counter(case.origin for case in CASES)
    origins = ', '.join(f'{counts[origin]} {origin}' for origin in ORIGINS)
    print(f'{len(CASES)} texts ({origins}), {len(stdin)} bytes; logs {len(stdout)} bytes, {waited} grants that waited; '
          f'longer than 65,536: {texts_too_long()}')


def main():
    if '--list' in sys.argv:
        print_list()
    else:
        write(pathlib.Path(sys.argv[1]) if sys.argv[1:] else suite.FOLDER)


if __name__ == '__main__':
    main()
