#!/usr/bin/env python3
"""The program of document 01, with requests 1, 3, 4 and 8 of document 02, by the model of tools/model: a text in, its log out.

    python3 tools/reference.py < TEXT                as a module: log(text: bytes) -> bytes
    python3 tools/reference.py --vectors FOLDER      holds it against each FOLDER/*.text and its *.log
    python3 tools/reference.py --root ..             either, by rule 2 as document 01 had it: control goes up to the root
"""
import pathlib
import sys

from model.figures import MOST_TEXT_BYTES
from model.log import log


def hold_against(folder, nearest):
    texts = sorted(pathlib.Path(folder).glob('*.text'))
    differing = [path.name for path in texts if log(path.read_bytes(), nearest) != path.with_suffix('.log').read_bytes()]
    print(f'{len(texts)} texts, {len(differing)} differ', *differing)
    return bool(differing) or not texts


def main():
    words = [word for word in sys.argv[1:] if word != '--root']
    nearest = '--root' not in sys.argv
    if words[:1] == ['--vectors']:
        sys.exit(hold_against(words[1], nearest))
    sys.stdout.buffer.write(log(sys.stdin.buffer.read(MOST_TEXT_BYTES), nearest))


if __name__ == '__main__':
    main()
