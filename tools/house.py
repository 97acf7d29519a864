#!/usr/bin/env python3
"""What the house asks of every file and no prover sees: comment lines of at most 140 characters, no paragraph in a cell of a table,
and landing notes of at most 600 words. Names each line that breaks it; status 1 if there is one.
"""
import pathlib
import re
import sys

ROOT = pathlib.Path(__file__).resolve().parent.parent
WIDEST_COMMENT, LONGEST_CELL, MOST_WORDS = 140, 160, 600
COMMENT = re.compile(r'^\s*(--|//|#|/\*|\*)')
# The notes of the landings before this was asked for.
EARLIER = {'A', 'B', 'C', 'D', 'E', 'F', 'request-2', 'request-4', 'request-5', 'request-13'}


def sources():
    for folder in ('crates', 'rust', 'tools', 'examples', 'include'):
        for file in sorted((ROOT / folder).rglob('*')):
            made = {'target', 'out'} & {*file.relative_to(ROOT).parts}
            if file.suffix in ('.antt', '.rt', '.edit', '.rs', '.py', '.h', '.c') and not made:
                yield file
    yield from (ROOT / name for name in ('test', 'example', 'lembuya'))


def papers():
    return [ROOT / 'README.md', *sorted((ROOT / 'docs').rglob('*.md'))]


def shown(cell):
    """A cell as a reader sees it: of a link its words alone."""
    return re.sub(r'\[([^]]*)\]\([^)]*\)', r'\1', cell).strip()


def broken():
    for file in sources():
        for number, line in enumerate(file.read_text().splitlines(), 1):
            if COMMENT.match(line) and len(line) > WIDEST_COMMENT:
                yield file, number, f'a comment line of {len(line)} characters'
    for file in papers():
        for number, line in enumerate(file.read_text().splitlines(), 1):
            if line.startswith('|') and any(len(shown(cell)) > LONGEST_CELL for cell in line.split('|')):
                yield file, number, 'a paragraph in a cell'
    for file in sorted((ROOT / 'docs/landings').glob('*.md')):
        words = len(file.read_text().split())
        if file.stem not in EARLIER and words > MOST_WORDS:
            yield file, 1, f'a landing note of {words} words'


def main():
    found = list(broken())
    for file, number, what in found:
        print(f'house: {file.relative_to(ROOT)}:{number}: {what}')
    if not found:
        print('house: comments, tables and landing notes are within their bounds')
    return 1 if found else 0


if __name__ == '__main__':
    sys.exit(main())
