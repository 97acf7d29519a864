#!/usr/bin/env python3
"""design_places.py [TREE] [-v]: counts the places of the points of docs/DESIGN-PASS.md in src/ of every crate; -v names each."""
import collections
import difflib
import pathlib
import re
import sys

arguments = [a for a in sys.argv[1:] if a != '-v']
TREE = pathlib.Path(arguments[0] if arguments else pathlib.Path(__file__).parent.parent)
NAMED = '-v' in sys.argv


def sources():
    for path in sorted(TREE.glob('crates/*/src/**/*.rt')):
        yield str(path.relative_to(TREE / 'crates')).replace('/src/', '/'), path.read_text()


def functions():
    """Each function: its place, its head with the clauses, and its body without comments."""
    for name, text in sources():
        text = re.sub(r'//.*', '', text)
        for start in re.finditer(r'^[ ]*(?:pub(?:\(crate\))? )?(?:extern "C" )?fn (\w+)', text, re.M):
            depth, at, opened = 0, start.end(), None
            body = re.search(r'\n[ ]*\{\n|\) (?:-> [^{]*)?\{\n', text[at:])
            if not body:
                continue
            opened = at + body.end() - 2
            for at in range(opened, len(text)):
                depth += (text[at] == '{') - (text[at] == '}')
                if depth == 0:
                    break
            yield f'{name} {start.group(1)}', text[start.start():opened], text[opened + 1:at]


def lines(pattern, but=None):
    found = []
    for name, text in sources():
        # a From names every number once: that is the conversion and no place
        text = re.sub(r'impl From.*?\n\}\n', lambda m: '\n' * m.group(0).count('\n'), text, flags=re.S)
        for number, line in enumerate(text.split('\n'), 1):
            if re.search(pattern, line) and not (but and re.search(but, line)):
                found.append(f'{name}:{number} {line.strip()}')
    return found


def two_cases():
    """Enums of two cases of which one holds a value, and those with a case that is a number in place of an error."""
    found = []
    for name, text in sources():
        for enum in re.finditer(r'^(?:pub )?enum (\w+)[^{]*\{\n(.*?)^\}', text, re.M | re.S):
            body = re.sub(r'//.*', '', enum.group(2))
            cases = re.findall(r'^    (\w+)(.)', body, re.M)
            if len(cases) == 2 and any(c[1] in '({' or c[1] == ' ' for c in cases):
                found.append(f'{name} {enum.group(1)}')
            elif re.search(r'^    (Refused|Answer)\(u32\)', body, re.M):
                found.append(f'{name} {enum.group(1)}')
    return found


def twins():
    """Pairs of functions whose bodies are nearly the same where names are one word and numbers another: nine tokens in ten."""
    keep = {'if', 'else', 'match', 'return', 'while', 'for', 'let', 'as'}
    bodies = []
    for name, head, body in functions():
        tokens = re.findall(r'[A-Za-z_]\w*(?:::\w+)*|\d+|[^\s\w]', body)
        tokens = [t if t in keep else 'x' if t[0].isalpha() or t[0] == '_' else '0' if t[0].isdigit() else t for t in tokens]
        if len(tokens) >= 12:
            bodies.append((name, tokens))
    found = []
    for at, (name, tokens) in enumerate(bodies):
        for other, others in bodies[at + 1:]:
            if abs(len(tokens) - len(others)) * 10 <= len(tokens):
                if difflib.SequenceMatcher(None, tokens, others, False).ratio() >= 0.93:
                    found.append(f'{name} = {other}')
    return found


def same_arms():
    """Arms of one match that answer the same, written twice."""
    found = []
    for name, head, body in functions():
        arms = [re.sub(r'\s+', ' ', a) for a in re.findall(r'=> ((?:[A-Za-z_:]+ ?\{[^{}]*\}|[A-Za-z_:]+\([^()]*\)|\w+)),', body)]
        found += [f'{name}: {a}' for a, n in collections.Counter(arms).items() if n > 1]
    return found


def by_hand():
    """Functions that only turn a case, a bool or a number into another: no call, no loop, nothing stored."""
    found = []
    for name, head, body in functions():
        plain = re.sub(r'\s+', ' ', body).strip()
        if re.fullmatch(r'match \w+ \{ (?:[\w:]+(?: ?[({][^})]*[)}])? => \w+,? ?)+\}', plain) and 'fn from' not in head:
            found.append(name)
        elif re.fullmatch(r'if [^{}]* \{ return \w+; \} \w+', plain) or re.fullmatch(r'\w+ as \w+', plain) or re.fullmatch(r'if \w+ < \w+ \{ \w+(?: \+ 1)? \} else \{ \w+ \}', plain):
            found.append(name)
    return found


def clauses():
    count = collections.defaultdict(list)
    for name, head, body in functions():
        for clause in re.findall(r'requires \w* ?\{ (.*) \}$', head, re.M):
            count[clause].append(name)
    return [f'{c}: {", ".join(names)}' for c, names in count.items() if len(names) >= 3]


def together(*parameters):
    return [name for name, head, body in functions() if all(re.search(p, head) for p in parameters)]


def counted_down():
    """Functions that call themselves with a count less one, and end at 0."""
    found = []
    for name, head, body in functions():
        own = name.split()[-1]
        if re.search(r'if n == 0 \{', body) and re.search(rf'\b{own}\([^;]*n - 1', body, re.S):
            found.append(name)
    return found


POINTS = [
    ('1', 'enums of the shape of Option or Result', two_cases()),
    ('1', 'a flag in a struct with a value beside it', lines(r'^    pub (ended|more|found|ok|valid): bool,')),
    ('1', 'numbers for kinds or refusals', lines(r'return (1|2|4|1[1-8]);|number: [1-9],|number: [1-9] \}|Refused\(\d+\)|=> 1[1-8],|class: u32|\) -> u8$|if row != 0|if r != 0|if number != 0')),
    ('2', 'pairs of functions that differ in names, numbers and types', twins()),
    ('2', 'arms of one match written twice', same_arms()),
    ('3', 'while and loop', lines(r'^\s+(while|loop)\b')),
    ('3', 'recursions that count down', counted_down()),
    ('4', 'conversions and tests written by hand', by_hand()),
    ('4', 'types with only Drop derived', lines(r'derive\(Drop\)|derive\(Clone, Copy\)')),
    ('5', 'clauses of three functions or more', clauses()),
    ('5', 'text, start and end together', together(r'text: &\[u8\]', r'(start|at): usize', r'end: usize')),
    ('5', 'write, buffer and at together', together(r'write: bool', r'buffer: &mut \[u8\]', r'at: usize')),
    ('5', 'the figures T, O, D together', together(r'\bt: u64', r'\bo: u64')),
    ('5', 'a plan and a cascade together', together(r'p: &Plan', r's: &(mut )?Cascade')),
    ('6', 'a buffer with a place or length beside it', together(r'buffer: &mut \[u8\]', r'at: usize')),
    ('6', 'searches by hand', lines(r'^\s+if \w+\[\w+\] [!=]= \w+(\[\w+\])? \{')),
    ('7', 'tables of functions, numbers that say which step', lines(r'\bfn\(|dyn |if kind == ')),
]

total = collections.Counter()
for point, what, places in POINTS:
    print(f'{point} {what}: {len(places)}')
    total[point] += len(places)
    if NAMED:
        for place in places:
            print(f'    {place}')
proofs = [p for p in TREE.glob('crates/*/proofs/**/*.antt')]
text = '\n'.join(p.read_text() for p in proofs)
print(f'8 files of proofs: {len(proofs)}, lines: {text.count(chr(10))}')
print('all: ' + ', '.join(f'point {p} {n}' for p, n in sorted(total.items())))
