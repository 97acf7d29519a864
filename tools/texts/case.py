"""A text with its log, and the plans that most texts stand on."""
import re
from typing import NamedTuple


class Case(NamedTuple):
    """`log` and `first_line` are what was worked out of the text's log, where that was done; `origin` says where the log is from."""
    name: str
    purpose: str
    text: bytes
    origin: str
    log: bytes = None
    first_line: str = None


class Cases(list):
    def by_model(self, name, purpose, text):
        """The log is the model's."""
        self.append(Case(name, purpose, as_bytes(text), 'reference'))

    def worked(self, name, purpose, text, log):
        """The log as worked out by hand, its lines in one string or in a list."""
        self.append(Case(name, purpose, as_bytes(text), 'worked', log=as_bytes(lines_of(log))))

    def planned(self, name, text, line):
        """The first line of the log as worked out by hand."""
        self.append(Case('plan: ' + name, line, as_bytes(text), 'plan', first_line=line))

    def vector(self, name, text, log):
        self.append(Case('vector-' + name, 'the vector ' + name, text, 'vector', log=log))


def as_bytes(text):
    """Bytes as they are; else a list of lines, each ended by LF."""
    return text if isinstance(text, bytes) else ''.join(line + '\n' for line in text).encode()


def lines_of(block):
    return block.strip().split('\n') if isinstance(block, str) else block


def figures(T, O, D):
    return [f'(frame {T})', f'(overhead {O})', f'(interrupt {D})']


def plan(T, O, D, *hub):
    return [*figures(T, O, D), *hub]


def framed(framing, lines):
    """The lines with a framing line as their fourth, so that each one behind it has a number more."""
    return [*lines[:3], f'(framing {framing})', *lines[3:]]


def strict(lines):
    """The lines with `(strict)` just before their root hub, so that each one behind it has a number more."""
    root = lines.index('(hub')
    return [*lines[:root], '(strict)', *lines[root:]]


def one_line_later(log):
    """A log, as a string, of a text that has gained a header line behind the figures."""
    def later(found):
        line = int(found[1])
        return f'(refused {line + (line > 3)} '
    return re.sub(r'\(refused (\d+) ', later, log.decode())


EXAMPLE = plan(100000, 1000, 13000, '(hub', '(node)', '(hub', '(node)', '(node)', ')', '(node)', ')')


def example(events):
    """On document 01's plan; the first event is line 12."""
    return EXAMPLE + lines_of(events)


def two(T, O, D, events):
    """On a hub of two nodes; the first event is line 8."""
    return plan(T, O, D, '(hub', '(node)', '(node)', ')') + lines_of(events)


def refusals(number, first, last):
    return [f'(refused {line} {number})' for line in range(first, last + 1)]
