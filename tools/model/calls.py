"""Calls, which are the five events and the step, and their answers: each a value that knows its one form in words."""
from dataclasses import dataclass

NORMAL, HIGH = 1, 2  # "class 1 normal and 2 high"

# An event's word and its numbers: "t is a time, k a node, b a length in bits", n a number of packets.
EVENTS = {'normal': 'tkb', 'high': 'tkb', 'off': 'tk', 'reserve': 'tknb', 'until': 't'}
CALLS = {**EVENTS, 'step': 't'}
CLASSES = {'normal': NORMAL, 'high': HIGH}


def class_name(class_):
    return 'normal' if class_ == NORMAL else 'high'


@dataclass(frozen=True)
class Call:
    word: str
    t: int
    k: int = None
    n: int = None
    b: int = None

    def words(self):
        return [self.word, *(getattr(self, letter) for letter in CALLS[self.word])]


def call(word, *numbers):
    return Call(word, **dict(zip(CALLS[word], numbers, strict=True)))


class Answer:
    def word(self):
        return type(self).__name__.lower()

    def words(self):
        return [self.word(), *vars(self).values()]


@dataclass(frozen=True)
class Taken(Answer):
    """Of an event that no row refuses."""


@dataclass(frozen=True)
class Refused(Answer):
    number: int


@dataclass(frozen=True)
class Grant(Answer):
    time: int
    node: int
    class_: int
    end: int
    moves: int
    wait: int


@dataclass(frozen=True)
class Rest(Answer):
    time: int
    moves: int


@dataclass(frozen=True)
class Quiet(Answer):
    """"No instant is due before t, and the state is unchanged"."""


def written(value):
    """A call or an answer as a form of a text or a log."""
    return '(' + ' '.join(str(word) for word in value.words()) + ')'
