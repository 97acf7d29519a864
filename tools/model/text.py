"""Texts, their lines, and the forms that a line can have."""
import re

from .figures import MOST_DIGITS, MOST_LINE_BYTES, MOST_TEXT_BYTES

NUMBER = rb'(0|[1-9][0-9]{0,%d})' % (MOST_DIGITS - 1)  # "no leading zeros except 0 itself"


class Refusal(Exception):
    """A row's no to a line of the plan."""

    def __init__(self, number):
        super().__init__(number)
        self.number = number


def refuse(number, condition):
    if condition:
        raise Refusal(number)


class Lines:
    """"The text is handed out one line at a time, with its line number from 1."

    None is handed out for what can be no form: a line of too many bytes, one whose LF is missing, and the line after the last.
    """

    def __init__(self, text):
        *ended, behind = text[:MOST_TEXT_BYTES].split(b'\n')
        self.lines = ended + ([None] if behind else [])  # "bytes behind the last LF are a line too, one whose LF is missing"
        self.number = 0

    def left(self):
        return self.number < len(self.lines)

    def next(self):
        line = self.lines[self.number] if self.left() else None
        self.number += 1
        return line if line is not None and len(line) <= MOST_LINE_BYTES else None


def form(line, word, count):
    """The numbers of the form `(word number ..)` with so many numbers, or None if the line isn't it."""
    found = line and re.fullmatch(rb'\(' + word + (b' ' + NUMBER) * count + rb'\)', line)
    return [int(digits) for digits in found.groups()] if found else None
