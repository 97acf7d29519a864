"""The plan, read from the lines of its text."""
from typing import NamedTuple

from .figures import (
    FRAME_RANGE, FRAMING_MEANT, LONGEST_PACKETS, MOST_HUBS, MOST_LEVELS, MOST_NODES, MOST_PORTS, OVERHEAD_RANGE, SHORTEST_PACKET)
from .text import Lines, form, refuse

ROOT = 1  # "Hub 1 is the root."


class Port(NamedTuple):
    kind: str  # 'node', 'hub' or 'empty'
    number: int = 0  # of the node or the hub


class Place(NamedTuple):
    """Where a lower hub hangs: a port of its parent."""
    hub: int
    port: int


class Plan:
    """T, O and D; the framing; whether it is strict; and the tree: "Nodes and hubs are numbered from 1 in line order, ports from 1 within
    their hub."

    Making one takes its lines; it raises a Refusal at the first line that a row refuses.
    """

    shortest_packet = SHORTEST_PACKET

    def __init__(self, lines):
        self.framing, self.strict = FRAMING_MEANT, False
        self.nodes = 0
        self.ports = {}  # hub -> its ports in order
        self.level = {}  # hub -> its level, "the root hub being level 1"
        self.above = {}  # each hub but the root -> its place
        self.read_figures(lines)
        refuse(1, self.read_strict(lines, self.read_framing(lines)) != b'(hub')
        self.read_hub(lines, 1)

    @property
    def hubs(self):
        return len(self.ports)

    @property
    def longest_packet(self):
        return LONGEST_PACKETS[self.framing]

    @property
    def least_interrupt(self):
        """"D starts at" the longest packet "+ O"."""
        return self.longest_packet + self.overhead

    def read_figures(self, lines):
        """"First `(frame T)`, then `(overhead O)`, then `(interrupt D)`"; D "is 12,000 + O to T", whatever follows."""
        self.frame = read_figure(lines, b'frame', *FRAME_RANGE)
        self.overhead = read_figure(lines, b'overhead', *OVERHEAD_RANGE)
        self.interrupt = read_figure(lines, b'interrupt', self.least_interrupt, self.frame)

    def read_framing(self, lines):
        """"A plan may have, as its fourth line, `(framing 3)` or `(framing 5)`; without it, 3 is meant." The line behind it, or the fourth.

        One that isn't the form stays for row 1, which refuses it there as no `(hub`; the other rows are "4 .. after 1", "2 .. after 4".
        """
        fourth = lines.next()
        numbers = form(fourth, b'framing', 1)
        if numbers is None:
            return fourth
        self.framing, = numbers
        refuse(4, self.framing not in LONGEST_PACKETS)
        refuse(2, self.interrupt < self.least_interrupt)
        return lines.next()

    def read_strict(self, lines, line):
        """"A plan line `(strict)` just before the root hub .., which goes behind any framing line." The line behind it, or the one given.

        One that isn't the form stays for row 1 here too, and so does one in another place: it is no `(hub`, and no line of a hub.
        """
        self.strict = form(line, b'strict', 0) is not None
        return lines.next() if self.strict else line

    def read_hub(self, lines, level):
        """The number of a hub whose line `(hub` has just been handed out; it is read up to its `)`."""
        refuse(3, self.hubs == MOST_HUBS or level > MOST_LEVELS)
        hub = self.hubs + 1
        ports = self.ports[hub] = []
        self.level[hub] = level
        while (line := lines.next()) != b')':
            refuse(1, line not in (b'(node)', b'(empty)', b'(hub'))
            refuse(3, len(ports) == MOST_PORTS)
            ports.append(self.read_port(lines, line, Place(hub, len(ports) + 1)))
        refuse(3, not ports or (hub == ROOT and self.nodes == 0))
        return hub

    def read_port(self, lines, line, place):
        """"A port is `(node)`, `(empty)` or a hub"."""
        if line == b'(empty)':
            return Port('empty')
        if line == b'(node)':
            refuse(3, self.nodes == MOST_NODES)
            self.nodes += 1
            return Port('node', self.nodes)
        hub = self.read_hub(lines, self.level[place.hub] + 1)
        self.above[hub] = place
        return Port('hub', hub)


def read_figure(lines, word, least, most):
    numbers = form(lines.next(), word, 1)
    refuse(1, numbers is None)
    refuse(2, not least <= numbers[0] <= most)
    return numbers[0]


def plan_of(lines):
    """The plan whose lines are given, as strings without LF."""
    return Plan(Lines(''.join(line + '\n' for line in lines).encode()))
