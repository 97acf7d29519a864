"""Whose turn it is by "Control, hub by hub", and how far control goes for it."""
from typing import NamedTuple

from .calls import HIGH, NORMAL
from .plan import ROOT


class Pointer(NamedTuple):
    """"A pointer to a port, with a mark (unfinished) or none, at first port 1 without mark"."""
    port: int = 1
    marked: bool = False


class Control:
    """`nearest` says which rule 2 it goes by: that of request 4, which took the place of document 01's, or the old one, up to the root.

    `moves` and `returns` are those of the latest turn or rest: the passings of control between two hubs, and the returns of the root's
    pointer to port 1, which request 13 counts.
    """

    def __init__(self, plan, nearest=True):
        self.plan, self.nearest = plan, nearest
        self.holder = ROOT
        self.latest_class = None  # of the latest grant
        self.pointers = {(hub, class_): Pointer() for hub in plan.ports for class_ in (NORMAL, HIGH)}
        self.moves = self.returns = 0

    def rest(self):
        """Rule 1: "Nothing counts: control goes up to the root"."""
        self.moves = self.returns = 0
        self.climb_to(ROOT)

    def grant(self, sought, counting):
        """Rules 2 to 4; the node."""
        self.moves = self.returns = 0
        if self.latest_class not in (None, sought):
            self.climb_to(self.nearest_hub(sought) if self.nearest else ROOT)
        self.latest_class = sought
        while True:
            port = self.lowest_port(sought, counting)
            if port is None:
                self.hand_up(sought)
            elif (node := self.take(sought, port)) is not None:
                return node

    def pass_to(self, hub):
        """"Each passing of control between two hubs is one move"."""
        self.holder = hub
        self.moves += 1

    def climb_to(self, hub):
        while self.holder != hub:
            self.pass_to(self.plan.above[self.holder].hub)

    # Rule 2

    def nearest_hub(self, sought):
        """"The lowest hub, the holder included, for which every hub above it on the holder's line has its pointer of the sought class
        marked and on that line"."""
        hub = self.holder
        while not self.is_led_to(hub, sought):
            hub = self.plan.above[hub].hub
        return hub

    def is_led_to(self, hub, sought):
        while hub != ROOT:
            hub, port = self.plan.above[hub]
            if self.pointers[hub, sought] != Pointer(port, marked=True):
                return False
        return True

    # Rule 3

    def lowest_port(self, sought, counting):
        """"The lowest-numbered port at or after the pointer whose request counts in that class", if there is one."""
        ports = self.plan.ports[self.holder]
        first = self.pointers[self.holder, sought].port
        return next((port for port in range(first, len(ports) + 1) if self.shows(ports[port - 1], counting)), None)

    def shows(self, port, counting):
        """Whether the class counts "there or below it"."""
        if port.kind == 'hub':
            return any(self.shows(below, counting) for below in self.plan.ports[port.number])
        return port.kind == 'node' and port.number in counting

    def take(self, sought, port):
        """The node granted, or None where control has gone down."""
        kind, number = self.plan.ports[self.holder][port - 1]
        if kind == 'node':
            self.pointers[self.holder, sought] = Pointer(port + 1)
            return number
        if self.pointers[self.holder, sought] != Pointer(port, marked=True):
            self.pointers[number, sought] = Pointer()  # afresh; otherwise "the lower hub resumes at its pointer"
        self.pointers[self.holder, sought] = Pointer(port, marked=True)
        self.pass_to(number)
        return None

    # Rule 4

    def hand_up(self, sought):
        """"A lower hub hands control up, and its parent's pointer becomes the port behind it, unmarked. The root goes to port 1"."""
        if self.holder == ROOT:
            self.pointers[ROOT, sought] = Pointer()
            self.returns += 1
        else:
            parent, port = self.plan.above[self.holder]
            self.pointers[parent, sought] = Pointer(port + 1)
            self.pass_to(parent)
