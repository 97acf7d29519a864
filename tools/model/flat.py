"""Whose turn it is by the flat rule."""
from .calls import HIGH, NORMAL


class Flat:
    def __init__(self, plan):
        self.nodes = plan.nodes
        self.pointer = {NORMAL: 1, HIGH: 1}  # "each class has a pointer over nodes 1 to N, at first 1"

    def grant(self, sought, counting):
        """"The first counting request of that class at or after the pointer, going round"; "the pointer moves to the node behind it"."""
        node = min(counting, key=lambda k: (k - self.pointer[sought]) % self.nodes)
        self.pointer[sought] = node % self.nodes + 1
        return node
