"""The kinds of node, rules built node by node, and the second translator with the requests that have landed."""
import os
import sys

sys.path.insert(0, os.path.join(os.path.dirname(os.path.abspath(__file__)), "second"))
import second  # noqa: E402  (the second translator, by another author)

second.UPTO = 12  # the requests that have landed

# those of the first edition, then those that the second one adds
FALSE, TRUE, PROPOSITION, NEGATION, AND, OR, NEXT, UNTIL, RELEASE, NOT, IMPLIES, ALWAYS, EVENTUALLY = range(13)
ONE_OPERAND = (NEXT, NOT, ALWAYS, EVENTUALLY)

MAX_NODES = 32
PROPOSITIONS = 7


class Builder:
    """A rule built node by node; leaves may be shared."""

    def __init__(self):
        self.nodes = []
        self.leaves = {}

    def add(self, kind, left=0, right=0):
        self.nodes.append((kind, left, right))
        return len(self.nodes) - 1

    def leaf(self, kind, number=0):
        """The one shared leaf of this kind and number."""
        if (kind, number) not in self.leaves:
            self.leaves[kind, number] = self.add(kind, number)
        return self.leaves[kind, number]

    def joined(self, kind, parts):
        node = parts[0]
        for part in parts[1:]:
            node = self.add(kind, node, part)
        return node

    def below(self, kinds, node):
        """The node below operators of one operand, the innermost first."""
        for kind in kinds:
            node = self.add(kind, node)
        return node

    def bytes(self):
        return bytes(x for node in self.nodes for x in node)
