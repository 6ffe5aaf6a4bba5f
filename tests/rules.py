"""Rules for the comparisons: document 01's rows and limits, random well-formed rules of both editions, damaged ones."""
import random

import written
from nodes import (AND, EVENTUALLY, FALSE, NEGATION, NEXT, OR, PROPOSITION, PROPOSITIONS, RELEASE, TRUE, UNTIL, Builder,
                   second)


def choices(count):
    """For each i below count, proposition i now or proposition 0 next, all at once: 2 ** count terms."""
    b = Builder()
    leaves = [b.add(PROPOSITION, i) for i in range(count)]
    b.joined(AND, [b.add(OR, leaf, b.add(NEXT, leaves[0])) for leaf in leaves])
    return b.bytes()


def next_eventually(count, more=None):
    """Each of count propositions at some letter from letter 1 on, in one conjunction with what more adds."""
    b = Builder()
    true = b.add(TRUE)
    leaves = [b.add(PROPOSITION, i) for i in range(count)]
    parts = [b.add(NEXT, b.add(UNTIL, true, leaf)) for leaf in leaves]
    if more:
        parts.append(more(b, leaves))
    b.joined(AND, parts)
    return b.bytes()


def always_either(b, leaves):
    """always (proposition 6 or its negation)"""
    false = b.add(FALSE)
    return b.add(RELEASE, false, b.add(OR, b.add(PROPOSITION, 6), b.add(NEGATION, 6)))


def eventually_and_next_next():
    """Each of propositions 0 to 4 at some letter, and proposition 5 at letter 2."""
    b = Builder()
    true = b.add(TRUE)
    parts = [b.add(UNTIL, true, b.add(PROPOSITION, i)) for i in range(5)]
    parts.append(b.add(NEXT, b.add(NEXT, b.add(PROPOSITION, 5))))
    b.joined(AND, parts)
    return b.bytes()


def nested_eventually(count):
    b = Builder()
    true, node = b.add(TRUE), b.add(PROPOSITION, 0)
    for _ in range(count):
        node = b.add(UNTIL, true, node)
    return b.bytes()


# name, rule, what document 01 with the landed requests says of it: the refusal's number and place, or None
FIRST_EDITION_LIMITS = [
    ("64 terms", choices(6), None),
    ("128 terms", choices(7), (20, 26)),
    ("next-eventually 0 to 6", next_eventually(7), (23, 1)),
    ("and next (0 release 1)", next_eventually(7, lambda b, p: b.add(NEXT, b.add(RELEASE, p[0], p[1]))), (21, 1)),
    ("next-eventually 0 to 5 and always (6 or not 6)", next_eventually(6, always_either), (22, 54)),
    ("eventually 0 to 4 and next next 5", eventually_and_next_next(), (24, 64)),
    ("nine nested eventually", nested_eventually(9), (7, 0)),
    ("eight nested eventually", nested_eventually(8), None),
]
PROPOSITION_LIMITS = [
    ("proposition 6", bytes((PROPOSITION, 6, 0)), None),
    ("proposition 7", bytes((PROPOSITION, 7, 0)), (4, 0)),
    ("negated proposition 7 at node 1", bytes((PROPOSITION, 6, 0, NEGATION, 7, 0, AND, 0, 1)), (4, 1)),
    ("eventually proposition 7", bytes((PROPOSITION, 7, 0, EVENTUALLY, 0, 0)), (4, 0)),
]
LIMITS = FIRST_EDITION_LIMITS + PROPOSITION_LIMITS + written.LIMITS

# a list of 65 that belongs to no node: both are accepted
SIXTY_FIVE = [bytes.fromhex(text) for text in (
    "00000002000002010002020002030002040002050006010005010706010005020904080a06010005030c040b0d06010005040f040e10"
    "060100050512041113060100050615041416081700",
    "02000002010002020002030002040002050006000005000606000005010804070906000005020b040a0c06000005030e040d0f0600000504"
    "11041012060000050514041315020100081617")]


def fixed():
    rows = [bytes.fromhex(rule.replace(" ", "")) for _, rule, _ in second.ROWS] + written.ROWS
    lengths = [b"", bytes(1), bytes(96), bytes(97), bytes(99), bytes([255] * 97)]
    return rows + [rule for _, rule, _ in LIMITS] + SIXTY_FIVE + lengths


def damaged(rng, rule):
    """The rule with a byte changed, the proposition of a leaf changed, cut, grown, or two nodes exchanged."""
    out = bytearray(rule)
    leaves = [at for at in range(0, len(out) - 2, 3) if out[at] in (PROPOSITION, NEGATION)]
    way = rng.randrange(7)
    if way == 0:
        out[rng.randrange(len(out))] = rng.choice((0, 1, 7, 8, 9, 12, 13, len(out) // 3, rng.randrange(256)))
    elif way == 1:
        at = 3 * rng.randrange(len(out) // 3)
        out[at] = rng.randrange(15)
    elif way == 2:
        at = 3 * rng.randrange(len(out) // 3) + rng.randrange(1, 3)
        out[at] = rng.randrange(len(out) // 3 + 1)
    elif way == 3 and leaves:
        out[rng.choice(leaves) + 1] = rng.choice((PROPOSITIONS - 1, PROPOSITIONS, PROPOSITIONS + 1, 128))
    elif way == 4:
        del out[rng.randrange(len(out)):]
    elif way == 5:
        out += bytes(rng.randrange(4) for _ in range(rng.randrange(1, 7)))
    else:
        i, j = (3 * rng.randrange(len(out) // 3) for _ in range(2))
        out[i:i + 3], out[j:j + 3] = out[j:j + 3], out[i:i + 3]
    return bytes(out)


def crowded(rng):
    """A conjunction of five to seven ors, about 64 terms, below a few random operators: about as often over 64 as not."""
    b = Builder()
    leaves = [b.add(rng.choice((PROPOSITION, NEGATION)), p) for p in range(rng.randrange(6, 8))]
    parts = []
    for leaf in leaves[:rng.randrange(5, 8)]:
        other = b.add(NEXT, rng.choice(leaves)) if rng.random() < .8 else rng.choice(leaves)
        parts.append(b.add(OR, leaf, other))
    used = {c for kind, *children in b.nodes if kind > NEGATION for c in children}
    node = b.joined(AND, parts + [leaf for leaf in leaves if leaf not in used])
    for _ in range(rng.randrange(3)):
        kind = rng.choice((AND, OR, NEXT, UNTIL, RELEASE))
        node = b.add(NEXT, node) if kind == NEXT else b.add(kind, *rng.sample((node, rng.choice(leaves)), 2))
    return b.bytes()


def clauses(rng):
    """One to four clauses joined, mostly by and, most of them with an "always" or an "eventually" in the other: rules whose
    states have transitions that dominate each other. A leaf is there only where a clause uses it, so that no constant
    decides the whole."""
    b = Builder()
    signs = [rng.choice((PROPOSITION, PROPOSITION, NEGATION)) for _ in range(rng.randrange(1, 5))]

    def proposition():
        number = rng.randrange(len(signs))
        return b.leaf(signs[number], number)

    def clause(depth):
        pick = rng.randrange(6) if depth else 5
        if pick < 2:
            return b.add(RELEASE, b.leaf(FALSE), clause(depth - 1))
        if pick < 4:
            return b.add(UNTIL, b.leaf(TRUE), clause(depth - 1))
        if pick < 5:
            return b.add(rng.choice((AND, OR, UNTIL, RELEASE)), clause(depth - 1), proposition())
        return proposition()

    b.joined(rng.choice((AND, AND, AND, OR)), [clause(rng.randrange(1, 4)) for _ in range(rng.randrange(1, 5))])
    return b.bytes()


def clashing(rng):
    """Three to five clauses over one to three propositions in both signs, joined, mostly by and. Most of them demand a
    proposition both ways in one letter: at once, below a next, or in a state that the walk meets later."""
    b = Builder()
    propositions = rng.choice((1, 1, 2, 2, 3))

    def literal():
        return b.leaf(rng.choice((PROPOSITION, NEGATION)), rng.randrange(propositions))

    def left(kind):
        constant = {UNTIL: TRUE, RELEASE: FALSE}.get(kind)
        return b.leaf(constant) if constant is not None and rng.random() < .5 else literal()

    def clause(depth):
        if depth == 0 or rng.random() < .2:
            return literal()
        kind = rng.choice((AND, OR, NEXT, NEXT, UNTIL, RELEASE))
        return b.add(NEXT, clause(depth - 1)) if kind == NEXT else b.add(kind, left(kind), clause(depth - 1))

    b.joined(AND if rng.random() < .9 else OR, [clause(rng.randrange(4)) for _ in range(rng.randrange(3, 6))])
    return b.bytes()


# all operators; until-heavy ones, for 7
FLAVOURS = ((AND, OR, NEXT, UNTIL, RELEASE), (NEXT, UNTIL, UNTIL))


def first_edition(rng):
    """A well-formed rule of kinds 0 to 8."""
    pick = rng.random()
    if pick < .15:
        return crowded(rng)
    if pick < .35:
        return clauses(rng)
    marks, kinds = rng.choice((2, 4, PROPOSITIONS)), rng.choice(FLAVOURS)
    return second.random_rule(rng, rng.randrange(1, 18), marks=marks, kinds=kinds)


def well_formed(rng):
    """A well-formed rule of either edition, some of them of clauses that clash."""
    pick = rng.random()
    if pick < .2:
        return clashing(rng)
    return first_edition(rng) if pick < .5 else written.random_rule(rng)


def any_rule(rng):
    """A well-formed rule, some at the limits, or a damaged one."""
    rule = rng.choice(LIMITS)[1] if rng.random() < .05 else well_formed(rng)
    return damaged(rng, rule) if rng.random() < .3 else rule


def random_rules(seed, count):
    """Well-formed rules of every size and flavour, and as many damaged ones."""
    rng = random.Random(seed)
    out = []
    while len(out) < count:
        rule = well_formed(rng)
        out.append(rule if rng.random() < .5 else damaged(rng, rule))
    return out
