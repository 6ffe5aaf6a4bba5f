"""Written rules, those of the second edition: fixed ones, ones at the limits, and random ones."""
from nodes import (ALWAYS, AND, EVENTUALLY, FALSE, IMPLIES, MAX_NODES, NEGATION, NEXT, NOT, ONE_OPERAND, OR,
                   PROPOSITION, PROPOSITIONS, RELEASE, TRUE, UNTIL, Builder, second)

# always (0 implies 1), the README's rule; then rows P4, P5 and P9 of document 01 as a grower writes them
IF_THEN = bytes.fromhex("020000 020100 0a0001 0b0200")
ROWS = [IF_THEN] + [bytes.fromhex(text) for text in ("020000 0c0000", "020000 0b0000", "020000 0c0000 0b0100")]


def normal_form(rule):
    """What normalize answers: the first-edition form, or a refusal by 1 to 6 or 26."""
    nodes = second.first_form(second.well_formed(rule, EVENTUALLY))
    if len(nodes) > MAX_NODES:
        raise second.Refused(26)
    return second.flat(nodes)


def stacked(*kinds):
    """Proposition 0 below operators of one operand, the innermost first."""
    b = Builder()
    b.below(kinds, b.add(PROPOSITION, 0))
    return b.bytes()


def with_constant(kind, count):
    """always, count times, of (0 and the constant)"""
    b = Builder()
    b.below([ALWAYS] * count, b.add(AND, b.add(PROPOSITION, 0), b.add(kind)))
    return b.bytes()


def negated_untils(count):
    """not (true until (true until .. 0)), with count untils"""
    b = Builder()
    true, node = b.add(TRUE), b.add(PROPOSITION, 0)
    for _ in range(count):
        node = b.add(UNTIL, true, node)
    b.add(NOT, node)
    return b.bytes()


def themselves(*above, unused=False):
    """Some leaf implies itself, below the operators: 23 nodes, and 31 in normal form, since every leaf comes in both
    senses. A true that is unused is node 8."""
    b = Builder()
    leaves = [b.add(PROPOSITION, i) for i in range(PROPOSITIONS)] + [b.add(NEGATION, 0)]
    if unused:
        b.add(TRUE)
    b.below(above, b.joined(OR, [b.add(IMPLIES, leaf, leaf) for leaf in leaves]))
    return b.bytes()


def far_longer():
    """32 nodes whose normal form has 44: ten leaves in both senses, 20 operators of two operands, always and eventually,
    and for these a false and a true."""
    b = Builder()
    leaves = [b.add(PROPOSITION, i) for i in range(PROPOSITIONS)] + [b.add(NEGATION, i) for i in range(3)]
    parts = [b.add(IMPLIES, leaf, leaf) for leaf in leaves]
    b.below([ALWAYS, EVENTUALLY], b.joined(OR, parts + leaves[:1]))
    return b.bytes()


def promises(count, nots=0, above=()):
    """Each of count propositions implies proposition 0 at the next letter: 2 ** count terms. Leaf 0 comes in both
    senses, so that in normal form the last and is a place further; nots have no place there, and a constant has one."""
    b = Builder()
    leaves = [b.add(PROPOSITION, i) for i in range(count)]
    sides = leaves[:-1] + [b.below([NOT] * nots, leaves[-1])]
    b.below(above, b.joined(AND, [b.add(IMPLIES, side, b.add(NEXT, leaves[0])) for side in sides]))
    return b.bytes()


def changed(rule, at, byte):
    """The rule with another byte; at counts from its end if negative."""
    out = bytearray(rule)
    out[at] = byte
    return bytes(out)


# over 32 nodes in normal form, because of what is negated: 33 of them, the root being node 24 as written
TOO_MANY = themselves(NEXT, NEXT)

# name, rule, what document 02 says of it, worked out by hand: the refusal's number and place, or None
LIMITS = [
    ("32 nodes: a false, 0, and always 30 times", stacked(*[ALWAYS] * 30), None),
    ("33 nodes: a false, 0, and always 31 times", stacked(*[ALWAYS] * 31), (26, 0)),
    ("32 nodes: one false for all, 0, and, and always 29 times", with_constant(FALSE, 29), None),
    ("33 nodes: a false, a true, 0, and, and always 29 times", with_constant(TRUE, 29), (26, 0)),
    ("32 nodes: leaves in both senses", themselves(NEXT), None),
    ("33 nodes: leaves in both senses", TOO_MANY, (26, 0)),
    ("44 nodes", far_longer(), (26, 0)),
    ("33 nodes and nothing wrong but a node with no parent", themselves(NEXT, NEXT, unused=True), (6, 8)),
    ("33 nodes and an operator at two places", TOO_MANY + bytes((AND, 24, 24)), (6, 24)),
    ("33 nodes but for the root's unknown kind", changed(TOO_MANY, -3, 13), (3, 24)),
    ("33 nodes and a root with an unused byte", changed(TOO_MANY, -1, 1), (4, 24)),
    ("33 nodes but for the root below itself", changed(TOO_MANY, -2, 24), (5, 24)),
    ("32 nodes, 30 of them untils", stacked(*[EVENTUALLY] * 30), (7, 0)),
    ("33 nodes, 31 of them untils", stacked(*[EVENTUALLY] * 31), (26, 0)),
    ("eight eventually", stacked(*[EVENTUALLY] * 8), None),
    ("nine eventually", stacked(*[EVENTUALLY] * 9), (7, 0)),
    ("eight always below not are eight untils", stacked(*[ALWAYS] * 8, NOT), None),
    ("nine always below not are nine untils", stacked(*[ALWAYS] * 9, NOT), (7, 0)),
    ("nine always below two nots", stacked(*[ALWAYS] * 9, NOT, NOT), None),
    ("nine eventually below not are none", stacked(*[EVENTUALLY] * 9, NOT), None),
    ("nine untils below not are none", negated_untils(9), None),
    ("64 terms", promises(6), None),
    ("128 terms at node 26, in normal form 27", promises(7), (20, 27)),
    ("128 terms at node 30, in normal form 27", promises(7, nots=4), (20, 27)),
    ("128 terms at node 26, in normal form behind a false", promises(7, above=[ALWAYS]), (20, 28)),
] + [(name, bytes.fromhex(text), refusal) for name, text, refusal in (
    ("0 implies 0", "020000 0a0000", None),
    ("not not not true", "010000 090000 090100 090200", None),
    ("kind 13 alone", "0d0000", (3, 0)),
    ("kind 13 with all other faults", "020000 0d0101", (3, 1)),
    ("not with a right", "020000 090001", (4, 1)),
    ("always with a right", "020000 0b0001", (4, 1)),
    ("eventually with a right", "020000 0c0001", (4, 1)),
    ("not with a right and not below", "020000 090101", (4, 1)),
    ("not of itself", "020000 090100", (5, 1)),
    ("always of itself", "020000 0b0100", (5, 1)),
    ("eventually of itself", "020000 0c0100", (5, 1)),
    ("implies with its left not below", "020000 0a0100", (5, 1)),
    ("implies with its right not below", "020000 0a0001", (5, 1)),
    ("a not at two places", "020000 090000 0a0101", (6, 1)),
    ("an implies at two places", "020000 0a0000 040101", (6, 1)),
    ("an always at two places", "020000 0b0000 050101", (6, 1)),
    ("an eventually with no parent", "020000 0c0000 0b0000", (6, 1)))]


def sentences(rng):
    """One to four sentences as a grower writes them, most often joined by and, now and then negated as a whole: never,
    always, again and again, if .. then .., not before. No constants, so that none decides the rule."""
    b = Builder()
    propositions = rng.randrange(1, 5)

    def literal():
        leaf = b.leaf(PROPOSITION, rng.randrange(propositions))
        return b.add(NOT, leaf) if rng.random() < .3 else leaf

    def matter():
        return b.add(rng.choice((AND, OR, IMPLIES)), literal(), literal()) if rng.random() < .3 else literal()

    def promise():
        kind = rng.choice((NEXT, EVENTUALLY, ALWAYS, NOT, None))
        return b.add(kind, matter()) if kind else matter()

    def sentence():
        pick = rng.randrange(7)
        if pick < 2:
            return b.add(NOT, b.add(rng.choice((EVENTUALLY, ALWAYS)), promise()))
        if pick < 4:
            return b.add(rng.choice((EVENTUALLY, ALWAYS)), promise())
        if pick < 5:
            return b.add(rng.choice((ALWAYS, EVENTUALLY, NOT)), b.add(IMPLIES, matter(), promise()))
        if pick < 6:
            return b.add(IMPLIES, promise(), promise())
        return b.add(NOT, b.add(rng.choice((UNTIL, RELEASE)), literal(), matter()))

    whole = b.joined(rng.choice((AND, AND, AND, OR, IMPLIES)), [sentence() for _ in range(rng.randrange(1, 5))])
    b.below([NOT] * (rng.random() < .2), whole)
    return b.bytes()


# all operators; nots, also of constants; always and eventually in every sense
EVERY = (NOT, IMPLIES, ALWAYS, EVENTUALLY, AND, OR, NEXT, UNTIL, RELEASE)
MANY_NOTS = (NOT, NOT, NOT, IMPLIES, AND, OR, ALWAYS, UNTIL)
TEMPORAL = (NOT, IMPLIES, ALWAYS, EVENTUALLY, UNTIL, RELEASE)
PLAIN = (NOT, IMPLIES, OR, OR, AND, NEXT)


def tree(rng, operators, kinds, propositions=4, constants=.1, shared=.7):
    """A random tree of so many operators. Of its leaves, so large a part is constant, and so large a part is shared."""
    b = Builder()

    def leaf():
        kinds = (FALSE, TRUE) if rng.random() < constants else (PROPOSITION, PROPOSITION, NEGATION)
        kind = rng.choice(kinds)
        number = rng.randrange(propositions) if kind > TRUE else 0
        return b.leaf(kind, number) if rng.random() < shared else b.add(kind, number)

    def grown(count):
        if count == 0:
            return leaf()
        kind, left = rng.choice(kinds), rng.randrange(count)
        if kind in ONE_OPERAND:
            return b.add(kind, grown(count - 1))
        return b.add(kind, grown(left), grown(count - 1 - left))

    grown(operators)
    return b.bytes()


def near_limit(rng):
    """A rule of up to 32 nodes with 31, 32, 33 or more in normal form: leaves in both senses and the constants of
    always and eventually make that longer than the rule, nots and constants that become one make it shorter."""
    wanted = rng.choice(((31,), (32,), (32,), (33,), range(34, 45)))
    while True:
        kinds = rng.choice((PLAIN, PLAIN + (ALWAYS, EVENTUALLY), EVERY))
        rule = tree(rng, rng.randrange(15, 24), kinds, PROPOSITIONS, rng.choice((0, .1)), shared=1)
        if len(rule) <= 3 * MAX_NODES and len(second.first_form(second.well_formed(rule, EVENTUALLY))) in wanted:
            return rule


def tower(rng):
    """Temporal operators one in another, about as many untils in normal form as there may be, or as many releases, with
    a few of the other and nots between them. What becomes an until is written as until or eventually, and below an odd
    number of nots as release or always."""
    b = Builder()
    wanted = [rng.choice((UNTIL, RELEASE))] * rng.randrange(7, 11) + rng.choices((UNTIL, RELEASE), k=rng.randrange(3))
    rng.shuffle(wanted)
    nots, short = rng.choice((.05, .25)), rng.choice((0, .7))

    def level(at, negated):
        if rng.random() < nots:
            return b.add(NOT, level(at, not negated))
        if at == len(wanted):
            return b.leaf(PROPOSITION, rng.randrange(3))
        until, below = (wanted[at] == UNTIL) != negated, level(at + 1, negated)
        if rng.random() < short:
            return b.add(EVENTUALLY if until else ALWAYS, below)
        constant = rng.random() < .9
        left = b.leaf(TRUE if until else FALSE) if constant else b.leaf(PROPOSITION, rng.randrange(3))
        return b.add(UNTIL if until else RELEASE, left, below)

    negated = rng.random() < .5
    b.below([NOT] * negated, level(0, negated))
    return b.bytes()


def random_rule(rng):
    """A well-formed written rule: sentences, trees, towers of untils, and rules near 32 nodes in normal form."""
    pick = rng.random()
    if pick < .4:
        return sentences(rng)
    if pick < .5:
        return tower(rng)
    if pick < .65:
        return near_limit(rng)
    if pick < .75:
        return tree(rng, rng.randrange(1, 16), MANY_NOTS, constants=.5)
    kinds, propositions = rng.choice((EVERY, TEMPORAL)), rng.choice((2, 4, PROPOSITIONS))
    return tree(rng, rng.randrange(1, 16), kinds, propositions, shared=rng.choice((0, .5, 1)))
