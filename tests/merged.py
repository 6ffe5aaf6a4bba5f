"""Pairs of first-edition rules to merge: any two, at the limits of nodes and untils over both, damaged ones in either
place; and what deciding a plan by both of them answers."""
import lassos
import rules
import written
from nodes import AND, MAX_NODES, NEXT, OR, PROPOSITION, PROPOSITIONS, RELEASE, TRUE, UNTIL, Builder, second

MAX_UNTILS = 8


def of_size(rng, nodes):
    """A well-formed first-edition rule of exactly so many nodes."""
    while True:
        kinds = rng.choice(((AND, OR, NEXT, UNTIL, RELEASE), (AND, OR, NEXT, RELEASE), (AND, OR)))
        rule = written.tree(rng, rng.randrange(nodes), kinds, PROPOSITIONS, shared=rng.choice((0, .5, 1)))
        if len(rule) == 3 * nodes:
            return rule


def near_nodes(rng):
    """Two rules that together with the root have about as many nodes as there may be."""
    both = rng.choice((MAX_NODES - 1, MAX_NODES, MAX_NODES, MAX_NODES + 1, MAX_NODES + 1, MAX_NODES + 2)) - 1
    first = rng.randrange(1, both)
    return of_size(rng, first), of_size(rng, both - first)


def tower(rng, untils):
    """So many untils one in another, of true or of a proposition, with a next or a release between some of them."""
    b = Builder()
    node = b.leaf(PROPOSITION, rng.randrange(PROPOSITIONS))
    for _ in range(untils):
        if rng.random() < .2:
            node = b.add(NEXT, node) if rng.random() < .5 else b.add(RELEASE, b.leaf(PROPOSITION, rng.randrange(3)), node)
        left = b.leaf(TRUE) if rng.random() < .8 else b.leaf(PROPOSITION, rng.randrange(3))
        node = b.add(UNTIL, left, node)
    return b.bytes()


def near_untils(rng):
    """Two rules that together have about as many untils as there may be; some of them too many nodes besides."""
    both = rng.choice((MAX_UNTILS - 1, MAX_UNTILS, MAX_UNTILS, MAX_UNTILS + 1, MAX_UNTILS + 1, 2 * MAX_UNTILS))
    first = rng.randrange(both + 1)
    return tower(rng, first), tower(rng, both - first)


def two_sentences(rng):
    """Two rules as growers write them, in first-edition form."""
    while True:
        try:
            return tuple(written.normal_form(written.sentences(rng)) for _ in range(2))
        except second.Refused:
            continue


def small_pair(rng):
    """Two rules of few operators."""
    return tuple(second.random_rule(rng, rng.randrange(7), marks=rng.choice((2, PROPOSITIONS))) for _ in range(2))


def whole_pair(rng):
    """Two rules that 1 to 6 let pass, at the limits of both together and away from them."""
    draw = rng.choice((small_pair, small_pair, two_sentences, near_nodes, near_untils))
    return draw(rng)


def any_pair(rng):
    """Two rules of which either may be damaged or of the second edition, or both."""
    pair = list(whole_pair(rng))
    if rng.random() < .5:
        for place in rng.choice(((0,), (1,), (0, 1))):
            pair[place] = rules.any_rule(rng) if rng.random() < .3 else rules.damaged(rng, pair[place])
    return tuple(pair)


def decided(first, other, stem, cycle):
    """What merge and then decide answer. Where that is a verdict, it is what the two rules mean."""
    merged = second.merge(first, other)
    kept, pairs = lassos.decided(merged, stem, cycle)
    meant = all(second.written_keeps(second.well_formed(rule, RELEASE), stem, cycle) for rule in (first, other))
    assert kept == meant, (first, other, stem, cycle)
    return kept, pairs
