"""The field unit: rules for it, sets of states in bytes, and what its calls answer, by the second translator."""
import lassos
import rules
import words
from nodes import (ALWAYS, AND, EVENTUALLY, IMPLIES, NEXT, NOT, OR, PROPOSITION, PROPOSITIONS, RELEASE, TRUE, UNTIL,
                   second)

SET_BYTES = 12


def safe_rule(rng):
    """A well-formed rule, of either edition, most of them with no until in first-edition form."""
    pick = rng.random()
    if pick < .15:
        return rules.well_formed(rng)
    kinds = rng.choice(((AND, OR, NEXT, RELEASE), (AND, AND, NEXT, ALWAYS), (AND, OR, NEXT, RELEASE, ALWAYS),
                        (AND, NEXT, NOT, IMPLIES, ALWAYS, EVENTUALLY)))
    return second.random_rule(rng, rng.randrange(1, 14), marks=rng.choice((1, 2, 4, PROPOSITIONS)), kinds=kinds)


def any_rule(rng):
    """A rule as `safe_rule` draws it, some at the limits, or a damaged one."""
    rule = rng.choice(LIMITS)[1] if rng.random() < .1 else safe_rule(rng)
    return rules.damaged(rng, rule) if rng.random() < .2 else rule


def automaton(rng):
    """The automaton of a rule that the field unit takes, with the rule."""
    while True:
        rule = safe_rule(rng)
        try:
            return rule, second.field_form(rule)
        except second.Refused:
            continue


# ---- the calls

def states_in(bytes_, count):
    """The states below count that are in the set."""
    return {q for q in range(count) if bytes_[q // 8] >> q % 8 & 1}


def in_bytes(states, length):
    """A set's bytes, with zeros behind the first twelve."""
    out = bytearray(length)
    for q in states:
        out[q // 8] |= 1 << q % 8
    return bytes(out)


def watchable(image, set_):
    """25, then 10 to 13."""
    if len(set_) < SET_BYTES:
        raise second.Refused(25)
    return second.read(image)


def started(image, set_):
    """The states, and the bytes of the set."""
    states = set(watchable(image, set_).initial)
    return states, in_bytes(states, len(set_))


def step(w, set_, letter):
    """Likewise, of a step of an automaton."""
    here = states_in(set_, len(w.states))
    if letter & lassos.SKIPPED:
        return here, set_
    after = second.step(w, here, letter)
    return after, in_bytes(after, len(set_))


def stepped(image, set_, letter):
    return step(watchable(image, set_), set_, letter)


def watched(image, letters):
    """Start, then a step for each letter: after how many letters the alarm is raised, or None, and the set's bytes."""
    w, (states, set_) = second.read(image), started(image, bytes(SET_BYTES))
    raised = None if states else 0
    for i, letter in enumerate(letters):
        states, set_ = step(w, set_, letter)
        if raised is None and not states:
            raised = i + 1
    return raised, set_


def line(states, set_):
    """What `serve` prints of start or step."""
    return f"{'quiet' if states else 'alarm'} {set_.hex()}"


def watched_line(raised, set_):
    return f"{'quiet' if raised is None else f'alarm {raised}'} {set_.hex()}"


def any_set(rng):
    """Lent bytes: twelve or more with any bits, few bits, or none, now and then too few bytes."""
    length = rng.choice((SET_BYTES, SET_BYTES, SET_BYTES, SET_BYTES + 1, 40, rng.randrange(SET_BYTES)))
    density = rng.choice((0, .05, .5, 1))
    return bytes(sum((rng.random() < density) << bit for bit in range(8)) for _ in range(length))


# ---- whole plans

def enough(states, stem, cycle):
    """As many letters that remain as the alarm takes at most: the stem's, and the cycle's for each state."""
    stem, cycle = second.remaining(stem, cycle)
    return len(stem) + len(cycle) * states


def as_lent(stem, cycle, remaining):
    """The letters of a lasso as they are lent, up to that many that remain."""
    out, at = bytearray(), 0
    while remaining:
        letter = stem[at] if at < len(stem) else cycle[(at - len(stem)) % len(cycle)]
        out.append(letter)
        remaining -= not letter & lassos.SKIPPED
        at += 1
    return bytes(out)


def plan(rng):
    """A short lasso of whose cycle a letter remains."""
    while True:
        stem, cycle = lassos.letters(rng, rng.randrange(5)), lassos.letters(rng, rng.randrange(1, 6))
        if words.within(stem, cycle):
            return stem, cycle


# rule, stem and cycle for which the alarm comes with the very last letter that it may take: next next next next false
# has four states; next always 1 has two, and so has a rule with a cycle of two letters that remain and two that do not;
# always 1, in either edition, has one; false has none
TIGHT = [tuple(bytes.fromhex(part) for part in parts) for parts in (
    ("000000060000060100060200060300", "", "00"), ("0201000b0000060100", "", "00"),
    ("0200000300000b01000602000a00030b0400", "00", "00810180"),
    ("0201000b0000", "020302", "030200"), ("000000030100080001", "0101", "0003"), ("000000", "", "03"))]


def crowded_until():
    """So many terms that 20 refuses the rule, and an until besides."""
    rule = rules.choices(7)
    root = len(rule) // 3 - 1
    return rule + bytes((TRUE, 0, 0, UNTIL, root + 1, 0, AND, root, root + 2))


def stacked_eventually(count):
    return bytes((PROPOSITION, 0, 0)) + b"".join(bytes((EVENTUALLY, n, 0)) for n in range(count))


# name, rule, what document 02 says of it for the field unit: the refusal's number and place, or None; a place is a node
# of the first-edition form
LIMITS = [(name, bytes.fromhex(rule), refusal) for name, rule, refusal in (
    ("always 0", "0200000b0000", None),
    ("not eventually 0", "0200000c0000090100", None),
    ("eventually 0", "0200000c0000", (29, 2)),
    ("not always 0", "0200000b0000090100", (29, 2)),
    ("1 until (0 until 1): the lower", "020000020100070001070102", (29, 2)),
    ("next (0 until 1) and eventually 2", "0200000201000700010602000202000c0400040305", (29, 3)))] + [
    ("eight untils", rules.nested_eventually(8), (29, 2)),
    ("nine untils: 7 before 29", rules.nested_eventually(9), (7, 0)),
    ("over 32 nodes: 26 before 29", stacked_eventually(31), (26, 0)),
    ("over 64 terms: 29 before 20", crowded_until(), (29, 28)),
    ("over 64 terms and no until", rules.choices(7), (20, 26)),
]
