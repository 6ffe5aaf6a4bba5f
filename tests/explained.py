"""Explaining and satisfying: rules of several clauses with lassos that keep most of them, and what the calls answer, by
the second translator."""
import lassos
import rules
import words
import written
from nodes import (AND, EVENTUALLY, FALSE, MAX_NODES, NEGATION, NEXT, OR, PROPOSITION, RELEASE, TRUE, UNTIL, Builder,
                   second)


def operand(rng, b, depth):
    """A literal, or now and then an operator over literals."""
    if depth == 0 or rng.random() < .6:
        return b.leaf(rng.choice((PROPOSITION, NEGATION)), rng.randrange(3))
    kind = rng.choice((AND, OR, NEXT, UNTIL, RELEASE))
    left = operand(rng, b, depth - 1)
    return b.add(NEXT, left) if kind == NEXT else b.add(kind, left, operand(rng, b, depth - 1))


def clause(rng):
    """A small rule by itself: an until or a release, of a constant or not, or something else but an and."""
    b = Builder()
    kind = rng.choice((UNTIL, UNTIL, UNTIL, UNTIL, RELEASE, RELEASE, OR, NEXT, PROPOSITION))
    if kind == PROPOSITION:
        operand(rng, b, 0)
    elif kind == NEXT:
        b.add(NEXT, operand(rng, b, 1))
    else:
        constant = {UNTIL: TRUE, RELEASE: FALSE}.get(kind) if rng.random() < .4 else None
        left = operand(rng, b, 1) if constant is None else b.leaf(constant)
        b.add(kind, left, operand(rng, b, rng.choice((0, 1, 2))))
    return b.bytes()


def holds(rule, stem, cycle):
    return second.keeps(second.well_formed(rule, RELEASE), stem, cycle)


def of_clauses(rng, stem, cycle):
    """One to five clauses under ands, nested to the left and to the right; most of them hold on the lasso."""
    parts = []
    for _ in range(rng.randrange(1, 6)):
        one = clause(rng)
        while rng.random() < .65 and not holds(one, stem, cycle):
            one = clause(rng)
        parts.append(one)
    while len(parts) > 1:
        i = rng.randrange(len(parts) - 1)
        first, other = parts[i:i + 2]
        if len(first) + len(other) + 3 > 3 * MAX_NODES:
            break
        parts[i:i + 2] = [second.merge(first, other)] if untils(first) + untils(other) <= 8 else [first]
    return parts[0]


def untils(rule):
    return sum(kind == UNTIL for kind in rule[::3])


def drawn(rng):
    """A rule with a lasso within the limits: several clauses, or any rule of the first edition."""
    while True:
        stem, cycle = lassos.lasso(rng)
        if words.within(stem, cycle):
            return (of_clauses(rng, stem, cycle) if rng.random() < .8 else rules.first_edition(rng)), stem, cycle


def any_case(rng):
    """The same, or with a damaged rule, one of the second edition, or any lasso."""
    rule, stem, cycle = drawn(rng)
    pick = rng.random()
    if pick < .1:
        rule = rules.damaged(rng, rule)
    elif pick < .13:
        rule = rules.any_rule(rng)
    elif pick < .25:
        stem, cycle = lassos.lasso(rng)
    return rule, stem, cycle


def line(rule, stem, cycle):
    """What `serve` prints of explaining: the clause, and the part with its first index, or that there is none."""
    clause_, where, index = second.explain(rule, stem, cycle)
    if clause_ is None:
        return "kept"
    if where == "none":
        return f"clause {clause_} never comes"
    part = (stem if where == "stem" else cycle)[index:]
    return f"clause {clause_} from {index} of the {'stem' if where == 'stem' else 'cycle'} {part.hex()}"


def satisfied(rule, stem, cycle):
    """1 to 6, 26 and 7 of a written rule, 8, 9 and 28 of the lasso, then the meaning of the rule as it is written."""
    second.accepted_form(rule)
    second.judged(lassos.NO_STATES, stem, cycle)
    return "kept" if second.written_keeps(second.well_formed(rule, EVENTUALLY), stem, cycle) else "broken"


def same_verdict(rng):
    """A written rule that 1 to 7 let pass, its normal form, and a lasso within the limits."""
    while True:
        rule, (stem, cycle) = rules.well_formed(rng), lassos.lasso(rng)
        try:
            second.accepted_form(rule)
            satisfied(rule, stem, cycle)
        except second.Refused:
            continue
        return rule, written.normal_form(rule), stem, cycle


def what(case, answer):
    """What an answer shows, for the count of what was seen: the kind of the clause and where its part begins, whether it
    is a later clause, and whether letters are skipped before it."""
    rule, stem, cycle = case
    if not answer.startswith("clause "):
        return [answer.split()[0]]
    words_ = answer.split()
    kind = {UNTIL: "until", RELEASE: "release"}.get(rule[3 * int(words_[1])], "other")
    seen = [f"{kind} never comes" if words_[2] == "never" else f"{kind} in the {words_[6]}"]
    nodes = second.well_formed(rule, RELEASE)

    def clauses(n):
        return clauses(nodes[n][1]) + clauses(nodes[n][2]) if nodes[n][0] == AND else [n]

    if clauses(len(nodes) - 1)[0] != int(words_[1]):
        seen.append("a later clause")
    if words_[2] == "from" and any(x & lassos.SKIPPED for x in (stem if words_[6] == "stem" else cycle)[:int(words_[3])]):
        seen.append("behind a skipped letter")
    if words_[2] == "from" and stem and words_[6] == "cycle" and not second.remaining(stem, b"")[0]:
        seen.append("past a stem of skipped letters")
    if len(stem) + len(cycle) == second.max_slots():
        seen.append("as many letters as there may be")
    return seen


# what must be seen of the answers
WANTED = {"kept", "refused", "until in the stem", "until in the cycle", "until never comes", "release in the stem",
          "release in the cycle", "other in the stem", "other in the cycle", "a later clause", "behind a skipped letter",
          "past a stem of skipped letters", "as many letters as there may be"}
