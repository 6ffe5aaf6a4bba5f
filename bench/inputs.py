"""The benchmark's inputs, a file of cases for each group, in the form that tests/host/serve.c reads (T, J, R, S, M, A, E
and K)."""
import os
import random
import struct
import sys

sys.path.insert(0, os.path.join(os.path.dirname(os.path.abspath(__file__)), "..", "tests"))
import lassos  # noqa: E402
import merged  # noqa: E402
import rules  # noqa: E402
import words  # noqa: E402
import written  # noqa: E402
from nodes import (ALWAYS, AND, EVENTUALLY, FALSE, IMPLIES, MAX_NODES, NEGATION, NEXT, NOT, OR,  # noqa: E402
                   PROPOSITION, PROPOSITIONS, RELEASE, TRUE, UNTIL, Builder, second)


def theta(n):
    """not ((always eventually p1 and .. and always eventually pn) implies always (q implies eventually r)), of source
    document 001, in negation normal form; its formula for Spin with it."""
    b = Builder()
    true, false = b.add(TRUE), b.add(FALSE)
    parts = [b.add(RELEASE, false, b.add(UNTIL, true, b.add(PROPOSITION, i))) for i in range(n)]
    never = b.add(RELEASE, false, b.add(NEGATION, n + 1))
    parts.append(b.add(UNTIL, true, b.add(AND, b.add(PROPOSITION, n), never)))
    b.joined(AND, parts)
    fair = " && ".join(f"[]<>p{i}" for i in range(n))
    return b.bytes(), f"!(({fair}) -> [](q -> <>r))"


def phi(n):
    """not (p1 until (p2 until (.. until pn))), in negation normal form, with its formula for Spin."""
    b = Builder()
    leaves = [b.add(NEGATION, i) for i in range(n)]
    node = leaves[-1]
    for leaf in reversed(leaves[:-1]):
        node = b.add(RELEASE, leaf, node)
    text = f"p{n - 1}"
    for i in reversed(range(n - 1)):
        text = f"(p{i} U {text})"
    return b.bytes(), f"!{text}"


def fairness(n):
    """always eventually p0 and .. and always eventually p(n-1)."""
    b = Builder()
    true, false = b.add(TRUE), b.add(FALSE)
    b.joined(AND, [b.add(RELEASE, false, b.add(UNTIL, true, b.add(PROPOSITION, i))) for i in range(n)])
    return b.bytes()


def responses(n):
    """always (p0 implies eventually p1) and .. of n pairs of propositions."""
    b = Builder()
    true, false = b.add(TRUE), b.add(FALSE)
    b.joined(AND, [b.add(RELEASE, false, b.add(OR, b.add(NEGATION, 2 * i), b.add(UNTIL, true, b.add(PROPOSITION, 2 * i + 1))))
                   for i in range(n)])
    return b.bytes()


def followed(clauses):
    """always (p implies the literal so many letters later), of several clauses: rules that the field unit takes."""
    b = Builder()
    parts = [b.add(OR, b.add(NEGATION, p), b.below([NEXT] * later, b.add(sign, q))) for p, later, sign, q in clauses]
    b.add(RELEASE, b.add(FALSE), b.joined(AND, parts))
    return b.bytes()


def theta_written(n):
    """theta(n) as it is written: not, implies, always and eventually."""
    b = Builder()
    fair = b.joined(AND, [b.below([EVENTUALLY, ALWAYS], b.add(PROPOSITION, i)) for i in range(n)])
    response = b.add(IMPLIES, b.add(PROPOSITION, n), b.add(EVENTUALLY, b.add(PROPOSITION, n + 1)))
    b.add(NOT, b.add(IMPLIES, fair, b.add(ALWAYS, response)))
    return b.bytes()


def eventually(p):
    b = Builder()
    b.add(UNTIL, b.add(TRUE), b.add(PROPOSITION, p))
    return b.bytes()


def eventually_then(p, q):
    """eventually (p and next q)"""
    b = Builder()
    true = b.add(TRUE)
    b.add(UNTIL, true, b.add(AND, b.add(PROPOSITION, p), b.add(NEXT, b.add(PROPOSITION, q))))
    return b.bytes()


def eventually_both(p, q):
    """eventually p and eventually q"""
    b = Builder()
    true = b.add(TRUE)
    b.joined(AND, [b.add(UNTIL, true, b.add(PROPOSITION, number)) for number in (p, q)])
    return b.bytes()


def until(p, q):
    b = Builder()
    b.add(UNTIL, b.add(PROPOSITION, p), b.add(PROPOSITION, q))
    return b.bytes()


MOST = second.max_slots()

# how many images are loaded one after another
LOADED = 200

# how many steps the field unit takes one after another
STEPS = 2000

# rules that no letters keep or break: their runs never end, and none comes to rest
UNDECIDED = [fairness(n) for n in (1, 2, 3, 4)] + [responses(n) for n in (1, 2, 3)]

# rules that are kept once what they wait for has come up, each with a letter that keeps it waiting
WAITING = [(eventually(p), 0) for p in range(PROPOSITIONS)] + [
    case for p, q in ((0, 1), (2, 3), (4, 5), (5, 6))
    for case in ((eventually_then(p, q), 0), (eventually_both(p, q), 0), (until(p, q), 1 << p))]

FORMULAS = [(f"theta_{n}", *theta(n)) for n in (1, 2, 3)] + [(f"phi_{n}", *phi(n)) for n in (2, 3, 4, 5)]


def full_image(states=96, row=128, seed=0):
    """An automaton with as many transitions as fit, of which most letters take about half; one state accepts and is not
    at rest, so that every letter is read. It is drawn again until that is so."""
    rng = random.Random(states * 1000 + row + 1000000 * seed)
    while True:
        rows = [(q == states - 1, [(rng.choice((0, 0, 1, 2)), rng.choice((0, 4)), rng.randrange(states))
                                   for _ in range(row)]) for q in range(states)]
        automaton = second.Watcher(rows, [0])
        if not automaton.at_rest(states - 1):
            return second.write(automaton)


def long_word():
    """As many letters as a plan may have, with few propositions."""
    return lassos.sparse(random.Random(5), MOST)


def waiting_plans(count):
    """For each rule of WAITING so many plans of as many letters as there may be: up to 11 that keep it waiting, two
    with every proposition, then any. Each is kept by a state at rest, after few pairs."""
    rng = random.Random(4)
    for rule, quiet in WAITING:
        image = second.write(second.translate(rule))
        for _ in range(count):
            word = bytes([quiet] * rng.randrange(12)) + b"\x7f\x7f"
            word += bytes(rng.randrange(lassos.SKIPPED) for _ in range(MOST - len(word)))
            stem, cycle = word[:MOST // 2], word[MOST // 2:]
            kept, pairs = second.judged(image, stem, cycle)
            assert kept and pairs < 50
            yield image, stem, cycle


def some_skipped(rng, count):
    """So many letters, about one in five of them skipped."""
    return bytes(letter | lassos.SKIPPED if rng.random() < .2 else letter for letter in lassos.unskipped(rng, count))


def framed(kind, *slices):
    return kind + b"".join(struct.pack("<I", len(s)) + s for s in slices)


def translations(cases):
    return b"".join(framed(b"T", rule) for rule in cases)


def plans(cases, kind=b"J"):
    return b"".join(framed(kind, *case) for case in cases)


def by_meaning(kind, cases):
    """To explain, or to tell whether they are satisfied: rules with plans."""
    return b"".join(framed(kind, *case) for case in cases)


def loads(images, kind=b"R"):
    return b"".join(framed(kind, image) for image in images)


def plans_twice(count):
    """Plans of up to as many letters as there may be, each in two ways that are not the same."""
    rng = random.Random(6)
    while count:
        stem = lassos.unskipped(rng, rng.randrange(MOST // 2))
        cycle = lassos.unskipped(rng, rng.randrange(1, MOST // 4))
        other = words.rewritten(rng, stem, cycle)
        if other != (stem, cycle):
            yield framed(b"S", stem, cycle, *other)
            count -= 1


def rule_pairs(count):
    """Pairs of rules that may be merged, of every size."""
    rng = random.Random(8)
    while count:
        pair = merged.whole_pair(rng)
        try:
            second.merge(*pair)
        except second.Refused:
            continue
        yield framed(b"M", *pair)
        count -= 1


def accepted_rules(draw, seed, count):
    """Random rules that are accepted, and not only small ones; drawn by the function given."""
    rng, out = random.Random(seed), []
    while len(out) < count:
        rule = draw(rng)
        try:
            second.translate(rule)
            out.append(rule)
        except second.Refused:
            pass
    return out


def full_rules(count):
    """Rules of as many nodes as there may be, with eight untils at most."""
    rng, out = random.Random(10), []
    while len(out) < count:
        rule = merged.of_size(rng, MAX_NODES)
        if sum(kind == UNTIL for kind in rule[::3]) <= merged.MAX_UNTILS:
            out.append(rule)
    return out


def with_plans(cases, letters, count, draw=lassos.unskipped):
    """Each rule or image with a plan of so many letters, half of them in the stem."""
    return [(case, draw(letters, count // 2), draw(letters, count - count // 2)) for case in cases]


def meanings(random_rules):
    """Name, rules with plans of each group to explain and to tell whether they are satisfied."""
    letters = random.Random(11)
    return [("200 random rules, 12 slots", with_plans(random_rules, letters, 12)),
            (f"200 random rules, {MOST} slots", with_plans(random_rules, letters, MOST)),
            (f"200 random rules, {MOST} slots of which some are skipped",
             with_plans(random_rules, letters, MOST, some_skipped)),
            (f"50 rules of {MAX_NODES} nodes, {MOST} slots", with_plans(full_rules(50), letters, MOST))]


def groups():
    """Name and cases of each group: first those to translate, all of kinds 0 to 8, then those to judge, then those to
    compare, then those to merge, then those to explain and to tell whether they are satisfied."""
    random_rules = accepted_rules(rules.first_edition, 7, 200)
    letters = random.Random(3)
    images = [second.write(second.translate(rule)) for rule in random_rules]
    full, word = full_image(), long_word()
    return [
        ("translate: rows P1 to P9", translations(bytes.fromhex(r.replace(" ", "")) for _, r, _ in second.ROWS)),
        ("translate: limits", translations(rule for _, rule, _ in rules.FIRST_EDITION_LIMITS)),
        ("translate: theta_1 to theta_3", translations(rule for name, rule, _ in FORMULAS if name.startswith("theta"))),
        ("translate: phi_2 to phi_5", translations(rule for name, rule, _ in FORMULAS if name.startswith("phi"))),
        ("translate: 200 random rules", translations(random_rules)),
        ("judge: 200 random images, 12 slots",
         plans((image, lassos.unskipped(letters, 4), lassos.unskipped(letters, 8)) for image in images)),
        (f"judge: 200 random images, {MOST} slots",
         plans((image, lassos.unskipped(letters, MOST // 2), lassos.unskipped(letters, MOST // 2))
               for image in images)),
        (f"judge: 7 undecided rules on 20 plans of {MOST} slots each",
         plans((image, lassos.unskipped(letters, MOST // 2), lassos.unskipped(letters, MOST // 2))
               for image in map(second.write, map(second.translate, UNDECIDED)) for _ in range(20))),
        (f"judge: {len(WAITING)} eventually rules on 20 plans of {MOST} slots each", plans(waiting_plans(20))),
        (f"judge: 200 random images, {MOST} slots of which some are skipped",
         plans((image, some_skipped(letters, MOST // 2), some_skipped(letters, MOST // 2)) for image in images)),
        ("judge: a full image, 128 slots", plans([(full, b"", word[:128])])),
        (f"judge: a full image, {MOST} slots", plans([(full, b"", word)])),
        ("compare: 200 plans, each in two ways", b"".join(plans_twice(200))),
        ("merge: 200 pairs of rules", b"".join(rule_pairs(200))),
    ] + [(f"{call}: {name}", by_meaning(kind, cases)) for call, kind in (("explain", b"E"), ("satisfies", b"K"))
         for name, cases in meanings(random_rules)]


def editions():
    """Name of each group of written rules, with its cases as written and in negation normal form."""
    for name, cases in (("theta_1 to theta_3", [theta_written(n) for n in (1, 2, 3)]),
                        ("200 random rules", accepted_rules(written.random_rule, 7, 200))):
        yield name, translations(cases), translations(map(written.normal_form, cases))


def reporting():
    """Name of each group of images with plans, with its cases to report and to judge."""
    letters = random.Random(3)
    images = [second.write(second.translate(rule)) for rule in accepted_rules(rules.first_edition, 7, 200)]
    for name, cases in (("200 random images, 12 slots", with_plans(images, letters, 12)),
                        (f"200 random images, {MOST} slots", with_plans(images, letters, MOST)),
                        (f"a full image, {MOST} slots", [(full_image(), b"", long_word())])):
        yield name, plans(cases, b"p"), plans(cases)


def loading():
    """Name of each group of images to load, and its cases for one and for two passes over the state records."""
    for row in (1, 128):
        images = [full_image(row=row, seed=seed) for seed in range(LOADED)]
        yield f"{LOADED} images of 96 states with {96 * row:,} transitions", loads(images), loads(images, b"r")


def live_letters(automaton, count):
    """So many letters by which some run goes on: random ones, and back by one where none leads on."""
    rng, dead, out = random.Random(9), set(), []
    sets = [frozenset(automaton.initial)]
    while len(out) < count:
        letters = rng.sample(range(lassos.SKIPPED), lassos.SKIPPED)
        ways = ((x, frozenset(second.step(automaton, sets[-1], x))) for x in letters)
        way = next(((x, after) for x, after in ways if after and after not in dead), None)
        if way:
            out.append(way[0])
            sets.append(way[1])
        else:
            dead.add(sets.pop())
            out.pop()
    return bytes(out)


def stepping():
    """Name of each group for the field unit, and its cases: letters to step with, as many that are skipped, and the
    first ones again with the image checked once."""
    images = [(3, followed([(0, 2, NEGATION, 2), (0, 1, PROPOSITION, 0)])), (41, fairness(4)),
              (96, followed([(0, 3, PROPOSITION, 3), (2, 3, PROPOSITION, 0), (2, 4, PROPOSITION, 1)]))]
    automata = [(states, second.translate(rule)) for states, rule in images] + [(96, second.read(full_image()))]
    for states, automaton in automata:
        assert len(automaton.states) == states
        image, letters = second.write(automaton), live_letters(automaton, STEPS)
        here, sizes = set(automaton.initial), []
        for letter in letters:
            sizes.append(len(here))
            here = second.step(automaton, here, letter)
        name = f"{states} states, {automaton.transitions():,} transitions, {sum(sizes) / STEPS:.1f} in the set"
        skipped = bytes(letter | lassos.SKIPPED for letter in letters)
        cases = ((b"A", image, letters), (b"A", image, skipped), (b"a", image, letters))
        yield name, *(framed(*case) for case in cases)


def by_letters():
    """A full image on plans of more and more slots, each the beginning of the next."""
    full, word = full_image(), long_word()
    return [(n, plans([(full, b"", word[:n])])) for n in (1, 16, 32, 64, 128, 192, 256, MOST)]


def by_transitions():
    """The same slots on images with more and more transitions."""
    return [(96 * row, plans([(full_image(96, row), b"", long_word())])) for row in (1, 8, 16, 32, 64, 96, 128)]
