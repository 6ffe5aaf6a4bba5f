"""Lassos and images for the comparisons: of random rules, made by hand, damaged."""
import rules
from nodes import second


SKIPPED = 128


def sparse(rng, count):
    """Random letters with few propositions."""
    return bytes(rng.choice((0, 1, 2, 3, 4, 8)) for _ in range(count))


def unskipped(rng, count):
    """Random letters, none of them skipped, most of them with few propositions, so that rules are kept and broken about
    as often."""
    return bytes(rng.randrange(SKIPPED) for _ in range(count)) if rng.random() < .5 else sparse(rng, count)


def letters(rng, count):
    """Letters as `unskipped` draws them; often none is skipped, often some are, now and then all, or all but one."""
    skipped = rng.choice((0, 0, 0, 0, .2, .2, .2, .5, .5, 1))
    stays = rng.randrange(2 * count) if count and skipped == 1 else None
    return bytes(x | SKIPPED if i != stays and rng.random() < skipped else x
                 for i, x in enumerate(unskipped(rng, count)))


def lasso(rng):
    """A stem and a cycle: short ones, and some with no letter, as many as a lasso may have, and one more, skipped ones
    counted."""
    most = second.max_slots()
    pick = rng.random()
    if pick < .75:
        return letters(rng, rng.randrange(5)), letters(rng, rng.randrange(1, 6))
    if pick < .85:
        n = rng.randrange(1, most + 1)
        return letters(rng, most - n), letters(rng, n)
    if pick < .92:
        n = rng.randrange(1, most + 2)
        return letters(rng, most + 1 - n), letters(rng, n)
    return letters(rng, rng.randrange(most + 2)), letters(rng, rng.choice((0, 1, most // 2)))


def hand_made(rng):
    """An automaton that no translation gives: any states, any targets, any initial numbers. In some, many states accept
    or have a transition to themselves, free or not, so that one, several or none is at rest."""
    n = rng.choice((0, 1, 2, 3, 5, 8, 20, 96))
    accepting, loops = rng.choice((.05, .2, .2, .7)), rng.choice((0, 0, .1, .5))
    states = []
    for q in range(n):
        row = []
        for _ in range(rng.choice((0, 1, 1, 2, 2, 3, 6, 127 if n < 8 else 6))):
            must = rng.choice((0, 0, 1, 2, 3, rng.randrange(SKIPPED)))
            row.append((must, rng.choice((0, 0, 1, 2, 4, rng.randrange(SKIPPED))) & ~must, rng.randrange(n)))
        if rng.random() < loops:
            row.insert(rng.randrange(len(row) + 1), (*rng.choice(((0, 0), (0, 0), (1, 0), (0, 1))), q))
        states.append((rng.random() < accepting, row))
    return second.Watcher(states, sorted(rng.sample(range(n), rng.randrange(min(n, rng.choice((3, n))) + 1))))


def image_of_rule(rng):
    """The image of a random rule that is accepted, with the rule."""
    while True:
        rule = rules.well_formed(rng)
        try:
            return rule, second.write(second.translate(rule))
        except second.Refused:
            continue


def two_bytes(record, at=0):
    return record[at] + 256 * record[at + 1]


def bodies(image):
    """An image's three counts, and its records of states, of transitions and of initial numbers."""
    counts = [two_bytes(image, at) for at in (2, 8, 14)]
    a, b = 18 + 4 * counts[0], 18 + 4 * counts[0] + 4 * counts[1]
    return counts, (image[18:a], image[a:b], image[b:])


# what the first three bytes of a state record are changed to, some of it right and some wrong
STATE_BYTES = ((0, 1, 2, 128, 129, 255), (0, 1), (0, 1, 2, 255))


def damage_states(rng, counts, tables):
    """Moves a transition from one state record to another, which leaves the sum; or changes up to four bytes of them,
    so that several may be faulty and the sum may be wrong as well."""
    records = tables[0]
    giving = [4 * q for q in range(counts[0]) if records[4 * q]]
    if giving and rng.random() < .3:
        taking = 4 * rng.randrange(counts[0])
        records[rng.choice(giving)] -= 1
        records[taking] = min(records[taking] + 1, 255)
        return
    for _ in range(rng.randrange(1, 5) if counts[0] else 0):
        k = rng.randrange(3)
        records[4 * rng.randrange(counts[0]) + k] = rng.choice(STATE_BYTES[k])


def damage_rests(rng, counts, tables):
    """Changes the last byte of one or several state records, mostly to the other of 0 and 1."""
    for _ in range(rng.choice((1, 1, 2, 5)) if counts[0] else 0):
        at = 4 * rng.randrange(counts[0]) + 3
        tables[0][at] = int(tables[0][at] == 0) if rng.random() < .7 else rng.randrange(256)


def damage_transitions(rng, counts, tables):
    """Changes up to three transitions, more often those of states that accept: into free ones from a state to itself,
    into others, and into some that are wrong, also with the state itself in one byte of the target."""
    owners = [q for q in range(counts[0]) for _ in range(two_bytes(tables[0], 4 * q))][:counts[1]]
    of_accepting = [k for k, q in enumerate(owners) if tables[0][4 * q + 2] == 1]
    for _ in range(rng.randrange(1, 4) if owners else 0):
        k = rng.choice(of_accepting) if of_accepting and rng.random() < .6 else rng.randrange(len(owners))
        q, a = owners[k], counts[0]
        tables[1][4 * k:4 * k + 4] = bytes(rng.choice((
            (0, 0, q, 0), (0, 0, q, 0), (1, 0, q, 0), (0, 1, q, 0), (0, 0, rng.randrange(a), 0), (1, 1, q, 0),
            (0, 0, q, 1), (0, 0, 0, q), (0, 0, a, 0), (SKIPPED, 0, q, 0), (0, SKIPPED, q, 0), (1, SKIPPED | 2, q, 0))))


def damage_initial(rng, counts, tables):
    """Changes an initial number."""
    if counts[2]:
        tables[2][2 * rng.randrange(counts[2])] = rng.choice((0, rng.randrange(256), counts[0]))


def settle_rests(counts, tables):
    """Sets every last byte of a state record right, by the other records as they stand."""
    at = 0
    for q in range(counts[0]):
        record = tables[0][4 * q:4 * q + 4]
        own = tables[1][at:at + 4 * two_bytes(record)]
        free = any(own[k:k + 4] == bytes((0, 0, q, 0)) for k in range(0, len(own), 4))
        tables[0][4 * q + 3] = int(record[2] == 1 and free)
        at += 4 * two_bytes(record)


def damage_records(rng, counts, tables):
    """Changes records in up to three ways, so that a last byte may be wrong together with anything else, or stay while
    its state comes to rest or leaves it. In some the last bytes are set right again."""
    for _ in range(rng.randrange(1, 4)):
        rng.choice((damage_states, damage_rests, damage_transitions, damage_initial))(rng, counts, tables)
    if rng.random() < .3:
        settle_rests(counts, tables)


def damaged(rng, image):
    """The image with a byte changed, cut, grown, a count or an offset moved, or its records changed."""
    out = bytearray(image)
    way = rng.randrange(8)
    if way == 0 and out:
        out[rng.randrange(len(out))] = rng.randrange(256)
    elif way == 1:
        out[2 * rng.randrange(9)] = rng.randrange(256)
    elif way == 2:
        del out[rng.randrange(len(out)):]
    elif way == 3:
        out += bytes(rng.randrange(1, 4))
    elif way == 4:
        at = 18 + rng.randrange(max(1, len(out) - 18))
        if at < len(out):
            out[at] = (out[at] + rng.choice((1, 255, 97, 128))) % 256
    else:
        counts, tables = bodies(out)
        damage_records(rng, counts, tables)
        out[18:] = b"".join(tables)
    return bytes(out)


def plan_input(image, stem, cycle):
    """What the program judgeplan reads."""
    return second.u16(len(image)) + image + second.u16(len(stem)) + stem + cycle


EVENTUALLY, ALWAYS = (second.write(second.translate(bytes.fromhex(rule)))
                      for rule in ("010000020000070001", "000000020000080001"))


def changed(changes):
    """The image of "eventually proposition 0" with other bytes. State 0 has the record 02 00 00 00 at 18, state 1, at
    rest, 01 00 01 01 at 22; their transitions are 01 00 01 00 at 26 and 00 00 00 00 at 30, and 00 00 01 00 at 34; the
    initial number is at 38."""
    return bytes(changes.get(at, byte) for at, byte in enumerate(EVENTUALLY))


# images that are wrong, with the refusal's number and place; the second is as long as two bytes can say
FAULTS = [(EVENTUALLY[:-1], (10, 0)), (EVENTUALLY.ljust(65535, b"\0"), (10, 0))] + [
    (changed(changes), refusal) for changes, refusal in (
        # of two faulty state records the lower is told, and a faulty one before a sum that is wrong as well
        ({24: 2}, (11, 1)), ({20: 2, 24: 2}, (11, 0)), ({18: 3, 24: 2}, (11, 1)), ({18: 3}, (11, 2)),
        # a wrong last byte, the lower of two; one of 2 to 255 is no other fault
        ({25: 0}, (11, 1)), ({25: 2}, (11, 1)), ({25: 255}, (11, 1)), ({21: 1}, (11, 0)), ({21: 255}, (11, 0)),
        ({21: 1, 25: 0}, (11, 0)),
        # after the other bytes of all records and after the sum
        ({21: 1, 24: 2}, (11, 1)), ({21: 255, 22: 129}, (11, 1)), ({18: 3, 21: 1}, (11, 2)), ({18: 3, 25: 0}, (11, 2)),
        # state 0 comes to rest; state 1 leaves it: it does not accept, wants 0 set or clear, or leads to state 0
        ({20: 1}, (11, 0)), ({24: 0}, (11, 1)), ({34: 1}, (11, 1)), ({35: 1}, (11, 1)), ({36: 0}, (11, 1)),
        # the transition of state 1 is counted to state 0; one of state 0 to state 1, and none leads to state 1
        ({18: 3, 22: 0}, (11, 1)), ({18: 1, 22: 2, 36: 0}, (11, 1)),
        # before 12 and 13, by transitions that are wrong themselves: to state 2 or 257, or with 0 set and clear
        ({36: 2}, (11, 1)), ({37: 1}, (11, 1)), ({34: 1, 35: 1}, (11, 1)), ({25: 0, 27: 1}, (11, 1)),
        ({25: 0, 38: 2}, (11, 1)),
        # with the last byte right: 12, and 13
        ({25: 0, 36: 2}, (12, 2)), ({25: 0, 37: 1}, (12, 2)), ({25: 0, 34: 1, 35: 1}, (12, 2)), ({27: 1}, (12, 0)),
        # bit 7 asked for, forbidden, and both
        ({26: 129}, (12, 0)), ({27: 128}, (12, 0)), ({31: 128}, (12, 1)), ({25: 0, 34: 128}, (12, 2)),
        ({30: 128, 31: 128}, (12, 1)), ({38: 2}, (13, 0)))]

# how many letters stem and cycle have, at the limit of 336 together: within it, and past it or empty with the refusal; the
# last stems are as long as two bytes can say, and the last cycles longer than what is read
WITHIN = [(0, 336), (1, 335), (168, 168), (335, 1)]
PAST = [(0, 337, 9), (1, 336, 9), (168, 169, 9), (169, 168, 9), (336, 1, 9), (337, 1, 9), (336, 336, 9), (337, 337, 9),
        (336, 0, 8), (337, 0, 8), (65535, 0, 8), (65535, 1, 9), (0, 65536, 9), (65535, 65536, 9), (65535, 200000, 9)]


# stem and cycle with skipped letters: these count for 9, 28 is a cycle of them alone, and what remains is judged by
# "eventually proposition 0"
WITH_SKIPPED = [
    (b"", b"\x80", "refused 28 place 0"), (b"\1", b"\x80\xff", "refused 28 place 0"),
    (b"", b"\x81" * 336, "refused 28 place 0"), (bytes(1), b"\x81" * 335, "refused 28 place 0"),
    (bytes(1), b"\x81" * 336, "refused 9 place 0"), (b"\x80" * 336, b"\1", "refused 9 place 0"),
    (b"", b"\x80" * 336 + b"\1", "refused 9 place 0"), (b"\x80" * 337, b"", "refused 8 place 0"),
    (b"\x80" * 335, b"\1", "kept"), (b"\x80" * 335, b"\0", "broken"), (b"\x81" * 5, b"\0", "broken"),
    (b"\xff" * 100, b"\x80" * 200 + b"\1" + b"\x80" * 35, "kept"), (b"", b"\x81" * 335 + b"\x7e", "broken"),
    (b"\x81", b"\0", "broken"), (b"", b"\x81\0\xff", "broken"), (b"", b"\xff\0\x80\1", "kept"),
    (b"\x80\1", b"\xff\0", "kept")]


def limits():
    """Lassos at the limit of letters: name, what judgeplan reads, its answer. Within the limit the last letter alone
    decides. An image's own refusal comes before 8, and 8 before 9. Then lassos with skipped letters, and an image's own
    refusal before 28."""
    for s, c in WITHIN:
        for image, letter in ((EVENTUALLY, b"\0"), (ALWAYS, b"\1")):
            for last, answer in ((b"\0", "broken\n"), (b"\1", "kept\n")):
                word = letter * (s + c - 1) + last
                yield f"{s} | {c} letters", plan_input(image, word[:s], word[s:]), answer
    for s, c, number in PAST:
        for image, (first, place) in FAULTS + [(EVENTUALLY, (number, 0))]:
            yield f"{s} | {c} letters", plan_input(image, bytes(s), bytes(c)), f"refused {first} place {place}\n"
    for stem, cycle, answer in WITH_SKIPPED:
        yield f"{stem.hex() or '-'} | {cycle.hex() or '-'}", plan_input(EVENTUALLY, stem, cycle), answer + "\n"
    for image, (first, place) in FAULTS:
        yield "an image's fault before 28", plan_input(image, b"", b"\x80"), f"refused {first} place {place}\n"


def any_image(rng):
    """An image of a rule or by hand, whole or damaged."""
    image = image_of_rule(rng)[1] if rng.random() < .6 else second.write(hand_made(rng))
    return damaged(rng, image) if rng.random() < .4 else image


def any_tables(rng):
    """Counts and three tables for the writer: those of an image, whole or with a byte, a count or records changed."""
    counts, parts = bodies(image_of_rule(rng)[1] if rng.random() < .5 else second.write(hand_made(rng)))
    tables = [bytearray(part + bytes(size - len(part))) for part, size in zip(parts, (384, 49152, 192))]
    way = rng.random()
    if way < .3:
        table = rng.choice([t for t, part in zip(tables, parts) if part] or tables)
        table[rng.randrange(min(len(table), 64))] = rng.choice((0, 1, 2, 129, rng.randrange(256)))
    elif way < .5:
        counts[rng.randrange(3)] = rng.choice((0, 1, 96, 97, 12288, 12289, rng.randrange(70000)))
    elif way < .8:
        damage_records(rng, counts, tables)
    return tuple(counts), [bytes(t) for t in tables]


NO_STATES = second.write(second.Watcher([], []))


def decided(rule, stem, cycle):
    """What decide answers, by the calls of the second translator: 1 to 6, 26 and 7 of the rule, 8, 9 and 28 of the
    lasso, 20 to 24 of the rule, then the verdict with the pairs taken."""
    second.accepted_form(rule)
    second.judged(NO_STATES, stem, cycle)
    return second.judged(second.write(second.translate(rule)), stem, cycle)
