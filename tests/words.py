"""Lassos written in two ways, and whether two lassos are one word, told by their shortest writing."""
import math

import lassos
from nodes import second


def within(stem, cycle):
    """Whether a lasso is not refused by 8, 9 or 28."""
    return bool(second.remaining(stem, cycle)[1]) and len(stem) + len(cycle) <= second.max_slots()


def shortest(stem, cycle):
    """The one shortest way to write the word of a lasso: the cycle down to its least period, then as much of the stem's
    end as the turned cycle has."""
    n = next(n for n in range(1, len(cycle) + 1) if len(cycle) % n == 0 and cycle[:n] * (len(cycle) // n) == cycle)
    cycle = cycle[:n]
    while stem and stem[-1] == cycle[-1]:
        stem, cycle = stem[:-1], cycle[-1:] + cycle[:-1]
    return stem, cycle


def compared(stem, cycle, other_stem, other_cycle):
    """What comparing two lassos answers: 8, 9 and 28 of the first, then of the second at place 1."""
    for place, (s, c) in enumerate(((stem, cycle), (other_stem, other_cycle))):
        if not c:
            raise second.Refused(8, place)
        if len(s) + len(c) > second.max_slots():
            raise second.Refused(9, place)
        if not second.remaining(s, c)[1]:
            raise second.Refused(28, place)
    first, other = second.remaining(stem, cycle), second.remaining(other_stem, other_cycle)
    return "one word" if shortest(*first) == shortest(*other) else "two words"


def strewn(rng, letters, room):
    """The letters with some skipped ones put among them, at most as many as there is room for."""
    out = bytearray(letters)
    for _ in range(rng.randrange(min(room, rng.choice((6, 6, second.max_slots()))) + 1)):
        out.insert(rng.randrange(len(out) + 1), lassos.SKIPPED | rng.randrange(lassos.SKIPPED))
    return bytes(out)


def skipped_elsewhere(rng, stem, cycle):
    """The same word with its skipped letters taken out and others put in."""
    stem, cycle = second.remaining(stem, cycle)
    stem = strewn(rng, stem, second.max_slots() - len(stem) - len(cycle))
    return stem, strewn(rng, cycle, second.max_slots() - len(stem) - len(cycle))


def rewritten(rng, stem, cycle):
    """The same word in another way, where there is room for it: the cycle taken two or three times, a part of the cycle
    moved into the stem, by which it is turned, or both; or the shortest way."""
    if rng.random() < .15:
        return shortest(*second.remaining(stem, cycle))
    moved = rng.choice((0, rng.randrange(len(cycle)), rng.randrange(3 * len(cycle))))
    turn = moved % len(cycle)
    other = stem + (cycle * 3)[:moved], (cycle[turn:] + cycle[:turn]) * rng.choice((1, 2, 3))
    return other if within(*other) else rewritten(rng, stem, cycle)


def another_way(rng, stem, cycle):
    """The same word rewritten, in some with other letters skipped."""
    other = rewritten(rng, stem, cycle)
    return skipped_elsewhere(rng, *other) if rng.random() < .4 else other


def lasso_twice(rng, another=another_way):
    """A lasso within the limits, and the same word in another way."""
    while True:
        stem, cycle = lassos.lasso(rng)
        if within(stem, cycle):
            return (stem, cycle), another(rng, stem, cycle)


def long_agreement(rng):
    """Two cycles behind one stem, none as long as several of the other, of random letters such that the words agree
    behind the stem on as many letters as both cycles have, less one and their greatest common divisor; mostly no
    further."""
    p, q = rng.sample(range(2, rng.choice((6, 20, second.max_slots())) + 1), 2)
    if max(p, q) % min(p, q) == 0:
        return long_agreement(rng)
    length = p + q - math.gcd(p, q) - 1
    letters = [None] * length
    for start in range(length):
        if letters[start] is None:
            value, waiting = rng.randrange(lassos.SKIPPED), [start]
            while waiting:
                i = waiting.pop()
                if 0 <= i < length and letters[i] is None:
                    letters[i] = value
                    waiting += [i - p, i + p, i - q, i + q]
    stem = lassos.letters(rng, rng.randrange(second.max_slots() - max(p, q) + 1))
    pair = (stem, bytes(letters[:p])), (stem, bytes(letters[:q]))
    return tuple(skipped_elsewhere(rng, *lasso) for lasso in pair) if rng.random() < .3 else pair


def two_lassos(rng):
    """Two lassos: one word in two ways, or with other letters skipped and nothing else, or with a letter changed; two
    that agree for long; or any two."""
    pick = rng.random()
    if pick < .2:
        return lasso_twice(rng)
    if pick < .3:
        return lasso_twice(rng, skipped_elsewhere)
    if pick < .5:
        first, (stem, cycle) = lasso_twice(rng)
        word = bytearray(stem + cycle)
        word[rng.randrange(len(word))] ^= 1 << rng.randrange(8)
        return first, (bytes(word[:len(stem)]), bytes(word[len(stem):]))
    if pick < .7:
        return long_agreement(rng)
    return lassos.lasso(rng), lassos.lasso(rng)
