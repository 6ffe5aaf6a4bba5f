"""What is sent of a verdict (R-12): cases for the call report, and the bytes that it must leave."""
import struct

import lassos
from nodes import second

REPORT_BYTES, WORK_BYTES = 32, 96 * 336
NUMBERS = (0, 1, 255, 256, 4660, 65535)


def any_number(rng):
    return rng.choice((*NUMBERS, rng.randrange(65536)))


def any_case(rng):
    """An image, whole or damaged, a lasso that may be refused, and how many working bytes are lent, now and then one
    too few or none."""
    return lassos.any_image(rng), *lassos.lasso(rng), WORK_BYTES + rng.choice((0,) * 9 + (5, -1, -WORK_BYTES))


def lent(rng, length):
    return bytes(rng.randrange(256) for _ in range(length))


def slices(number, image, stem, cycle, work, report):
    """A case as the program serve reads it."""
    return struct.pack("<H", number), image, stem, cycle, struct.pack("<I", work), report


def judged(image, stem, cycle, work):
    """What judging says with so many working bytes: the verdict and the pairs taken."""
    if work < WORK_BYTES:
        raise second.Refused(25)
    return second.judged(image, stem, cycle)


def line(number, image, stem, cycle, work, report):
    """The lent bytes of the report afterwards, or 25."""
    if len(report) < REPORT_BYTES:
        return "refused 25 place 0"
    # the second translator has no working bytes: an image of no bytes is refused in their place
    sent = second.report(number, image if work >= WORK_BYTES else b"", stem, cycle)
    return (sent + report[REPORT_BYTES:]).hex()


def first_bytes(line):
    """The report that a line begins with, in hexadecimal."""
    return line[:2 * REPORT_BYTES]
