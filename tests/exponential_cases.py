#!/usr/bin/env python3
"""Cases for the exponential: `y least greatest` to a line, y in units of 2^-38, the answer in units of 2^-40."""
import random
from fractions import Fraction

import stored
from reference.exponential import combination_ceil, combination_floor, table_entry

ENTRIES = 1537
BITS = 32  # of the remainder
STEP = 1 << BITS  # one 64th in units of 2^-38
HALF = STEP >> 1  # the highest bit of the remainder
END = (ENTRIES - 1) * STEP  # 24
SLACK = 16  # what an answer between two entries may lie above


def case(y):
    terms = [(Fraction(1 << 40), Fraction(y, 1 << 38))]
    least = combination_ceil(terms)
    if y >= END:
        greatest = table_entry(ENTRIES - 1)
    elif y % STEP == 0:
        greatest = least
    else:
        greatest = combination_floor(terms) + SLACK
    return b"%d %d %d\n" % (y, least, greatest)


def _random(source):
    kind = source.randrange(4)
    if kind == 0:
        return source.randrange(END)
    if kind == 1:
        near = source.choice((1, -1)) * source.randrange(1 << source.randrange(1, 33))
        return (source.randrange(ENTRIES - 1) * STEP + near) % END
    if kind == 2:
        return source.randrange(1 << source.randrange(1, 43)) % END
    return source.randrange(END, 1 << source.randrange(44, 65))


def stored_files():
    source = random.Random(38)
    ys = {k * STEP for k in range(ENTRIES)} | {END + 1}
    ys.update(k * STEP + r for k in range(ENTRIES - 1) for r in (1, HALF - 1, HALF, HALF + 1, STEP - 1))
    ys.update(k * STEP + (1 << bit) + d for k in (0, 1, ENTRIES - 2) for bit in range(BITS) for d in (-1, 0, 1))
    for bits in range(43, 65):
        ys.update(y for y in ((1 << bits) - 1, 1 << bits) if y < 1 << 64)
    ys.update(_random(source) for _ in range(1500))
    return stored.case_files(case(y) for y in sorted(ys))


def further(program, seed, count):
    source = random.Random(seed)
    return stored.run(program, (case(_random(source)) for _ in range(count)))


if __name__ == "__main__":
    stored.main("try_exponential", __doc__, stored_files, further)
