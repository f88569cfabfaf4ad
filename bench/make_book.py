#!/usr/bin/env python3
"""Writes a book of many loans and other lines, the same for the same seed, with a header whose counts are right.

The spread is that of a large insurer: balances around 250,000 dollars, loans from new to nearly paid off, one in
forty without a score, scores mostly between 620 and 850 and seven of twenty of them fresh, so that the aged table serves, one in five
with the supplement, loan to value mostly below 100%.
First come the values of the house price index for every area and month. Six of ten loans were made in these months, so that they
need them, one before, and three in December 2015 or later; loan to value is as the index has it.
"""
import argparse
import random
import sys
from pathlib import Path

sys.path.insert(0, str(Path(__file__).resolve().parent.parent / "tests"))
from reference.forms import AREAS  # noqa: E402

SHARES = (8, 7, 2, 4, 14, 6, 4, 22, 10, 2, 3, 18)  # of the areas among the loans, in per cent
MONTHS = tuple(100 * year + month for year in range(2005, 2016) for month in range(1, 13))
DECEMBER = MONTHS[-1]
INDEX_LINES = len(AREAS) * len(MONTHS)


def prices(source):
    """A value for each area and month, in hundredths: near 100 in 2005, with a yearly growth of its own for each area, up and down around it."""
    found = {}
    for area in AREAS:
        value, growth = source.uniform(9_500, 10_200), source.uniform(0.02, 0.07) / 12
        for month in MONTHS:
            value *= 1 + growth + source.gauss(0, 0.006)
            found[area, month] = int(value)
    return found


def made(source):
    """When and where a loan was made."""
    before, after = (100 * source.randrange(*years) + source.randrange(1, 13) for years in ((1990, 2005), (2016, 2019)))
    month = source.choices((source.choice(MONTHS[:-1]), before, DECEMBER, after), (60, 10, 2, 28))[0]
    return month, source.choices(AREAS, SHARES)[0]


def is_fresh(place):
    """Whether the loan of this place, from 1 on, has a fresh score: so the header's count is known before its loans are."""
    return 1 <= place % 20 <= 7


def loan(source, place, month, area, index):
    balance = min(200_000_000, max(100_000, int(source.lognormvariate(17.0, 0.55))))
    # Value over balance: from just under water to several times the balance, as a loan is paid off.
    value = balance * source.choice((source.uniform(0.85, 1.3), source.uniform(1.0, 2.5), source.uniform(1.5, 8.0)))
    if MONTHS[0] <= month < DECEMBER:
        value *= index[area, month] / index[area, DECEMBER]
    months = source.choice((source.randrange(1, 481), source.randrange(180, 361), source.randrange(240, 301)))
    term = source.choice((source.randrange(1, 61), months, min(480, months + source.randrange(0, 60))))
    if place % 40:
        number = max(300, min(900, int(source.gauss(735, 65))))
        # An age of 30 months in the mean: cut at 12 it has the spread of the fresh ones, and put after 12 that of the others.
        age = int(source.expovariate(1 / 30))
        score = b"%d %d" % (number, age % 13 if is_fresh(place) else min(600, 13 + age))
    else:
        score = b"none"
    sup = source.randrange(5) == 0
    return b"(loan (bal %d) (val %d) (amort %d) (term %d) (score %s) (sup %d) (from %d) (area %s))" % (
        balance, max(1, int(value)), months, term, score, sup, month, area,
    )


def other(source):
    kind = source.choices(
        ("policy", "asset", "deriv", "claims", "lossc", "stated", "equity", "aoci", "b", "c"),
        (300, 400, 60, 80, 40, 60, 30, 10, 10, 10),
    )[0]
    if kind == "policy":
        return b"(policy (class %s) (prem %d) (term %d) (done %d))" % (
            source.choice((b"home", b"home", b"multi")), source.randrange(50_000, 4_000_000),
            source.choice((60, 120, 180, 240, 300, 360)), source.randrange(0, 26),
        )
    if kind == "deriv":
        return b"(deriv (kind %s) (cost %d) (notional %d) (months %d) (pays %d) (factor %d))" % (
            source.choice((b"rate", b"float", b"fx", b"equity", b"metal", b"other")),
            source.randrange(-5_000_000, 5_000_001), source.randrange(0, 10_000_000_000),
            source.randrange(0, 181), source.choice((1, 1, 1, 4, 12)), source.choice((25, 50, 100, 250, 400)),
        )
    if kind == "asset":
        return b"(asset (amount %d) (factor %d))" % (
            source.randrange(0, 2_000_000_000), source.choice((0, 25, 50, 100, 175, 400, 1000, 1500)),
        )
    amount = {
        "claims": source.randrange(0, 50_000_000), "lossc": source.randrange(0, 20_000_000),
        "stated": source.randrange(0, 500_000_000), "equity": source.randrange(0, 6_000_000_000),
        "aoci": source.randrange(-500_000_000, 500_000_001), "b": source.randrange(0, 2_000_000_000),
        "c": source.randrange(0, 2_000_000_000),
    }[kind]
    return b"(%s %d)" % (kind.encode(), amount)


def lines(seed, loans, others):
    """The header and its lines: the index, then the other lines scattered among the loans."""
    source, houses = random.Random(seed), random.Random(f"houses {seed}")
    fresh = sum(map(is_fresh, range(1, loans + 1)))
    yield b"(book (loans %d) (unscored %d) (fresh %d) (held %d))" % (loans, loans // 40, fresh, loans * 60_000)
    index = prices(houses)
    yield from (b"(index %s %d %d)" % (*place, value) for place, value in index.items())
    places = set(source.sample(range(loans + others), others))
    seen = 0
    for place in range(loans + others):
        if place in places:
            yield other(source)
        else:
            # Every fortieth loan is without a score: loans // 40 of them.
            seen += 1
            yield loan(source, seen, *made(houses), index)


def main():
    parser = argparse.ArgumentParser(description=__doc__)
    parser.add_argument("--loans", type=int, default=1_000_000)
    parser.add_argument("--others", type=int, default=20_000)
    parser.add_argument("--seed", type=int, default=1)
    options = parser.parse_args()
    if not (0 <= options.loans <= 1_000_000 and 0 <= options.others <= 100_000 - INDEX_LINES):
        parser.error(f"a book has at most 1,000,000 loans and, besides the {INDEX_LINES} of the index, {100_000 - INDEX_LINES} other lines")
    out = sys.stdout.buffer
    for line in lines(options.seed, options.loans, options.others):
        out.write(line + b"\n")


if __name__ == "__main__":
    main()
