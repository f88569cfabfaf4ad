"""Loans whose exact amounts lie next to the bounds of request L7.

A loan's total number is a whole number of cents, not below the exact amount and less than one and a twentieth cents above it. Which are
allowed goes by how far the amount lies above the last whole number: just above it one number, almost a cent away; just below 0.95 one, since a
second would be just too far; just above 0.95 two, the second just near enough. The supplement's number is the same from the other side.
Of loans that differ in the balance alone both amounts are linear in it, so that a balance is soon found.
"""
import itertools
from fractions import Fraction

from reference import loan
from reference.exponential import combination_bounds

BALANCE_MOST = 200_000_000
TRIES = 400_000
SCALE = 10**24  # parts of a cent
NEXT = Fraction(1, 10_000)  # so near to a bound, in cents

# How far an amount lies above the last whole number of cents; from SECOND on a second total is allowed.
ANY = (Fraction(-1), Fraction(1))
SECOND = 2 - loan.DISTANCE
TOTALS = [(low, low + NEXT) for low in (Fraction(0), SECOND - NEXT, SECOND, 1 - NEXT)]
SUPPLEMENTS = [(1 - high, 1 - low) for low, high in TOTALS]
# Both numbers almost a cent away: the total just above a whole number, the supplement just below one.
FARTHEST = (Fraction(0), Fraction(1, 100)), (Fraction(99, 100), Fraction(1))


def _linear(amount, z, *of):
    """An amount without a balance, and what a cent of balance adds to it, both in parts of a cent."""
    none, most = (sum(combination_bounds(amount(z, balance, *of))) / 2 for balance in (0, BALANCE_MOST))
    return int(none * SCALE), int((most - none) * SCALE / BALANCE_MOST)


def balances(first, of, totals=ANY, supplements=ANY):
    """Balances from the first on where both amounts lie so far above a whole number; `of` is z, months, term, sup and m of the loan."""
    (total, per_total), (supplement, per_supplement) = _linear(loan.total, *of), _linear(loan.supplement, *of)
    low, high, least, most = (int(x * SCALE) for x in (*totals, *supplements))
    for balance in range(first, min(first + TRIES, BALANCE_MOST + 1)):
        if low < (total + per_total * balance) % SCALE < high and least < (supplement + per_supplement * balance) % SCALE < most:
            yield balance


def _shapes(source):
    """A first balance, and z, months, term and m: both sets, the ends of m; loans nearly paid off, whose base is negative."""
    for z, months, m in itertools.product((Fraction(1), Fraction(9, 8), Fraction(3, 2)), (7, 120, 300), (1, 300)):
        yield source.randrange(1, BALANCE_MOST - TRIES), z, months, source.choice((60, 61)), Fraction(m, 100)
    for months in (1, 2):
        yield 1, Fraction(13, 10), months, source.choice((60, 61)), Fraction(3)


def loans(source):
    """Loans next to each bound of the total, with a supplement and without, and of the supplement: z, balance, months, term, sup and m."""
    for first, z, months, term, m in _shapes(source):
        wanted = [(0, within, ANY) for within in TOTALS] + [(1, within, ANY) for within in TOTALS] + [(1, ANY, within) for within in SUPPLEMENTS]
        for sup, *within in wanted:
            found = balances(first, (z, months, term, sup, m), *within)
            yield from ((z, balance, months, term, sup, m) for balance in itertools.islice(found, 1))
