#!/usr/bin/env python3
"""Cases for the loan charge and the credit factors, one to a line, all numbers unsigned, the first the case's kind:

1 p q balance months term sup m, then the least and the greatest allowed total number and the least and the
greatest allowed supplement number, each as two numbers, what is above 0 and what is below. The property value
is p / q balances, m is in 10^17ths, and the allowed numbers are in cents.

2 scored number age aged loans unscored m, the header's loans and unscored among them, m in 10^17ths.

Further loans (--run) are compared twice: by the program, and here with its own two numbers of each loan. It prints the
numbers of a loan that is outside what is allowed, so the second time nothing is allowed. The largest distances are printed.
"""
import itertools
import random
import re
import subprocess
from fractions import Fraction
from math import ceil, isqrt

import near_bounds
import stored
from reference import loan
from reference.exponential import combination_bounds

UNIT = 10**17
P_MOST, Q_MOST = 10**18, 2 * 10**16
BALANCE_MOST = near_bounds.BALANCE_MOST
VALUE_MOST, INDEX_MOST = 10**10, 10**6
MONTHS_MOST = 480
FACTORS = {f for _, row in loan.CREDIT_BANDS for f in row} | {"1.3", "3.0", "0.01"}
M_VALUES = sorted({int(Fraction(f) * UNIT) for f in FACTORS})
MONTHS = sorted(
    {m for b in loan.BREAKPOINTS + (8, 1) for m in (b - 1, b, b + 1) if 1 <= m <= MONTHS_MOST}
)


def line(numbers):
    return b" ".join(b"%d" % n for n in numbers) + b"\n"


def pair(x):
    return (max(x, 0), max(-x, 0))


def exact(p, q, balance, months, term, sup, m):
    """The exact base plus supplement, and the exact supplement."""
    of = loan.scaled_value(p, q), balance, months, term, sup, Fraction(m, UNIT)
    return loan.total(*of), loan.supplement(*of)


def allowed(values):
    """The least and the greatest allowed total number, and supplement number."""
    total, supplement = exact(*values)
    return loan.allowed_total(total) + loan.allowed_supplement(supplement)


def case(*values, ranges=None):
    numbers = [1, *values]
    for x in ranges or allowed(values):
        numbers += pair(x)
    return line(numbers)


def factor_case(score, aged, loans, unscored):
    m = int(loan.credit_factor(score, aged, loans, unscored) * UNIT)
    number, age = (0, 0) if score is None else score
    return line([2, int(score is not None), number, age, int(aged), loans, unscored, m])


def _spread(source, most):
    """A number from 1 to most, of any length."""
    return 1 + source.randrange(10 ** source.randrange(1, len(str(most)) + 1)) % most


def _near(source, z):
    """p and q with p / q next to z, on either side."""
    q = _spread(source, Q_MOST)
    p = int(z * q) + source.randrange(-1, 3)
    return min(max(p, 1), P_MOST), q


def _ordinary(source):
    """A value and a balance in cents, as in a plain book."""
    balance = _spread(source, BALANCE_MOST)
    value = min(max(int(balance * Fraction(source.randrange(700, 3500), 1000)), 1), 10**10)
    return value, balance, balance


def _by_index(value, balance, own, december):
    """p, q and balance of a loan whose value goes by two index values: neither product is shortened."""
    return value * december, balance * own, balance


def _indexed(source):
    """A loan of a plain book whose value goes by the index."""
    value, balance, _ = _ordinary(source)
    own, december = (source.choice((1, INDEX_MOST, *(source.randrange(6_000, 24_000) for _ in range(4)))) for _ in range(2))
    months = source.randrange(1, MONTHS_MOST + 1)
    return *_by_index(value, balance, own, december), months, _term(source, months), source.randrange(2), _m(source)


def _index_ends():
    """The ends of the ranges of value, balance and both index values."""
    for amounts in itertools.product((1, VALUE_MOST), (1, BALANCE_MOST), (1, INDEX_MOST), (1, INDEX_MOST)):
        for months in (1, 8, 300, MONTHS_MOST):
            for term in (60, 61):
                yield *_by_index(*amounts), months, term, 1, UNIT


def _equal_fractions(source):
    """Loans alike but for the two numbers of the same fraction: times index values that cancel, and in lowest terms."""
    for _ in range(60):
        value, balance, _ = _ordinary(source)
        months, sup, m = source.randrange(1, MONTHS_MOST + 1), source.randrange(2), _m(source)
        term = _term(source, months)
        lowest = Fraction(value, balance).as_integer_ratio()
        for over in (lowest, (value, balance), *((value * times, balance * times) for times in (2, 9_999, INDEX_MOST))):
            yield *over, balance, months, term, sup, m


def _next_to_bounds(source):
    """Loans whose exact amounts lie next to where a number more is allowed, or one less."""
    for z, balance, months, term, sup, m in near_bounds.loans(source):
        yield z.numerator, z.denominator, balance, months, term, sup, int(m * UNIT)


def _m(source):
    return source.choice(M_VALUES) if source.randrange(4) else source.randrange(UNIT // 100, 3 * UNIT + 1)


def _term(source, months):
    return source.choice((60, 61, 60, 61, 1, 480, source.randrange(1, 481), months))


def _curve_z(source, months, term):
    """A z of interest: 1, 16, the ends of the table, the top of a curve, the limit of a, or any."""
    kind = source.choice((0, 1, 2, 2, 3, 3, 3, 4, 5, 5, 5, 5, 6))
    if kind == 0:
        return Fraction(1)
    if kind == 1:
        return Fraction(source.choice((16, 16, 17, 24, 32)))
    s = source.choice(loan.coefficients(months, term))
    i = source.choice("12")
    if kind == 2:  # (z - mu)^2 / (2 sigma^2) = 24
        square = 48 * s["sigma" + i] ** 2
        return s["mu" + i] + Fraction(isqrt(int(square * 10**40)), 10**20)
    if kind == 3:
        return s["mu" + i]
    if kind == 4:
        return source.choice((Fraction("11.7"), Fraction("10.6")))
    if kind == 5:
        return 1 + Fraction(source.randrange(10**6), 10**6) * source.choice((Fraction(1, 2), 1, 4))
    return Fraction(_spread(source, P_MOST), _spread(source, Q_MOST))


def _random(source):
    months = source.choice(MONTHS) if source.randrange(2) else source.randrange(1, MONTHS_MOST + 1)
    term = _term(source, months)
    sup = source.randrange(2)
    if source.randrange(3) == 0:
        p, q, balance = _ordinary(source)
    else:
        p, q = _near(source, _curve_z(source, months, term))
        balance = source.choice((_spread(source, BALANCE_MOST), source.randrange(1, BALANCE_MOST + 1), BALANCE_MOST, q))
        balance = min(balance, BALANCE_MOST)
    return p, q, balance, months, term, sup, _m(source)


def _nearly_paid(source):
    """A few months left and a small balance: the base can be negative."""
    months = source.randrange(1, 10)
    balance = 1 + source.randrange(10 ** source.randrange(1, 7))
    z = Fraction(source.randrange(1200, 3500), 1000)
    p, q = _near(source, z) if source.randrange(2) else (int(z * balance) or 1, balance)
    return p, q, balance, months, _term(source, months), source.randrange(2), _m(source)


def _extremes():
    for p in (1, P_MOST):
        for q in (1, Q_MOST):
            for balance in (1, BALANCE_MOST):
                for months in (1, MONTHS_MOST):
                    for term in (60, 61):
                        for sup in (0, 1):
                            yield p, q, balance, months, term, sup, _extreme_m(p, months)


def _extreme_m(p, months):
    return M_VALUES[0] if (p == 1) == (months == 1) else M_VALUES[-1]


def _each_month(source):
    """Every breakpoint and one month either side, in both sets, at several z."""
    for months in MONTHS:
        for term in (60, 61):
            for _ in range(8):
                p, q = _near(source, _curve_z(source, months, term))
                balance = source.randrange(1, BALANCE_MOST + 1)
                yield p, q, balance, months, term, source.randrange(2), _m(source)
            for sup in (0, 1):
                balance = source.randrange(1_000_000, BALANCE_MOST + 1)
                value = balance * source.randrange(100, 140) // 100
                yield value, balance, balance, months, term, sup, UNIT


def _each_factor(source):
    for m in M_VALUES:
        for sup in (0, 1):
            for _ in range(6):
                p, q, balance = _ordinary(source)
                months = source.randrange(1, MONTHS_MOST + 1)
                yield p, q, balance, months, _term(source, months), sup, m


def _factors():
    """Every band's and every age column's two ends, fresh and aged; the two factors without a score."""
    numbers = sorted({n for low, _ in loan.CREDIT_BANDS[1:] for n in (low - 1, low)} | {300, 900})
    ages = sorted({a for limit in loan.AGE_LIMITS for a in (limit, limit + 1)} | {0, 600})
    for number in numbers:
        for age in ages:
            for aged in (False, True):
                yield (number, age), aged, 100, 50
    for loans in (0, 1, 19, 20, 21, 39, 40, 41, 999_999, 1_000_000):
        for unscored in sorted({0, loans // 20, loans // 20 + 1, max(loans // 20 - 1, 0), loans}):
            if unscored <= loans:
                for aged in (False, True):
                    yield None, aged, loans, unscored


def stored_files():
    source = random.Random(17)
    loans = list(_extremes()) + list(_each_month(source)) + list(_each_factor(source))
    loans += [_nearly_paid(source) for _ in range(500)]
    loans += [_random(source) for _ in range(3000)]
    loans += [*_index_ends(), *_equal_fractions(source), *(_indexed(source) for _ in range(400))]
    loans += _next_to_bounds(source)
    return stored.case_files([case(*values) for values in loans] + [factor_case(*values) for values in _factors()])


def numbers_of(program, loans):
    """The two numbers that the program gives each loan: no number is both at least 1 and at most 0, so it prints them."""
    cases = [case(*values, ranges=(1, 0, 1, 0)) for values in loans]
    done = subprocess.run([program], input=stored.in_blocks(cases), capture_output=True, check=True)
    found = re.findall(rb"(\d+) - (\d+); (\d+) - (\d+); outside ", done.stdout)
    if len(found) != len(loans):
        raise SystemExit(f"{len(found)} loans were printed, not {len(loans)}")
    return [(int(a) - int(b), int(c) - int(d)) for a, b, c, d in found]


def _bounds(values):
    """The allowed numbers of a loan, and from where its total's distance above and its supplement's below are measured."""
    total, supplement = exact(*values)
    return allowed(values), combination_bounds(total)[0], combination_bounds(supplement)[1]


def compare(loans, bounds, numbers):
    """Compares each loan's two numbers, prints the largest distance of each, and tells whether all are allowed."""
    outside = 0
    largest = [(Fraction(-1), None), (Fraction(-1), None)]
    for values, (ranges, low, high), (total, supplement) in zip(loans, bounds, numbers, strict=True):
        if not (ranges[0] <= total <= ranges[1] and ranges[2] <= supplement <= ranges[3]):
            outside += 1
            print("outside:", *values, "total", total, "supplement", supplement)
        for i, distance in enumerate((total - low, high - supplement)):
            largest[i] = max(largest[i], (distance, values))
    for title, (distance, values) in zip(("total above", "supplement below"), largest if loans else ()):
        at = "p {} q {} balance {} months {} term {} sup {} m {}".format(*values)
        print(f"largest distance of a {title} the exact one: {ceil(distance * 10**6) / 10**6} cents, at {at}")
    return outside == 0


def further(program, seed, count):
    source = random.Random(seed)
    kinds = (_nearly_paid, _indexed, *[_random] * 6)
    loans = [kinds[i % len(kinds)](source) for i in range(count)]
    bounds = list(map(_bounds, loans))
    within = stored.run(program, (case(*values, ranges=known[0]) for values, known in zip(loans, bounds)))
    return compare(loans, bounds, numbers_of(program, loans)) and within


if __name__ == "__main__":
    stored.main("try_loan_charge", __doc__, stored_files, further)
