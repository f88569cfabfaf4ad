"""exp(-y) for a fraction y at or above 0, enclosed between two fractions.

The argument is halved until it is below 1/256, the alternating series gives both sides there,
and squaring leads back. Every rounding goes outward, so the enclosure is rigorous.
"""
from fractions import Fraction
from functools import lru_cache

BITS = 360  # 108 decimal digits: 60 are left of exp(-y) for y up to 110


def _units_up(x, bits):
    return -((-x.numerator << bits) // x.denominator)


def _units_down(x, bits):
    return (x.numerator << bits) // x.denominator


def _series(x, bits):
    """Bounds of exp(-x), all in units of 2^-bits, for x below 1.

    The terms x^k / k! fall and their signs alternate, so what is left after a term is at most that term.
    """
    low_term = high_term = 1 << bits
    low = high = 0
    k = 0
    while True:
        if k % 2 == 0:
            low, high = low + low_term, high + high_term
        else:
            low, high = low - high_term, high - low_term
        if high_term <= 1:
            return low - 1, high + 1
        k += 1
        low_term = low_term * x // (k << bits)
        high_term = -(-high_term * x // (k << bits))


@lru_cache(maxsize=1 << 16)
def _bounds(y, bits):
    if y < 0:
        raise ValueError("exponent above 0")
    if y >= bits:  # exp(-1) < 1/2
        return 0, 1
    if y == 0:
        return 1 << bits, 1 << bits
    halvings = (256 * y.numerator // y.denominator).bit_length()
    guard = bits + 2 * halvings + 16
    x = y / (1 << halvings)
    low = _series(_units_up(x, guard), guard)[0]
    high = _series(_units_down(x, guard), guard)[1]
    for _ in range(halvings):
        low = low * low >> guard
        high = -(-high * high >> guard)
    drop = guard - bits
    return low >> drop, -(-high >> drop)


def bounds(y, bits=BITS):
    """Two fractions around exp(-y), at most a few units of 2^-bits apart."""
    low, high = _bounds(Fraction(y), bits)
    return Fraction(low, 1 << bits), Fraction(high, 1 << bits)


def bracket(y, n):
    """Document 01, the exponential: the bracket of order n."""
    y = Fraction(y)
    if n + 2 < 2 * y:
        raise ValueError("order not allowed")
    term = total = Fraction(1)
    for k in range(1, n + 1):
        term = term * y / k
        total += term
    return 1 / (total + 2 * term * y / (n + 1)), 1 / total


def _combination_units(terms, bits):
    """Bounds of the sum of c * exp(-y), in units of 2^-bits."""
    low = high = 0
    for c, y in terms:
        a, b = _bounds(y, bits)
        if c < 0:
            a, b = b, a
        low += c.numerator * a // c.denominator
        high -= -c.numerator * b // c.denominator
    return low, high


def combination_bounds(terms, bits=BITS):
    """Two fractions around the sum of c * exp(-y) over the pairs (c, y) in terms."""
    low, high = _combination_units(terms, bits)
    return Fraction(low, 1 << bits), Fraction(high, 1 << bits)


def _collected(terms):
    found = {}
    for c, y in terms:
        found[y] = found.get(y, Fraction(0)) + c
    return [(c, y) for y, c in found.items() if c != 0]


def combination_sign(terms):
    """The sign of the sum of c * exp(-y): -1, 0 or 1, however large the exponents are."""
    terms = _collected(terms)
    if not terms:
        return 0
    least = min(y for _, y in terms)
    scaled = [(c, y - least) for c, y in terms]
    bits = BITS
    while bits <= 64 * BITS:
        low, high = _combination_units(scaled, bits)
        if low > 0:
            return 1
        if high < 0:
            return -1
        bits *= 2
    raise ArithmeticError("sign not decided")


def combination_ceil(terms):
    """The least whole number not below the sum of c * exp(-y)."""
    bits = BITS
    while bits <= 64 * BITS:
        low, high = _combination_units(terms, bits)
        whole, last = -(-low >> bits), -(-high >> bits)
        if whole == last:
            return whole
        # One whole number lies between the bounds: the sum is compared with it.
        if last == whole + 1:
            sign = combination_sign(list(terms) + [(Fraction(-whole), Fraction(0))])
            return whole + 1 if sign > 0 else whole
        bits *= 2
    raise ArithmeticError("whole number not decided")


def combination_floor(terms):
    """The greatest whole number not above the sum of c * exp(-y)."""
    return -combination_ceil([(-c, y) for c, y in terms])


def table_entry(k):
    """Document 01: entry k is the least whole number not below 2^40 * exp(-k/64)."""
    return combination_ceil([(Fraction(1 << 40), Fraction(k, 64))])
