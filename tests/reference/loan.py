"""A home loan's base requirement and supplement: source document 000, 1.1.2 to 1.1.5.

All formulas stand in years and per cents as printed. An exact amount is a list of pairs (c, y),
the sum of c * exp(-y), in cents.
"""
from fractions import Fraction

from .exponential import combination_ceil, combination_floor

ZERO = Fraction(0)
DISTANCE = Fraction(21, 20)  # request L7: a loan's two numbers lie less than this from the exact ones, in cents


def _number(text):
    """A printed number, with its per cent sign where it has one."""
    if text.endswith("%"):
        return Fraction(text[:-1].replace(",", "")) / 100
    return Fraction(text.replace(",", ""))


def _by_years(*pieces):
    """A function of T*, from pieces (slope, constant, largest T*); the last has no limit, or 40."""
    read = [(_number(a), _number(b), None if limit is None else Fraction(limit)) for a, b, limit in pieces]

    def value(years):
        for slope, constant, limit in read:
            if limit is None or years <= limit:
                return slope * years + constant
        raise ValueError("T* beyond the last limit")

    return value


def _constant(text):
    return _by_years(("0", text, None))


# 000, 1.1.2 i): the coefficients of A, remaining term of insurance five years or less.
A_SHORT = {
    "mu1": _by_years(("0", "90%", 40)),
    "mu2": _by_years(("0", "125%", 40)),
    "sigma1": _by_years(("0", "17%", 10), ("-0.2%", "19%", 25), ("0", "14%", 40)),
    "sigma2": _by_years(("0", "16%", "15.5"), ("0.59%", "7%", 40)),
    "c1": _by_years(("123", "520", 11), ("-25", "2,250", 40)),
    "c2": _by_years(("115", "-85", 17), ("0", "1,900", 40)),
}

# 000, 1.1.2 i), otherwise.
A_LONG = {
    "mu1": _constant("90%"),
    "mu2": _constant("125%"),
    "sigma1": _constant("17%"),
    "sigma2": _by_years(("0", "16%", "15.5"), ("1.09%", "-0.94%", None)),
    "c1": _by_years(("123", "520", 16), ("-65", "3,515", 25), ("-39", "2,885", None)),
    "c2": _by_years(("115", "-85", 25), ("68", "1,110", None)),
}

# 000, 1.1.2 ii): the coefficients of B, remaining term of insurance five years or less.
B_SHORT = {
    "mu1": _by_years(("0", "94%", 40)),
    "mu2": _by_years(("0.62%", "121%", 15), ("0", "130%", 40)),
    "sigma1": _by_years(("0", "23%", 14), ("-0.64%", "32%", 25), ("0", "16%", 40)),
    "sigma2": _by_years(("0", "14%", 15), ("0.4%", "8%", 40)),
    "c1": _by_years(("233", "1,975", 11), ("0", "4,450", 40)),
    "c2": _by_years(("0", "1,550", 15), ("400", "-4,450", 18), ("130", "420", 25), ("30", "3,020", 40)),
}

# 000, 1.1.2 ii), otherwise.
B_LONG = {
    "mu1": _by_years(("0", "94%", "19.75"), ("-2.33%", "140%", 26), ("0", "80%", None)),
    "mu2": _by_years(("0.62%", "121%", "33.25"), ("0", "142%", None)),
    "sigma1": _by_years(("0", "23%", "14.75"), ("1.63%", "-0.82%", None)),
    "sigma2": _by_years(("0", "14%", 19), ("1.03%", "-5.84%", 27), ("0", "21.5%", None)),
    "c1": _by_years(("233", "1,975", 25), ("282", "740", None)),
    "c2": _by_years(("0", "1,550", "19.25"), ("133", "-1,030", 26), ("-117", "5,490", None)),
}

# Every T* in months at which a formula of 1.1.2 or 1.1.3 changes.
BREAKPOINTS = tuple(
    int(Fraction(years) * 12)
    for years in (10, 11, 13, 14, "14.75", 15, "15.5", 16, 17, 18, 19, "19.25", "19.75", 25, 26, 27, "33.25", 40)
)

# 000, 1.1.4 iii): the lowest score of each band, and m by the age of the score.
CREDIT_BANDS = (
    (0, ("3.00", "3.00", "3.00", "3.00", "3.00", "3.00")),
    (600, ("2.05", "2.05", "2.05", "2.05", "2.05", "2.05")),
    (620, ("1.80", "1.80", "1.80", "1.80", "1.80", "1.80")),
    (640, ("1.60", "1.60", "1.60", "1.60", "1.60", "1.60")),
    (660, ("1.35", "1.35", "1.35", "1.35", "1.35", "1.35")),
    (680, ("1.10", "1.10", "1.10", "1.10", "1.10", "1.10")),
    (700, ("0.90", "1.00", "1.00", "1.00", "1.00", "1.00")),
    (720, ("0.65", "0.90", "1.00", "1.00", "1.00", "1.00")),
    (740, ("0.55", "0.65", "0.90", "1.00", "1.00", "1.00")),
    (760, ("0.45", "0.55", "0.65", "0.90", "1.00", "1.00")),
    (780, ("0.40", "0.45", "0.55", "0.65", "0.90", "1.00")),
)
AGE_LIMITS = (12, 24, 36, 48, 60)  # document 01: age columns in months; a limit belongs to its column
FRESH_AGE = 12  # request L5: the greatest age of a fresh score


def scaled_value(p, q):
    """000, 1.1.5: z = 1/LTV, at least 1, for p / q = property value / balance."""
    return max(Fraction(p, q), Fraction(1))


def is_short(term):
    """The first set of coefficients: a remaining insurance term up to 60 months."""
    return term <= 60


def coefficients(months, term):
    """The values of mu1, mu2, sigma1, sigma2, c1 and c2 of A and of B."""
    years = Fraction(months, 12)
    sets = (A_SHORT, B_SHORT) if is_short(term) else (A_LONG, B_LONG)
    return tuple({name: value(years) for name, value in s.items()} for s in sets)


def exponent(z, mu, sigma):
    return (z - mu) ** 2 / (2 * sigma**2)


def _curve(z, s):
    """A or B as a list of (c, y)."""
    return [(s["c1"], exponent(z, s["mu1"], s["sigma1"])), (s["c2"], exponent(z, s["mu2"], s["sigma2"]))]


def _times(k, terms):
    return [(k * c, y) for c, y in terms]


def _product(left, right):
    return [(c * d, y + x) for c, y in left for d, x in right]


def base(z, balance, months, term, m):
    """m * (A + B * balance / 10,000,000) dollars, in cents."""
    a, b = coefficients(months, term)
    return _times(100 * m, _curve(z, a) + _times(Fraction(balance, 10_000_000), _curve(z, b)))


def supplement_rate(z, months, term):
    """000, 1.1.3: r = a + b * exp(-0.1 T*)."""
    years = Fraction(months, 12)
    if is_short(term):
        b = Fraction("0.3") if years <= 10 else ZERO
        if years <= 10:
            c = Fraction("0.08")
        elif years <= 13:
            c = Fraction("-0.013") * years + Fraction("0.32")
        else:
            c = Fraction("0.19")
    else:
        b = Fraction("0.3")
        c = Fraction("0.08")
    a = min(c + Fraction("0.1") * (z - 1), Fraction("1.15"))
    return [(a, ZERO), (b, Fraction("0.1") * years)]


def supplement(z, balance, months, term, sup, m):
    """r * base where the supplement applies, in cents."""
    if not sup:
        return []
    return _product(supplement_rate(z, months, term), base(z, balance, months, term, m))


def total(z, balance, months, term, sup, m):
    """Base plus supplement, in cents."""
    return base(z, balance, months, term, m) + supplement(z, balance, months, term, sup, m)


def band(number):
    """The band of a score, 1 to 11 upward."""
    return sum(1 for lowest, _ in CREDIT_BANDS if lowest <= number)


def is_fresh(score):
    """Request L5: whether a score, None or (number, age in months), counts as fresh."""
    return score is not None and score[1] <= FRESH_AGE


def on_aged_table(loans, fresh):
    """Request L5: the first age column serves at every age where 90% of the header's loans, or more, are fresh; else the whole table does."""
    return 10 * fresh < 9 * loans


def credit_factor(score, aged, loans, unscored, sheet=None):
    """000, 1.1.4. The score is None or (number, age in months); loans and unscored are the header's.

    A sheet, 66 numbers in hundredths, stands in place of the table of 1.1.4 iii); it has no place for a loan without a score.
    """
    if score is None:
        return Fraction("3.0") if 20 * unscored > loans else Fraction("1.3")
    number, age = score
    column = sum(1 for limit in AGE_LIMITS if age > limit) if aged else 0
    if sheet is not None:
        return Fraction(sheet[(band(number) - 1) * (len(AGE_LIMITS) + 1) + column], 100)
    return Fraction(CREDIT_BANDS[band(number) - 1][1][column])


def allowed_total(terms):
    """The whole numbers not below the exact amount and less than DISTANCE above it."""
    return combination_ceil(terms), combination_ceil(list(terms) + [(DISTANCE, ZERO)]) - 1


def allowed_supplement(terms):
    """The whole numbers not above the exact amount and less than DISTANCE below it; 0 alone where it is 0."""
    if not terms:
        return 0, 0
    return combination_floor(list(terms) + [(-DISTANCE, ZERO)]) + 1, combination_floor(terms)
