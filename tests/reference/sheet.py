"""A lent sheet of credit factors (request L3): 66 numbers in hundredths, bands of scores upward, six ages each.

Bands and ages count from 0 here; the number of a band at an age stands at place band * 6 + age.
"""
from collections import namedtuple

from .loan import CREDIT_BANDS

BANDS, AGES = 11, 6
LENGTH = BANDS * AGES
LEAST, GREATEST = 1, 300

# The papers' table as a sheet.
BUILT_IN = tuple(int(factor.replace(".", "")) for _, factors in CREDIT_BANDS for factor in factors)

Broken = namedtuple("Broken", "rule place")  # of "length" the place is how many numbers there are


def _rule_broken(sheet, band, age):
    """The rule that the number of a band at an age breaks, alone or with the one before it; or None."""
    number = sheet[band * AGES + age]
    if not LEAST <= number <= GREATEST:
        return "range"
    if age > 0 and number < sheet[band * AGES + age - 1]:
        return "age"  # falls as the age grows
    if band > 0 and number > sheet[(band - 1) * AGES + age]:
        return "band"  # rises as the band rises
    return None


def broken(sheet):
    """None where loading takes the sheet, else the first rule that is broken, and where."""
    if len(sheet) != LENGTH:
        return Broken("length", len(sheet))
    for band in range(BANDS):
        for age in range(AGES):
            rule = _rule_broken(sheet, band, age)
            if rule is not None:
                return Broken(rule, band * AGES + age)
    return None
