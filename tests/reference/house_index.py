"""The house price index (request L4; source document 000, 1.1.5 ii): what a property is worth as of December 2015.

Values come by area and month. A loan made before 2005 arrives with its value adjusted, one of December 2015 or later keeps its value.
"""
from fractions import Fraction

from .forms import INDEX

FIRST, DECEMBER = INDEX


def needed(said):
    """The area and month of each value that a loan needs, its own month's and December's; none for a value that stays."""
    return ((said.area, said.since), (said.area, DECEMBER)) if FIRST <= said.since < DECEMBER else ()


def missing(said, values):
    """Of the values that a loan needs, the area and month of those that are not set."""
    return [place for place in needed(said) if place not in values]


def property_value(said, values):
    """A loan's value times December's index over that of its own month, never rounded."""
    if not needed(said):
        return Fraction(said.value)
    own, december = (values[place] for place in needed(said))
    return said.value * Fraction(december, own)
