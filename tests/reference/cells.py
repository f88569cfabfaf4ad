"""The loans taken by score and by loan-to-value: 60 cells with count, balance and charge.

A cell's charge is the sum of its loans' total numbers. Each is free within a distance, so the table is written
from given charges, and `charge_bounds` tells which are allowed.
"""
from fractions import Fraction

from . import book, loan

BUFFER = 8_192
NO_SCORE = 12  # the band after the eleven of scores
LIMITS = tuple(Fraction(limit, 100) for limit in (65, 80, 90, 95))  # of balance over property value
PLACES = tuple((band, column) for band in range(1, NO_SCORE + 1) for column in range(1, len(LIMITS) + 2))


def place(found, form):
    """The band and the column of a loan of a book, by its value as the index has it.

    A limit itself belongs to the lower column; the age of a score moves nothing.
    """
    said = book.loan_values(form)
    ratio = said.balance / found.property_value(form)
    return NO_SCORE if said.score is None else loan.band(said.score[0]), 1 + sum(1 for limit in LIMITS if ratio > limit)


def by_cell(found, amounts):
    """For each cell, bands outermost, the sum of the amounts of its loans in a book; they come as pairs of form and amount."""
    sums = dict.fromkeys(PLACES, 0)
    for form, amount in amounts:
        sums[place(found, form)] += amount
    return tuple(sums.values())


def charge_bounds(found):
    """For each cell of a book the least and the greatest allowed charge."""
    bounds = [(form, found.number_bounds(form)) for form in found.loan_forms()]
    return tuple(zip(*(by_cell(found, ((form, numbers[side]) for form, numbers in bounds)) for side in (0, 1))))


def text(found, charges):
    """The 60 lines of a book whose cells have these charges."""
    loans = found.loan_forms()
    counts = by_cell(found, ((form, 1) for form in loans))
    balances = by_cell(found, ((form, book.loan_values(form).balance) for form in loans))
    rows = zip(PLACES, counts, balances, charges, strict=True)
    return b"".join(b"(cell %d %d %d %d %d)\n" % (*where, count, balance, charge) for where, count, balance, charge in rows)
