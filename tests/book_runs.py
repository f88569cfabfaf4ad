#!/usr/bin/env python3
"""Runs the built program over fixed, generated and damaged books and compares what it prints with the reference.

Refusals are compared exactly; the two sums of the loans' numbers lie in the range that the reference allows; every other
line follows exactly from them; the required amount keeps to its two bounds. With the word `cells` the same bytes are printed, and
after a report the table: counts and balances exactly, charges within what is allowed, counts and charges adding up to the report's
loans and total. A book that is not refused is held to three more: its lines in another order print the same bytes; so do inputs that leave
these lines standing by way of marks and returns; and its two sums, and the charge of each cell, are those of the numbers that each of its loans
has alone, in a book of its own. Some books are run
under a sheet of credit factors, by the words `sheet FILE`, and held to the requirement with that sheet; all others print the same bytes
under a copy of the built-in table. Books are joined by the words `join FILE ..`: what is printed of several files is held to the reference's one book of
their lines, and to what the program prints of one file with these lines; in other orders, and with a neutral file among them, the same bytes are printed wherever
they are joined. Besides, the program is run with an input that goes on after a refusal, with a read and with a write that fails, with files that are no sheet, and with
other words.
"""
import argparse
import collections
import itertools
import random
import re
import socket
import subprocess
import sys
import tempfile
from fractions import Fraction
from pathlib import Path

import line_cases
import near_bounds
import sheets
from reference import book, cells, forms, house_index
from reference.forms import AREAS
from reference.house_index import DECEMBER, FIRST
from reference.loan import credit_factor, is_fresh

CELLS = "cells"  # the word with which the program prints the table too
SHEET = "sheet"  # the word before the file of a sheet of credit factors
JOIN = "join"  # the word before the files of books that are joined
PER_LOAN, BESIDES = Fraction(3, 2), 3  # demand 3 with request L7: the required amount exceeds the exact one by less than this

KEPT = b"(from 201512) (area other)"  # of a loan whose value stays as it is
# A loan of next to nothing, more than 0: its total number can only be 1, its supplement is 0. Its score is fresh.
SMALL_LOAN = b"(loan (bal 1) (val 10000000000) (amort 480) (term 480) (score 900 0) (sup 0) %s)\n" % KEPT
SMALL_AGED = SMALL_LOAN.replace(b"900 0", b"900 13")
SMALL_TOTAL = 1


def book_header(loans, unscored, fresh, held=0):
    return b"(book (loans %d) (unscored %d) (fresh %d) (held %d))" % (loans, unscored, fresh, held)


def _header(loans, unscored=0):
    """The header line of a book whose scores are all fresh."""
    return book_header(loans, unscored, max(loans - unscored, 0)) + b"\n"


HEADER = book_header(0, 0, 0) + b"\n"
LOAN = b"(loan (bal 7) (val 7) (amort 7) (term 7) (score 720 7) (sup 1) %s)\n" % KEPT
UNSCORED = LOAN.replace(b"720 7", b"none")
AGED = LOAN.replace(b"720 7", b"720 13")
OUT_OF_RANGE = UNSCORED.replace(b"bal 7", b"bal 0")
OTHER_KINDS = (
    b"(policy (class home) (prem 7) (term 300) (done 5))\n(policy (class multi) (prem 7) (term 300) (done 5))\n"
    b"(deriv (kind fx) (cost 7) (notional 7) (months 7) (pays 7) (factor 7))\n(asset (amount 7) (factor 7))\n"
    b"(claims 7)\n(lossc 7)\n(stated 7)\n(equity 7)\n(aoci -7)\n(b 7)\n"
)
ALL_OTHERS = OTHER_KINDS * (book.OTHER_LINES // OTHER_KINDS.count(b"\n"))


def _provisions():
    """Each cell of 002, 3.3, at both ends of its column, and the years before and after: a home policy shows in moved, a multi-unit one in rest."""
    terms = sorted({1, 480} | {term for limit in book.TERM_LIMITS for term in (limit, limit + 1)})
    for term in terms:
        for done in (*range(len(book.PROVISIONS) + 2), 40):
            yield HEADER + b"(policy (class home) (prem 99999999) (term %d) (done %d))\n(policy (class multi) (prem 100000000) (term %d) (done %d))\n" % (
                term, done, term, done,
            )


def _add_ons():
    """Each kind of 002, 4.2.1.1 at both ends of its three columns, for one payment and for several."""
    for kind in book.ADD_ONS:
        for months in (0, 12, 13, 60, 61, 600):
            for cost, payments in ((0, 1), (7, 3)):
                yield HEADER + b"(deriv (kind %s) (cost %d) (notional 99999999999) (months %d) (pays %d) (factor 9999))\n" % (
                    kind, cost, months, payments,
                )


def _negative_weights():
    """Loans, each alone at m 3.0, whose total is one too low where the exponential of a negative weight is rounded up as the others are."""
    for numbers in ((92937, 125231, 1, 61), (119021, 143973, 3, 60), (161132, 195440, 2, 8)):
        yield _header(1, 1) + b"(loan (bal %d) (val %d) (amort %d) (term %d) (score none) (sup 0) %s)\n" % (*numbers, KEPT)


def loan(balance, value, score=b"720 7", months=240, since=KEPT):
    return b"(loan (bal %d) (val %d) (amort %d) (term %d) (score %s) (sup 1) %s)" % (balance, value, months, months, score, since)


def made(month, area=b"other"):
    """The two fields that say when a loan was made, and where."""
    return b"(from %d) (area %s)" % (month, area)


def index(area, month, value):
    return b"(index %s %d %d)" % (area, month, value)


def mark(name):
    return b"(mark %s)" % name


def back(name):
    return b"(back %s)" % name


def counted(loans):
    """How many loans there are, how many without a score, and how many with a fresh one."""
    scores = [book.loan_values(forms.read_feeding(line)).score for line in loans]
    return len(scores), scores.count(None), sum(map(is_fresh, scores))


def _book_of(loans):
    """The lines of a book that has these loans; their scores say which table of credit factors serves."""
    return [book_header(*counted(loans)), *loans]


def with_fresh(loans):
    """Loans with as many small ones besides, all fresh, as it takes for exactly 90% fresh ones: then the first column serves."""
    count, _, fresh = counted(loans)
    return [*loans, *[SMALL_LOAN[:-1]] * max(9 * (count - fresh) - fresh, 0)]


def limit_amounts():
    """Balances and values at each limit of loan-to-value and one cent either side: in lowest terms, out of 100, and nearly as large as they may be."""
    for limit in cells.LIMITS:
        part, whole = limit.as_integer_ratio()
        for times in (1, 100 // whole, (200_000_000 - 1) // part):
            balance, value = times * part, times * whole
            yield [(balance, value), (balance - 1, value), (balance + 1, value), (balance, value - 1), (balance, value + 1)]


AGES = (0, 12, 13, 24, 25, 36, 37, 48, 49, 60, 61, 600)  # both ends of each age column of the credit factors
# A balance and a value of each column.
COLUMNS = ((52_000, 80_001), (64_000, 80_001), (90_000, 100_000), (94_999, 100_000), (200_000_000, 199_999_900))


def _band_ends():
    """The lowest and the highest score of each band."""
    lowest = [300, *range(600, 781, 20)]
    return sorted(lowest + [score - 1 for score in lowest[1:]] + [900])


def farthest_books():
    """Books of loans whose two numbers are both almost a cent away: the required amount exceeds the exact one by almost 1.4 cents a loan.

    With an asset that makes rest next to nothing it exceeds it by almost a cent and a fifth besides.
    """
    for first, months, score in ((150_000_000, 240, b"720 7"), (1_000_000, 12, b"580 0"), (30_000_000, 480, b"900 12")):
        number, age = map(int, score.split())
        of = Fraction(1), months, months, 1, credit_factor((number, age), False, 0, 0)
        found = near_bounds.balances(first, of, *near_bounds.FARTHEST)
        lines = _book_of([loan(balance, balance, score, months) for balance in itertools.islice(found, 40)])
        yield lines
        yield [*lines, b"(asset (amount 1) (factor 1))"]


def _cell_books():
    """Books for the table, each as its lines."""
    yield from (_book_of([loan(*amounts) for amounts in row]) for row in limit_amounts())
    # A balance above the value: in the charge the property counts as worth the balance, in the table it does not.
    yield _book_of([loan(*amounts) for amounts in ((7, 7), (8, 7), (7, 1), (200_000_000, 200_000_000), (200_000_000, 1), (1, 10**10))])
    # The bands' ends. The age of a score and the table that serves move the charge, not the band.
    ends = [loan(10_000_000 + score, 13_000_000, b"%d %d" % (score, age)) for score in _band_ends() for age in (0, 13, 600)]
    yield _book_of(ends)
    yield _book_of(with_fresh(ends))
    # Loans without a score in every column, at 3.0 and at 1.3.
    unscored = [loan(*amounts, b"none") for amounts in COLUMNS]
    yield _book_of(unscored)
    yield _book_of(unscored + [loan(1_000_000 + i, 2_000_000) for i in range(95)])
    # Every cell, no two with loans of the same balance, and one to four loans in each.
    scores = [b"%d 7" % score for score in _band_ends()[::2]] + [b"none"]
    every = [loan(balance - i, value, score) for i, score in enumerate(scores) for balance, value in COLUMNS]
    yield _book_of([line for i, line in enumerate(every) for _ in range(1 + i % 4)])
    # Charges below 0: alone in a cell, beside one above 0 and outweighed by it, and a whole book of them.
    below = [loan(100_000, 140_000, score, months) for score in (b"590 7", b"655 7", b"none") for months in (1, 4)]
    yield _book_of(below)
    yield _book_of(below + [loan(100_000, 140_000, b"590 7"), loan(100_000, 140_000, b"700 7")])


# The months from which a loan needs the index.
INDEXED = tuple(month for month in range(FIRST, DECEMBER) if 1 <= month % 100 <= 12)
VALUES_THAT_STAY = (190001, 200412, DECEMBER, 201601, 209912)


def _with_index(values, loans):
    """The lines of a book with index lines (area, month and value) before its loans."""
    header, *lines = _book_of(loans)
    return [header, *(index(*value) for value in values), *lines]


def _index_books():
    """Books with index lines, each as its lines; none is refused."""
    # Every value, no two alike, and a loan of each month that needs them, by turns of every area.
    every = [(area, month, 5_000 + 11 * place) for place, (area, month) in enumerate(itertools.product(AREAS, (*INDEXED, DECEMBER)))]
    areas = itertools.cycle(AREAS)
    yield _with_index(every, [loan(20_000_000 + month, 19_000_000, since=made(month, next(areas))) for month in INDEXED])
    # Every area at the ends of the index; values that stay, with values set that would move them much, and without.
    ends = [(area, month, 100 * place + value) for place, area in enumerate(AREAS, 1) for month, value in ((FIRST, 61), (INDEXED[-1], 73), (DECEMBER, 97))]
    yield _with_index(ends, [loan(9_000_000, 8_000_000, since=made(month, area)) for area in AREAS for month in (FIRST, INDEXED[-1])])
    staying = [loan(9_000_000, 10_000_000 + i, since=made(month, area)) for i, area in enumerate(AREAS) for month in VALUES_THAT_STAY]
    yield _book_of(staying)
    yield _with_index(ends, staying)
    # The ends of all ranges: products of 10^16 over 1 and of 1 over 2 * 10^14.
    pairs = list(zip(AREAS, itertools.product((1, 1_000_000), repeat=2)))
    extremes = [(area, month, value) for area, both in pairs for month, value in zip((FIRST, DECEMBER), both)]
    amounts = itertools.product((1, 199_999_999, 200_000_000), (1, 9_999_999_999, 10**10))
    yield _with_index(extremes, [loan(*amount, since=made(FIRST, area), months=m) for amount in amounts for area, _ in pairs for m in (1, 480)])
    # Each limit of loan-to-value, reached by the index alone, and beside it by one in the balance, the value or an index.
    for row in amounts_by_index():
        yield _with_index(LIMIT_VALUES, [loan(*amount, since=since) for amount in row for since in LIMIT_PLACES])


# Index values of three areas and months, next to each other: in the first of both a value grows by half.
LIMIT_MONTHS = dict(zip(INDEXED, (600_000, 599_999, 600_001)))
LIMIT_AREAS = dict(zip(AREAS, (900_000, 899_999, 900_001)))
LIMIT_PLACES = [made(month, area) for area in LIMIT_AREAS for month in LIMIT_MONTHS]
LIMIT_VALUES = [(area, month, value) for area, last in LIMIT_AREAS.items() for month, value in (*LIMIT_MONTHS.items(), (DECEMBER, last))]


def amounts_by_index():
    """For each limit of loan-to-value a balance and a value that is two thirds of what would put the loan on it, and one cent either side."""
    for limit in cells.LIMITS:
        part, whole = limit.as_integer_ratio()
        times = 3 * ((200_000_000 - 1) // (3 * part))
        balance, value = times * part, times * whole * 2 // 3
        yield [(balance, value), (balance - 1, value), (balance + 1, value), (balance, value - 1), (balance, value + 1)]


def _index_inputs():
    """Inputs with index lines: most are refused for one, or for a loan that needs one."""
    own, december, last = index(b"toronto", 201003, 9_000), index(b"toronto", DECEMBER, 15_000), index(b"toronto", DECEMBER, 9_000)
    one = loan(9_000_000, 8_000_000, since=made(201003, b"toronto"))
    composite = [line.replace(b"toronto", b"other") for line in (own, december)]
    header, second = _header(1)[:-1], own.replace(b"9000", b"9001")
    # Each of the two values missing, or set for another area or after the loan; equal values are asked for too.
    for before in ((), (own,), (december,), (last,), (own, december), (december, own), (own, last), composite, (own, *composite), (december, *composite)):
        yield [header, *before, one]
        yield [header, *before, one.replace(b"toronto", b"other")]
    yield [header, own, one, december]
    # A second value, equal or not, also where a loan has looked it up; another area or month is no second.
    for again in (own, second, second.replace(b"9001", b"1000001"), december, composite[0], own.replace(b"201003", b"201004")):
        yield [header, own, again, december, one]
        yield [header, own, december, one, again]
    # 3 and 5 before 12.
    yield [_header(0)[:-1], one]
    yield [header, one.replace(b"720 7", b"none")]
    yield [_header(2, 1)[:-1], UNSCORED[:-1], one.replace(b"720 7", b"none")]
    yield [header, LOAN[:-1], one]
    yield [header, LOAN[:-1], one.replace(b"(bal 9000000)", b"(bal 0)")]
    # An index line in place of the header; months that are none; no such area; the form of a loan without month and area.
    yield [own, one]
    for month in (200413, 200500, 201013, 201513):
        yield [header, loan(7, 7, since=made(month))]
        yield [header, index(b"other", month, 7), LOAN[:-1]]
    yield [header, LOAN[:-1].replace(b"other", b"others")]
    yield [header, LOAN[: -len(KEPT) - 3] + b")"]
    # Index lines among the 100,000 lines that are not loans: the last of them, the first too many, 8 before 11 and after 3.
    almost = ALL_OTHERS.splitlines()[:-1]
    yield [header, own, *almost[:-1], december, one]
    for lines in ((own, *almost, own), (*almost, own, december), (*almost, own, b"(b 0)"), (*almost, own, own.replace(b"9000", b"0"))):
        yield [header, *lines, one]


def _same_prints():
    """Groups of inputs of which the same bytes must be printed: equal values however they are found; index lines alone move nothing."""
    plain = loan(15_000_000, 20_000_000)
    found = [
        (8_000_000, 200, 500), (8_000_000, 2, 5), (8_000_000, 400_000, 1_000_000), (20_000_000, 100, 100), (20_000_000, 1, 1),
        (20_000_000, 1_000_000, 1_000_000), (10_000_000_000, 1_000, 2), (20, 1, 1_000_000),
    ]
    yield [_book_of([plain])] + [
        _with_index([(b"quebec", FIRST, own), (b"quebec", DECEMBER, december)], [loan(15_000_000, value, since=made(FIRST, b"quebec"))])
        for value, own, december in found
    ]
    # On the first column no age counts, on the aged table none within its column.
    nine = [SMALL_LOAN[:-1]] * 9
    yield [_book_of([*nine, loan(15_000_000, 20_000_000, b"745 %d" % age)]) for age in AGES]
    for first, last in zip(AGES[2::2], AGES[3::2]):
        yield [_book_of([*nine[1:], *(loan(15_000_000, 20_000_000, b"745 %d" % age) for age in ages)]) for ages in ((first, first), (first, last), (last, first))]
    header, *loans = _book_of([plain, plain])
    others = OTHER_KINDS.splitlines()
    values = [index(area, month, 1_000_000) for area in AREAS for month in (FIRST, INDEXED[-1], DECEMBER)]
    yield [[header, *loans, *others], [header, *values, *loans, *others], [header, *loans, *others, *values]]


# Names that are alike in their letters, their beginnings, or the low bits of their numbers.
EIGHT_NAMES = (b"a", b"aa", b"ab", b"ba", b"a" * 12, b"a" * 11 + b"b", b"b" + b"a" * 11, line_cases.name_of(2**32 + 1))
EIGHT_MARKS = [mark(name) for name in EIGHT_NAMES]


def _stated(*numbers):
    """Lines whose sum tells which of them stand: line i adds 2^i to the report's rest."""
    return [b"(stated %d)" % 2**number for number in numbers]


def _name_inputs():
    """Names of marks: of every length, of other letters; one that is no name is 2, in a mark and in a return, whatever is kept."""
    header = HEADER[:-1]
    for name in (b"a", b"z", b"abcdefghijkl", b"mnopqrstuvwx", b"yz", b"a" * 12, b"z" * 12):
        yield [header, mark(name)]
        yield [header, *_stated(0), mark(name), *_stated(1), back(name), *_stated(2)]
    for name in line_cases.ODD_NAMES:
        yield [header, mark(name)]
        yield [header, mark(b"a"), back(name)]
    # No bracket, no name, two of them; over 240 bytes is 1; at eight marks 2 comes before 14.
    for line in (b"(mark a", b"mark a)", b"(mark)", b"(mark )", b"(mark a b)", b"(back a", b"(back)", b"(back a a)", b"(mark %s)" % (b"a" * 233), b"(mark %s)" % (b"a" * 234)):
        yield [header, mark(b"a"), line]
        yield [header, *EIGHT_MARKS, line, b"x"]
    # In place of the header.
    for line in (mark(b"a"), back(b"a"), mark(b"A")):
        yield [line]
        yield [line, header]


def _kept_inputs():
    """13, 14 and 15 by what is kept: a name twice, a ninth mark, names that were dropped or never set; marks that are kept at the end."""
    header = HEADER[:-1]
    one, two, three, four = _stated(0, 1, 2, 3)
    a, b, c = map(mark, (b"a", b"b", b"c"))
    to_a, to_b, to_c = map(back, (b"a", b"b", b"c"))
    for lines in (
        (a, a), (a, one, a), (a, one, to_a, a), (a, b, to_a, a), (a, b, to_b, b), (a, b, c, to_b, a), (a, b, c, to_b, b),  # 13
        (to_a,), (one, to_a), (a, to_b), (a, b, to_c), (mark(b"ab"), to_a), (mark(b"ab"), back(b"abc")), (mark(b"ab"), back(b"ba")),  # 15: never set
        (a, b, to_a, to_b), (a, b, c, to_b, to_c), (a, b, c, to_a, to_b), (a, b, to_a, b, to_a, to_b), (a, b, c, to_a, c, to_b),  # dropped
        # Taken: a dropped name once more, the same mark again and again, marks after a return, and marks kept at the end.
        (a,), (one, a), (a, b, c), (one, a, two, to_a), (one, a, two, to_a, three, to_a, four), (one, a, two, b, three, to_a, b, four),
        (one, a, two, b, three, to_a, four, b, two, to_b, one), (a, one, b, two, c, three, to_b, four, c, one, to_b, two, to_a, three, b, to_b),
        (one, a, two, b, three, c, four, to_c, to_b, to_a), (one, a, two, b, three, c, four, to_a), (a, to_a, to_a, one, to_a, two),
        (a, one, b, two, to_a, b, three, to_b, four),
    ):
        yield [header, *lines]
    # Eight marks: a ninth is 14, a name among the eight 13. After a return to one of them there is room for those that were dropped, and not for one more.
    ninth = mark(b"ninth")
    yield [header, *EIGHT_MARKS]
    yield [header, *EIGHT_MARKS, ninth]
    yield [header, *EIGHT_MARKS, one, ninth]
    for place, name in enumerate(EIGHT_NAMES):
        yield [header, *EIGHT_MARKS, mark(name)]
        new = [mark(b"n" * (1 + i)) for i in range(7 - place)]
        lines = [line for pair in zip(_stated(*range(8)), EIGHT_MARKS) for line in pair]
        yield [header, *lines, back(name), *new, *EIGHT_MARKS[:1]]
        yield [header, *lines, back(name), *new, ninth]
        yield [header, *lines, back(name), *new, *_stated(20)]
        yield [header, *lines, *(back(each) for each in EIGHT_NAMES[:place:-1]), back(name), *_stated(20)]
        if place:
            yield [header, *lines, back(EIGHT_NAMES[place - 1]), *_stated(20), back(name)]


def _step_inputs():
    """Every way of up to five steps through two marks, returns to them and lines, as far as it is taken; each ends refused or at the last step."""
    steps = mark(b"a"), mark(b"b"), back(b"a"), back(b"b"), None
    ways = [[]]
    for number in range(5):
        longer = []
        for way in ways:
            for step in steps:
                lines = [HEADER[:-1], *way, step or _stated(number)[0]]
                if isinstance(book.run(b"\n".join(lines)), tuple):
                    yield lines
                else:
                    longer.append(lines[1:])
        ways = longer
    yield from ([HEADER[:-1], *way] for way in ways)


def _restored_inputs():
    """Counts, index and cells after a return: what the lines withdrawn had taken is free again, and what is short is short."""
    own, december, other = index(b"toronto", 201003, 9_000), index(b"toronto", DECEMBER, 15_000), index(b"toronto", 201003, 11_000)
    older = loan(9_000_000, 8_000_000, since=made(201003, b"toronto"))
    fresh, aged, unscored = LOAN[:-1], AGED[:-1], UNSCORED[:-1]
    a, to_a = mark(b"a"), back(b"a")
    # 5 by each of the counts; after the return there is room once more, and for no more than that.
    for counts, line in (((1, 0, 1), fresh), ((1, 1, 0), unscored), ((1, 0, 0), aged)):
        header = book_header(*counts)
        for lines in ((a, line, to_a, line), (a, line, to_a, line, line), (a, line, to_a), (line, a, to_a), (line, a, to_a, line), (a, line, line)):
            yield [header, *lines]
    header = book_header(3, 1, 1)
    for lines in ((aged, a, fresh, unscored, to_a, unscored, fresh), (aged, a, fresh, unscored, to_a, fresh, fresh), (aged, a, fresh, unscored, to_a, unscored, unscored), (aged, a, fresh, unscored, to_a, fresh), (fresh, unscored, a, aged, to_a)):
        yield [header, *lines]
    # Loans before the mark on both sides of 0, with the supplement and without: each part of total and supplement is given back.
    below = b"(loan (bal 100000) (val 140000) (amort 1) (term 1) (score none) (sup 1) (from 201512) (area other))"
    above = b"(loan (bal 60000000) (val 60000000) (amort 300) (term 300) (score 655 30) (sup 1) (from 201512) (area other))"
    for lines in ((below, above, a, fresh, to_a, fresh), (below, above, fresh, a, to_a), (below, a, above, to_a, above, fresh), (above, a, below, fresh, to_a, fresh, below)):
        yield [header, *lines]
    # The index: a value set after the mark is set no longer, and the same or another may be set; one set before it stays set (11); a loan that needs it is 12.
    one = book_header(1, 0, 1)
    for lines in (
        (december, a, own, to_a, other, older), (december, a, own, to_a, own, older), (december, a, own, older, to_a, other, older), (own, december, a, older, to_a, older),
        (december, a, own, to_a, older), (a, own, december, older, to_a, older), (a, own, december, to_a, own, older), (own, a, to_a, own), (own, a, to_a, other), (a, own, to_a, own, other),
        (a, own, mark(b"b"), december, to_a, december, back(b"b")), (a, own, mark(b"b"), december, back(b"b"), december, older, to_a, other, december, older),
        (a, own, mark(b"b"), december, back(b"b"), other), (a, own, mark(b"b"), december, back(b"b"), older),
    ):
        yield [one, *lines]


def _full_inputs():
    """The 100,000 lines that are not loans: neither a mark nor a return is one of them, and only those still standing count, index lines too."""
    header, full = HEADER[:-1], ALL_OTHERS.splitlines()
    half, a, to_a = full[: len(full) // 2], mark(b"a"), back(b"a")
    first, second = index(b"toronto", 201003, 9_000), index(b"toronto", DECEMBER, 15_000)
    more = b"(c 7)"
    for lines in (
        (*full, a, mark(b"b"), to_a), (*full, a, to_a, more), (a, *full, to_a, *full), (a, *full, to_a, *full, more),
        (*half, a, *half, to_a, *half, to_a, *half, more),
        # Index lines are counted for themselves: two of them withdrawn and set again, before the last two lines and after the first.
        (*full[:-2], a, first, second, to_a, second, first), (*full[:-2], a, first, second, to_a, second, first, more),
        (first, a, second, to_a, *full[:-1]), (first, a, second, to_a, *full[:-1], second), (*full[:-2], first, a, second, to_a, more, second),
    ):
        yield [header, *lines]


def _mark_inputs():
    """Inputs with marks and returns; many are refused for one."""
    yield from (lines for inputs in (_name_inputs, _kept_inputs, _step_inputs, _restored_inputs, _full_inputs) for lines in inputs())


def _mark_groups():
    """Groups of inputs that leave the same lines standing: these lines alone, then ways to them."""
    fresh, aged, unscored = loan(15_000_000, 20_000_000), loan(16_000_000, 20_000_000, b"700 40"), loan(19_500_000, 20_000_000, b"none")
    own, december, other = index(b"quebec", FIRST, 9_000), index(b"quebec", DECEMBER, 15_000), index(b"quebec", FIRST, 12_345)
    older = loan(17_000_000, 11_000_000, b"650 7", since=made(FIRST, b"quebec"))
    others = OTHER_KINDS.splitlines()
    header, *_ = _book_of([fresh, aged, unscored, older])
    a, b, to_a, to_b = mark(b"a"), mark(b"b"), back(b"a"), back(b"b")
    lines = [own, december, fresh, aged, unscored, older, *others]
    yield [
        [header, *lines],
        [header, a, *lines],  # marks and no return
        [header, *(line for pair in itertools.zip_longest(lines, EIGHT_MARKS) for line in pair if line)],
        [header, a, *lines, to_a, *lines[::-1][-2:][::-1], *lines[2:]],
        [header, a, *lines, to_a, *lines, to_a, *lines],
        [header, *lines, a, *others, *others, to_a],  # the last file withdrawn
        [header, a, other, december, older, *others, to_a, *lines],  # an index value that was another
        [header, december, a, other, older, b, fresh, to_a, own, older, b, *others, unscored, to_b, aged, unscored, *others, fresh],
        [header, a, fresh, b, aged, mark(b"c"), unscored, to_b, unscored, to_a, own, b, december, *lines[2:6], to_b, *lines[1:]],
    ]
    # No line stands: what is withdrawn may be the whole book.
    none = HEADER[:-1]
    yield [[none], [none, a], [none, a, *others, own, to_a], [none, a, b, *others, to_b, to_a], [none, a, *others, b, to_b, to_a, b, to_b]]
    # The same under names at both ends, and however many marks stand between.
    yield [[none, *_stated(0, 2)]] + [[none, *_stated(0), mark(name), *_stated(1), back(name), *_stated(2)] for name in (*EIGHT_NAMES, b"z" * 12)]


# More lines than a book can have of loans, others and its header.
MANY_LINES = 1_000_000 + book.OTHER_LINES + 100


def many_lines(run):
    """What came out of more returns than a book has loans and other lines: each has its line number, and a refused one after them too."""
    data = b"\n".join([HEADER[:-1], mark(b"a"), *[back(b"a")] * MANY_LINES, back(b"b")])
    printed = run(data)
    return problem((15, MANY_LINES + 3), printed), data, printed


def _table_books():
    """Loans of every band and age column, each as the lines of a book: with no fresh loan, with some, and with exactly 90%."""
    every = [loan(10_000_000 + score, 13_000_000, b"%d %d" % (score, age)) for score in _band_ends()[::2] for age in AGES]
    yield _book_of([line for line in every if counted([line])[2] == 0])
    yield _book_of(every)
    yield _book_of(with_fresh(every))


# How many loans a book has; the first column serves from 1, 2, 9, 9, 10, 18, 18, 19, 90 and 90 fresh ones on.
EDGES = (1, 2, 9, 10, 11, 19, 20, 21, 99, 100)


def _fresh_books():
    """Books with just as many fresh loans as the first column asks for, and with one fewer; loans without a score are not fresh."""
    for loans in EDGES:
        least = -(-9 * loans // 10)
        for fresh in (least, least - 1):
            lines = [LOAN[:-1].replace(b"720 7", b"%d %d" % (300 + i, i % 13)) for i in range(fresh)]
            lines += [loan(20_000_000 + i, 21_000_000, b"%d %d" % (790 - 25 * (i % 4), 13 + 12 * i)) for i in range(loans - fresh)]
            yield _book_of(lines)
            if fresh < loans:
                yield _book_of([*lines[:-1], loan(20_000_000, 21_000_000, b"none")])


def _fresh_headers():
    """Headers with counts around each other, some with a number out of its range; headers of other forms. Alone, those that count loans are refused too, with 6."""
    most, digits = 1_000_000, 10**14 - 1
    for loans in (0, 10, most, most + 1):
        for unscored, fresh in ((0, loans), (0, loans + 1), (loans, 0), (loans + 1, 0), (loans, 1), (1, loans), (loans // 2, loans - loans // 2)):
            yield book_header(loans, unscored, fresh)
            yield book_header(loans, unscored, fresh, 10**13 + 1)
        for unscored, fresh in ((0, digits), (digits, 0), (digits, digits), (1, digits), (digits, 1)):
            yield book_header(loans, unscored, fresh)
    plain = book_header(0, 0, 0)
    for field in (b"(scores fresh)", b"(scores aged)", b"(scores 0)", b"(fresh)", b"(fresh )", b"(fresh none)", b"(fresh 01)", b"(fresh 0) (fresh 0)", b"(fresh 0) (scores fresh)"):
        yield plain.replace(b"(fresh 0)", field)
    yield plain.replace(b"(unscored 0) (fresh 0)", b"(fresh 0) (unscored 0)")
    yield plain.replace(b" (fresh 0)", b"")


def _fresh_inputs():
    """Inputs with loans on both sides of the age that is fresh: most are refused with 5 or 6."""
    yield from ([line] for line in _fresh_headers())
    fresh, aged, unscored = LOAN[:-1], AGED[:-1], UNSCORED[:-1]
    for age in (0, 11, 12, 13, 14, 600):
        for count in (0, 1):
            yield [book_header(1, 0, count), fresh.replace(b"720 7", b"720 %d" % age)]
    # Every row of up to one loan too many, under headers with a place for each kind, and with places of one kind alone.
    for counts in ((3, 1, 1), (2, 0, 1), (2, 1, 1), (2, 0, 0), (2, 0, 2), (2, 2, 0), (1, 0, 0)):
        for length in range(counts[0] + 2):
            for lines in itertools.product((fresh, aged, unscored), repeat=length):
                yield [book_header(*counts), *lines]
    # 1, 2, 7 and 3 before 5, and 5 before 12: of a fresh loan too many, though other loans are still to come.
    lacking = loan(7, 7, since=made(FIRST))
    for line in (b"x" * 241, b"x", HEADER[:-1], fresh.replace(b"bal 7", b"bal 0"), lacking, lacking.replace(b"720 7", b"720 13")):
        yield [book_header(3, 0, 1), fresh, line, aged, aged]
        yield [book_header(3, 0, 0), line, aged, aged]
    # The header alone says which table serves: lines that fit the other table end in 6.
    ten = [SMALL_LOAN[:-1]] * 9 + [loan(20_000_000, 21_000_000, b"790 61")]
    yield [book_header(10, 0, 8), *ten]
    yield [book_header(10, 0, 10), *ten]
    yield [book_header(11, 0, 9), *ten]


def _sheet_books():
    """Books that are not refused, each as its lines and the sheet under which they are charged."""
    for lines in _table_books():
        yield lines, sheets.DISTINCT
    # At 0.01 and 3.00 throughout: loans of every size, some charged less than 0. No score: 1.3 or 3.0 under any sheet.
    amounts = [pair for row in limit_amounts() for pair in row[:2]]
    mixed = [loan(*pair, b"%d 7" % (300 + 25 * i), 1 + 20 * i) for i, pair in enumerate(amounts)]
    for number in (1, 300):
        yield _book_of(mixed), (number,) * len(sheets.EQUAL)
    unscored = [loan(*amounts, b"none") for amounts in COLUMNS]
    yield _book_of(unscored), sheets.DISTINCT
    yield _book_of(unscored + [loan(1_000_000 + i, 2_000_000) for i in range(95)]), sheets.DISTINCT
    # With the house price index.
    values = [(area, month, value) for area, value in zip(AREAS, range(7_000, 19_000, 1_000)) for month, value in ((FIRST, 10_000), (DECEMBER, value))]
    indexed = [loan(10_000_000, 12_000_000, b"%d 13" % (300 + 50 * i), since=made(FIRST, area)) for i, area in enumerate(AREAS)]
    yield _with_index(values, indexed), sheets.DISTINCT


def _sheet_inputs():
    """Inputs with a sheet that breaks a rule, or with a header that is refused before the sheet is looked at."""
    small = _header(1) + LOAN
    for sheet in (*sheets.LENGTHS, *sheets.OUTSIDE, *sheets.RISING.values(), *sheets.FALLING.values()):
        yield small, sheet
    headers = (b"x" * 241 + b"\n", b"", b"x\n", LOAN, _header(1_000_001), _header(0, 1))
    for header in headers:
        for sheet in (sheets.DISTINCT, sheets.LENGTHS[0], sheets.OUTSIDE[0]):
            yield header + LOAN, sheet
            yield header, sheet
    # Refused further on: under a sheet that is taken by the line, under one that is not by 10.
    for sheet in (sheets.DISTINCT, sheets.OUTSIDE[0]):
        yield small + LOAN, sheet
        yield _header(2) + LOAN, sheet
        yield _header(1) + b"x\n", sheet


FIXED = (
    # the input: its lines, and the end of the last
    b"",
    b"\n",
    b"\n\n",
    HEADER[:-1],
    HEADER,
    HEADER + b"\n",
    HEADER[:-1] + b"\r\n",
    HEADER + b"x" * 240 + b"\n",
    HEADER + b"x" * 241 + b"\n",
    HEADER + b"x" * 200_000,
    b"x" * 200_000 + b"\n",
    b"(claims 1)\n",
    HEADER + HEADER,
    HEADER + b"(asset (amount 100000) (factor 25))\n(claims 1001)\n(equity 1000)\n(c 100)\n",
    # the header's counts: reached, one short, passed by one; `_fresh_inputs` has loans that are not fresh besides
    _header(0, 1),
    _header(1_000_000, 1_000_000),
    _header(1_000_001),
    _header(1),
    _header(1) + LOAN,
    _header(1) + LOAN + LOAN,
    _header(1, 1) + LOAN,
    _header(1, 1) + UNSCORED,
    _header(1, 1) + UNSCORED + UNSCORED,
    _header(3, 1) + LOAN + UNSCORED,
    _header(3, 1) + LOAN + UNSCORED + LOAN,
    _header(3, 1) + LOAN + UNSCORED + LOAN + LOAN,
    _header(3, 1) + LOAN + LOAN + LOAN,
    _header(3, 1) + UNSCORED + UNSCORED + LOAN,
    _header(3, 2) + UNSCORED + LOAN + UNSCORED,
    _header(3) + UNSCORED,
    # 1, 2, 7 and 3 before 5
    _header(1) + LOAN + b"x" * 241 + b"\n",
    _header(1) + LOAN + b"x\n",
    _header(1) + LOAN + HEADER,
    _header(1) + LOAN + OUT_OF_RANGE,
    # 100,000 lines that are not loans, and one more; 1, 2, 7 and 3 before 8
    HEADER + b"(b 0)\n" * book.OTHER_LINES,
    HEADER + b"(b 0)\n" * (book.OTHER_LINES + 1),
    _header(1) + ALL_OTHERS + LOAN,
    _header(1) + ALL_OTHERS + LOAN + b"(c 7)\n",
    _header(1) + LOAN + ALL_OTHERS + LOAN,
    HEADER + ALL_OTHERS + b"x" * 241 + b"\n",
    HEADER + ALL_OTHERS + b"x\n",
    HEADER + ALL_OTHERS + HEADER,
    HEADER + ALL_OTHERS + b"(asset (amount 7) (factor 10001))\n",
    # every cell of the tables of 002, and loans that are near a whole cent
    *_provisions(),
    *_add_ons(),
    *_negative_weights(),
)


def _valid_line(source, kind):
    while True:
        out = []
        for field in line_cases.FIELDS[kind]:
            if isinstance(field, bytes):
                out.append(field)
            elif isinstance(field[0], bytes):
                out.append(source.choice(field))
            else:
                low, high = field
                top = min(high, low + 10 ** source.randrange(1, 15))
                inside = source.randrange(low, top + 1)
                out.append(b"%d" % source.choice((low, high, inside, inside)))
        line = b"".join(out)
        if not isinstance(forms.read_feeding(line), int):
            return line


OTHERS = ("policy", "deriv", "asset", "claims", "lossc", "stated", "equity", "aoci", "b", "c")  # forms that are neither loans nor index lines
FRESH_SCORE, AGED_SCORE, NO_SCORE = range(3)  # what a loan counts as


def _random_score(source, kind):
    """The score of a loan that counts as fresh, as aged, or as one without."""
    if kind == NO_SCORE:
        return b"none"
    ages = (0, 12, source.randrange(13)) if kind == FRESH_SCORE else (*AGES[2:], source.randrange(13, 601))
    return b"%d %d" % (source.choice((300, 900, *(source.randrange(300, 901) for _ in range(6)))), source.choice(ages))


def loan_line(source, kind, since=KEPT):
    """A loan of an ordinary size, or one with any numbers in range."""
    score = _random_score(source, kind)
    if source.randrange(3) == 0:
        line = _valid_line(source, "loan_unscored").replace(b"none", score)
        return line[: line.index(b"(from ")] + since + b")"
    balance = source.randrange(1, 200_000_001)
    value = min(balance * source.randrange(60, 320) // 100 + 1, 10**10)
    return b"(loan (bal %d) (val %d) (amort %d) (term %d) (score %s) (sup %d) %s)" % (
        balance, value, source.randrange(1, 481), source.choice((1, 60, 61, 480)), score, source.randrange(2), since,
    )


def random_place(source):
    """An area and a month from which a loan needs the index."""
    return source.choice(AREAS), source.choice((FIRST, INDEXED[-1], *source.choices(INDEXED, k=3)))


def _random_since(source, places):
    """When and where a loan was made: at one of these places, or where its value stays as it is."""
    if places and source.randrange(2):
        area, month = source.choice(places)
    else:
        area = source.choice(AREAS)
        month = source.choice((*VALUES_THAT_STAY, 100 * source.randrange(1900, 2005) + 7, 100 * source.randrange(2016, 2100) + 7))
    return made(month, area)


def _index_lines(source, places):
    """Index lines with the values that loans made at these places need, and with a few more."""
    needed = {(area, month) for area, own in places for month in (own, DECEMBER)}
    further = {random_place(source) for _ in range(source.choice((0, 0, 1, 5)))}
    values = (1, 1_000_000, source.randrange(1, 1_000_001), *(source.randrange(6_000, 24_000) for _ in range(9)))
    return [index(*place, source.choice(values)) for place in sorted(needed | further)]


def another_order(source, lines):
    """Lines that are taken as they stand, in another order that takes them too: a loan stands after the values that it needs, where they are among them."""
    when, timed = {}, []
    for line in lines:
        form = forms.read_feeding(line)
        needed = house_index.needed(book.loan_values(form)) if book.is_loan(form) else ()
        time = source.uniform(max((when.get(place, 0) for place in needed), default=0), 1)
        if form.kind == "index":
            when[form.values[:2]] = time
        timed.append((time, line))
    return [line for _, line in sorted(timed)]


def random_counts(source):
    """Loans, how many without a score and how many fresh: as often just enough for the first column, or one fewer, as any number."""
    loans = source.choice((0, 1, 2, 5, 10, 19, 20, 21, 100, source.randrange(22, 130)))
    unscored = min(loans, source.choice((0, 0, 1, 2, loans // 20, loans // 20 + 1)))
    least, most = -(-9 * loans // 10), loans - unscored
    fresh = source.choice((least, least, least - 1, most, most, source.randrange(most + 1), source.randrange(most + 1)))
    return loans, unscored, max(0, min(fresh, most))


def random_index(source):
    """Areas and months from which loans need the index, and the index lines for them, with a few more."""
    places = [random_place(source) for _ in range(source.choice((0, 1, 3, 8)))]
    return places, _index_lines(source, places)


def region(source, counts, places, values):
    """A header with these counts and lines that fit it, index lines and loans made at these places among them."""
    loans, unscored, fresh = counts
    lines = list(values)
    kinds = [NO_SCORE] * unscored + [FRESH_SCORE] * fresh + [AGED_SCORE] * (loans - unscored - fresh)
    lines += [loan_line(source, kind, _random_since(source, places)) for kind in kinds]
    lines += [_valid_line(source, source.choice(OTHERS)) for _ in range(source.randrange(12))]
    lines = another_order(source, lines)
    held = source.choice((0, 0, 1, 10**6, 10**9, 10**13))
    return [book_header(loans, unscored, fresh, held)] + lines


def whole_book(source):
    """A header and lines that fit it."""
    return region(source, random_counts(source), *random_index(source))


MARK_NAMES = (*EIGHT_NAMES, b"east", b"west", b"north", b"south")


class Way:
    """A way to the lines of a book, which are taken as they stand, by marks and returns; `out` is what was fed so far, with the header."""

    def __init__(self, source, lines):
        self.source = source
        self.found = book.open_book(lines[0])
        self.out = [lines[0]]
        self.rest = lines[1:]  # what is still to come
        self.astray = False  # whether lines stand that have to be withdrawn
        self.noted = {}  # both, as they were at each mark

    def _take(self, line):
        refusal = self.found.feed(line)
        assert refusal == 0
        self.out.append(line)

    def set_mark(self):
        """A mark under a name that is not kept, which may have been dropped, where there is room."""
        if len(self.found.marks) < book.MARKS:
            name = self.source.choice([name for name in MARK_NAMES if name not in self.found.marks])
            self._take(mark(name))
            self.noted[name] = self.rest, self.astray

    def _clean(self):
        """The marks kept at which no line stood that has to be withdrawn."""
        return [name for name in self.found.marks if not self.noted[name][1]]

    def go_back(self, names=None):
        """A return to the first, the last or any of these marks, or of all that are kept; what is to come comes in another order then."""
        names = list(names or self.found.marks)
        if names:
            name = self.source.choice((names[0], names[-1], self.source.choice(names)))
            self._take(back(name))
            rest, self.astray = self.noted[name]
            self.rest = another_order(self.source, rest)

    def go_astray(self):
        """A line that is taken and will be withdrawn, where a mark is kept to which it can be."""
        area, month = random_place(self.source)
        later = [line for line in self.rest if line.startswith(b"(index ")]
        tried = [
            *(line[: line.rindex(b" ")] + b" %d)" % self.source.randrange(1, 1_000_001) for line in self.source.sample(later, min(2, len(later)))),
            index(area, month, self.source.randrange(1, 1_000_001)), *self.source.sample(self.rest, min(3, len(self.rest))),
            loan_line(self.source, self.source.randrange(3)), _valid_line(self.source, self.source.choice(OTHERS)),
        ]
        fitting = [line for line in tried if self.found.refusal(line) == 0]
        if fitting and self._clean():
            self._take(self.source.choice(fitting))
            self.astray = True

    def go_on(self):
        """The next line, or a return where a line stands in its way, or where all lines are there and others too."""
        if self.rest and self.found.refusal(self.rest[0]) == 0:
            self._take(self.rest[0])
            self.rest = self.rest[1:]
        elif self.astray:
            self.go_back(self._clean())


def by_marks(source, lines):
    """An input that leaves the lines of a book standing, by way of some marks and returns."""
    way = Way(source, lines)
    for _ in range(source.choice((5, 20, 60))):
        step = source.choice((way.set_mark, way.set_mark, way.go_back, way.go_astray, way.go_astray, way.go_on, way.go_on))
        step()
    while way.rest or way.astray:
        way.go_on()
    return way.out


def _mark_damaged(source, lines):
    """With a mark or a return left out, a mark of its name after it, under another name or under none; with some marks more; cut short after a return."""
    places = [i for i, line in enumerate(lines) if line.startswith((b"(mark ", b"(back "))]
    i = source.choice(places or [len(lines) - 1])
    kind = source.randrange(7)
    if kind == 0 and places:
        del lines[i]
    elif kind == 1 and places:
        lines.insert(source.randrange(i + 1, min(i + 9, len(lines) + 1)), lines[i].replace(b"(back ", b"(mark "))
    elif kind == 2 and places:
        lines[i] = lines[i][:6] + source.choice(MARK_NAMES) + b")"
    elif kind == 3:
        lines[i + 1 : i + 1] = [mark(b"m" * count) for count in range(1, source.randrange(4, 11))]
    elif kind == 4:
        lines.insert(source.randrange(1, len(lines) + 1), back(source.choice(MARK_NAMES)))
    elif kind == 5:
        lines.insert(i + 1, source.choice((mark, back))(source.choice(line_cases.ODD_NAMES)))
    else:
        returns = [i for i in places if lines[i].startswith(b"(back ")]
        del lines[source.choice(returns or [i]) + 1 :]
    return lines


def _index_damaged(source, lines):
    """With an index line left out, or a second one with its value or another; or with the lines after the header in any order."""
    i = source.choice([i for i, line in enumerate(lines) if line.startswith(b"(index ")])
    kind = source.randrange(3)
    if kind == 0:
        del lines[i]
    elif kind == 1:
        second = source.choice((lines[i], lines[i][: lines[i].rindex(b" ")] + b" %d)" % source.randrange(1, 1_000_001)))
        lines.insert(source.randrange(1, len(lines) + 1), second)
    else:
        lines[1:] = source.sample(lines[1:], len(lines) - 1)
    return lines


def _count_damaged(source, lines):
    """With a count of the header one more or one less, or with a score that is fresh no longer, or fresh now, or gone."""
    scored = [i for i, line in enumerate(lines) if re.search(rb"\(score [0-9]", line)]
    if scored and source.randrange(2):
        i = source.choice(scored)
        lines[i] = re.sub(rb"\(score .*?\)", b"(score %s)" % source.choice((b"720 12", b"720 13", b"none")), lines[i])
    else:
        counts = [int(number) for number in re.findall(rb"[0-9]+", lines[0])]
        i = source.randrange(3)
        counts[i] = max(0, counts[i] + source.choice((-1, 1)))
        lines[0] = book_header(*counts)
    return lines


def damaged(source, lines):
    """Lines with one damage: half of them by way of marks and returns before it, and of these half damaged in a mark or a return."""
    if source.randrange(2):
        lines = by_marks(source, lines)
        if source.randrange(2):
            return _mark_damaged(source, lines)
    return _damaged(source, lines)


def _damaged(source, lines):
    lines = list(lines)
    if source.randrange(2) and any(line.startswith(b"(index ") for line in lines):
        return _index_damaged(source, lines)
    if source.randrange(3) == 0:
        return _count_damaged(source, lines)
    i = source.randrange(len(lines))
    kind = source.randrange(6)
    if kind == 0:
        del lines[i]
    elif kind == 1:
        lines.insert(i, lines[i])
    elif kind == 2:
        lines.insert(i, line_cases.random_line(source).replace(b"\n", b""))
    elif kind == 3:
        lines.insert(i, bytes(b for b in source.randbytes(source.choice((0, 1, 5, 239, 240, 241, 500))) if b != 10))
    elif kind == 4:
        line = lines[i]
        at = source.randrange(len(line))
        lines[i] = line[:at] + bytes((source.choice(line_cases.ODD_BYTES.replace(b"\n", b"")),)) + line[at + 1 :]
    else:
        lines[i], lines[0] = lines[0], lines[i]
    return lines


def _joined(source, lines):
    return b"\n".join(lines) + source.choice((b"", b"\n", b"\n"))


def sums_of(printed):
    """The two sums of the loans' numbers that a report tells, or None."""
    found = re.match(rb"\(loans \d+\)\n\(total (-?\d+)\)\n\(supplement (-?\d+)\)\n", printed)
    return found and tuple(map(int, found.groups()))


def counts_of(report):
    """The loans and the total that a report tells."""
    return int(re.match(rb"\(loans (\d+)\)", report)[1]), sums_of(report)[0]


def cells_of(table):
    """The numbers of each cell that a table tells: band, column, count, balance, charge."""
    rows = re.findall(rb"(?m)^\(cell (\d+) (\d+) (\d+) (\d+) (-?\d+)\)$", table)
    return [tuple(map(int, row)) for row in rows]


def charges_of(table):
    return tuple(charge for *_, charge in cells_of(table))


def problem(found, printed):
    """What is wrong with the output of a run, or None. `found` is the reference's book or refusal."""
    if isinstance(found, tuple):
        expected = b"(refused %d %d)\n" % found
        return None if printed == expected else f"expected {expected!r}"
    sums = sums_of(printed)
    if sums is None:
        return "no report"
    total, supplement = sums
    expected = found.report(total, supplement)
    if printed != expected:
        return f"expected {expected!r}"
    least, greatest, least_supplement, greatest_supplement = found.sum_bounds()
    if not least <= total <= greatest:
        return f"total not in {least} to {greatest}"
    if not least_supplement <= supplement <= greatest_supplement:
        return f"supplement not in {least_supplement} to {greatest_supplement}"
    required = dict(found.figures(total, supplement))["required"]
    low, high = found.exact_requirement()
    if required < low or required >= high + PER_LOAN * found.loan_count + BESIDES:
        return f"required {required} against {float(low)}"
    return None


def table_problem(found, report, table):
    """What is wrong with the table of a book whose report is this, or None."""
    told = cells_of(table)
    if len(told) != len(cells.PLACES):
        return f"{len(told)} cells"
    charges = charges_of(table)
    sums = sum(count for _, _, count, _, _ in told), sum(charges)
    if sums != counts_of(report):
        return f"the cells have {sums[0]} loans and the charge {sums[1]} together"
    expected = cells.text(found, charges)
    if table != expected:
        pairs = itertools.zip_longest(table.split(b"\n"), expected.split(b"\n"))
        line, right = next(pair for pair in pairs if pair[0] != pair[1])
        return f"the table has {line!r}, expected {right!r}"
    for where, charge, (least, greatest) in zip(cells.PLACES, charges, cells.charge_bounds(found)):
        if not least <= charge <= greatest:
            return f"charge {charge} of cell {where} not in {least} to {greatest}"
    return None


def cells_problem(found, report, printed):
    """What is wrong with what is printed with the table, or None; without it `report` is printed, a report or a refusal."""
    if isinstance(found, tuple):
        return None if printed == report else "with the table not the refusal alone"
    if not printed.startswith(report):
        return "with the table not the same report first"
    return table_problem(found, report, printed[len(report) :])


def copy_problem(run, data, with_cells):
    """What is wrong with what is printed under a copy of the built-in table, or None."""
    same = run.sheet is not None or run.under(sheets.BUILT_IN)(data, CELLS) == with_cells
    return None if same else "otherwise under a copy of the built-in table"


def outcome(run, data):
    """What is wrong with what is printed of an input, or None; what is printed without the table, and with it."""
    found = book.run(data, run.sheet)
    report, with_cells = run(data), run(data, CELLS)
    wrong = problem(found, report) or cells_problem(found, report, with_cells) or copy_problem(run, data, with_cells)
    return wrong, report, with_cells


def _small_loans(found, score):
    """How many small loans it takes beside one with this score for the same credit factor as in a book.

    Without a score the factor is 1.3 only for one loan of 20 or more. With an aged score nine fresh ones bring the first column,
    with a fresh score one that is not fresh brings the aged table.
    """
    if score is None:
        return 19 if 20 * found.unscored <= found.loans else 0
    if is_fresh(score) == found.aged:
        return 1 if found.aged else 9
    return 0


def alone(found, line):
    """The input of a book that holds one loan of a book, on the same table and with the same index values; and how many small loans besides."""
    said = book.loan_values(forms.read_feeding(line))
    small = _small_loans(found, said.score)
    header, *loans = _book_of([line] + [(SMALL_AGED if found.aged else SMALL_LOAN)[:-1]] * small)
    values = [index(*place, found.index[place]) for place in house_index.needed(said)]
    return b"\n".join([header, *values, *loans]), small


def sums_alone(run, lines):
    """The sums of the two numbers that each loan has alone, and the first in each cell; or what is wrong with a loan."""
    found = book.run(b"\n".join(lines), run.sheet)
    totals, supplement = [], 0
    times = collections.Counter(line for line in lines[1:] if line.startswith(b"(loan "))  # equal lines are run once
    for line, count in times.items():
        data, small = alone(found, line)
        printed = run(data)
        wrong = problem(book.run(data, run.sheet), printed)
        if wrong is not None:
            return f"of the loan {line!r} alone: {wrong}"
        numbers = sums_of(printed)
        totals.append((forms.read_feeding(line), count * (numbers[0] - small * SMALL_TOTAL)))
        supplement += count * numbers[1]
    return sum(total for _, total in totals), supplement, cells.by_cell(found, totals)


def whole_problem(run, source, lines, report, with_cells):
    """What is wrong with the report and the table of a book that is not refused, or None."""
    data = _joined(source, lines[:1] + another_order(source, lines[1:]))
    if run(data) != report:
        return "another report in another order"
    if run(data, CELLS) != with_cells:
        return "another table in another order"
    data = _joined(source, by_marks(source, lines))
    if run(data) != report or run(data, CELLS) != with_cells:
        return f"another report or table by way of marks and returns: {data[:4000]!r}"
    sums = sums_alone(run, lines)
    return None if sums == (*sums_of(report), charges_of(with_cells)) else f"the sums of the loans alone: {sums}"


def whole_result(run, source, lines):
    """A book that is not refused: what is wrong, the input, what was printed without the table and with it."""
    data = _joined(source, lines)
    wrong, report, with_cells = outcome(run, data)
    return wrong or whole_problem(run, source, lines, report, with_cells), data, report + with_cells


def same_results(run, groups):
    """What came out of groups of inputs of which the same bytes must be printed."""
    for group in groups:
        inputs = [b"\n".join(lines) for lines in group]
        yield from given_results(run, inputs)
        first, *others = (run(data, CELLS) for data in inputs)
        for data, printed in zip(inputs[1:], others, strict=True):
            yield (None if printed == first else f"not as of another input with equal values: {first!r}"), data, printed


def given_results(run, inputs):
    """What came out of given inputs."""
    for data in inputs:
        wrong, report, with_cells = outcome(run, data)
        yield wrong, data, report + with_cells


class Runner:
    """Runs a program over an input, with words; under a sheet where one is given, named before or after other words."""

    def __init__(self, program, sheet=None, layout=0):
        self.program = program
        self.sheet = sheet
        self.lent = []
        self.runs = 0
        if sheet is not None:
            self.file = tempfile.NamedTemporaryFile(suffix=".sheet")  # there as long as this is
            self.file.write(sheets.text(sheet, layout))
            self.file.flush()
            self.lent = [SHEET, self.file.name]

    def under(self, sheet, layout=0):
        return Runner(self.program, sheet, layout)

    def _command(self, words):
        self.runs += 1
        return [self.program, *words, *self.lent] if self.runs % 4 < 2 else [self.program, *self.lent, *words]

    def __call__(self, data, *words):
        return subprocess.run(self._command(words), input=data, stdout=subprocess.PIPE, check=True).stdout

    def join(self, inputs, *words):
        """The same for the books of several files, joined; equal ones are one file, named as often."""
        with tempfile.TemporaryDirectory() as folder:
            paths = [Path(folder) / f"{inputs.index(data)}.book" for data in inputs]
            for path, data in zip(paths, inputs):
                path.write_bytes(data)
            command = [*self._command(words), JOIN, *paths]
            return subprocess.run(command, stdin=subprocess.DEVNULL, stdout=subprocess.PIPE, check=True).stdout


# ---- books that are joined (request L8)

MOST_LOANS, MOST_HELD = 1_000_000, 10**13


def groupings(join, three):
    """What `join` gives in each of the twelve groupings of three: in every order, with the first two joined first and with the last two (request L9)."""
    for a, b, c in itertools.permutations(three):
        yield join(join(a, b), c)
        yield join(a, join(b, c))


def header_of(found):
    """The header line of a book."""
    return book_header(found.loans, found.unscored, found.fresh, found.held)


def as_one(source, joined):
    """The lines of one book with the header of a joined one and the lines still standing in it: index lines first, each part in another order."""
    indexed, others = ([line for line, form in joined.standing if (form.kind == "index") == first] for first in (True, False))
    return [header_of(joined), *source.sample(indexed, len(indexed)), *source.sample(others, len(others))]


def join_outcome(run, inputs, source=random.Random(62)):
    """What is wrong with what is printed of several files, or None; what is printed without the table, and with it."""
    found = book.run_joined(inputs, run.sheet)
    report, with_cells = run.join(inputs), run.join(inputs, CELLS)
    wrong = problem(found, report) or cells_problem(found, report, with_cells)
    if wrong is None and not isinstance(found, tuple):
        data = _joined(source, as_one(source, found))
        if (run(data), run(data, CELLS)) != (report, with_cells):
            wrong = f"not as of one file: {data[:4000]!r}"
    return wrong, report, with_cells


def join_result(run, source, inputs):
    """What came out of several files."""
    wrong, report, with_cells = join_outcome(run, inputs, source)
    return wrong, b"\n--\n".join(inputs), report + with_cells


def counts_unscored(data):
    """Whether the header of an input counts loans without a score; one that is refused counts none."""
    form = forms.read_opening(book.split_lines(data)[0])
    return not isinstance(form, int) and form.values[1] > 0


def unscored_first(inputs):
    """Whether the inputs whose headers count loans without a score come before the others: where any order of them is joined, so is such an order."""
    counted = list(map(counts_unscored, inputs))
    return counted == sorted(counted, reverse=True)


def orders_problem(tried):
    """What is wrong with what was printed of the same files in several orders, each told as the inputs, the report and what is printed with the table; or None.

    Reports are the same bytes, and where there is one, the files are joined in each order in which those with unscored loans come first.
    """
    joined = {(report, with_cells) for _, report, with_cells in tried if sums_of(report)}
    if len(joined) > 1:
        return "another report or table in another order"
    if joined and any(unscored_first(inputs) and not sums_of(report) for inputs, report, _ in tried):
        return "refused with the files without unscored loans last, and joined in another order"
    return None


def order_results(run, source, orders):
    """What came out of the same files in several orders: of each, and of all of them together."""
    tried = []
    for inputs in orders:
        wrong, report, with_cells = join_outcome(run, inputs, source)
        tried.append((inputs, report, with_cells))
        yield wrong or orders_problem(tried), b"\n--\n".join(inputs), report + with_cells


def neutral_input(source, found):
    """The input of a book with an all-zero header, the index lines of a book in another order and no other line: joined with that book it changes nothing (request L9)."""
    indexed = book.lines_of_both(found, found)[0]
    return HEADER + b"\n".join(source.sample(indexed, len(indexed)))


def some_orders(source, inputs, sheet):
    """Some files and, of those that are not joined (16) each time, of others every other time, another list.

    It has them in any order, with those first whose headers count loans without a score, as always at 16, or with a neutral file among them where they are joined.
    """
    found = book.run_joined(inputs, sheet)
    refusal = found[0] if isinstance(found, tuple) else 0
    other, way = source.sample(inputs, len(inputs)), source.randrange(3)
    if refusal == 16 or way == 0:
        other.sort(key=counts_unscored, reverse=True)
    elif refusal == 0 and way == 1:
        other = list(inputs)
        other.insert(source.randrange(len(inputs) + 1), neutral_input(source, found))
    return [inputs, other] if refusal == 16 or source.randrange(2) else [inputs]


def _loans(loans, unscored, fresh):
    """So many loans, of which so many have no score and so many a fresh one; no two alike."""
    scores = [b"none"] * unscored + [b"720 12"] * fresh + [b"720 13"] * (loans - unscored - fresh)
    return [loan(9_000_000 + 1_000 * i, 10_000_000, score) for i, score in enumerate(scores)]


def _region(loans, unscored, fresh, held=0, lines=()):
    """The input of a book with such a header, loans that fit it and other lines before them."""
    return b"\n".join([book_header(loans, unscored, fresh, held), *lines, *_loans(loans, unscored, fresh)])


def _join_headers():
    """Headers of two to four files by their loans, unscored and fresh: each choice reached by one and lost by the sum, and the other way round."""
    yield from (
        ((10, 0, 9), (10, 0, 9)), ((10, 0, 9), (1, 0, 1)), ((10, 0, 10), (10, 0, 8)), ((10, 0, 9), (10, 0, 8)), ((1, 0, 1), (1, 0, 0)), ((9, 0, 9), (1, 0, 0)),  # the column
        ((10, 0, 8), (10, 0, 8)), ((1, 0, 0), (5, 0, 3)), ((11, 0, 10), (11, 0, 10), (11, 0, 9)),
        ((20, 1, 0), (20, 1, 0)), ((20, 1, 0), (19, 1, 0)), ((19, 1, 0), (19, 1, 0)), ((20, 1, 0), (1, 1, 0)), ((19, 1, 0), (1, 0, 0)), ((18, 1, 0), (1, 0, 0)),  # the factor
        ((1, 0, 0), (1, 1, 0)), ((19, 0, 0), (1, 1, 0)), ((40, 2, 0), (1, 0, 0)), ((40, 2, 0), (20, 2, 0)),
        ((20, 1, 19), (20, 1, 19)), ((20, 1, 19), (19, 1, 18)), ((10, 1, 9), (10, 1, 8)),  # both
        ((0, 0, 0), (1, 0, 0)), ((0, 0, 0), (1, 1, 0)), ((0, 0, 0), (0, 0, 0)), ((0, 0, 0), (10, 0, 9), (0, 0, 0), (10, 0, 9)),  # no loans: nothing is asked
        ((1, 0, 0), (19, 1, 0), (1, 1, 0)), ((19, 1, 0), (1, 1, 0), (1, 0, 0)), ((1, 1, 0), (1, 0, 0), (19, 1, 0)),  # another order
        ((1, 0, 0), (1, 0, 0), (1, 0, 1)), ((1, 0, 0), (1, 0, 0), (1, 0, 0), (1, 0, 1)), ((1, 0, 0), (1, 0, 0), (1, 0, 0), (1, 0, 0)),
    )


def _join_indexes():
    """Index lines of files: the same in any order, one set in one file alone, one value that differs, at both ends; withdrawn, and set again."""
    first, last = index(AREAS[0], FIRST, 7), index(AREAS[-1], DECEMBER, 9)
    every = [index(area, month, 7_000 + month % 100) for area in AREAS for month in (*INDEXED, DECEMBER)]
    a, to_a = mark(b"a"), back(b"a")
    yield from (
        ([first, last], [last, first]), ([first], []), ([], [last]), ([first, last], [first]), ([first], [first, last]), ([first], [last]),
        ([first], [index(AREAS[0], FIRST, 8)]), ([last], [index(AREAS[-1], DECEMBER, 8)]), ([first], [index(AREAS[0], FIRST + 1, 7)]), ([first], [index(AREAS[1], FIRST, 7)]),
        (every, every[::-1]), (every, [*every[:-1], index(AREAS[-1], DECEMBER, 1)]), (every, every[1:]), ([first], [first], []), ([first], [first], [first, last], [first]), ([], [], [], [first]),
        ([a, first, to_a], []), ([a, first, to_a], [first]), ([a, last, to_a, first], [first, a, last]), ([first, a, last, to_a], [a, last, to_a, first]),
    )


def _join_lines():
    """100,000 lines that are not loans, and one more, with ten index lines and with none; marks, returns, lines withdrawn and neutral files add none."""
    def lines(count, values=()):
        return HEADER + b"".join(values) + b"(b 1)\n" * count

    values = [index(b"quebec", month, month) + b"\n" for month in INDEXED[:10]]
    marked = HEADER + b"(mark a)\n" + b"(b 1)\n" * 7 + b"(back a)\n" * 9
    yield [lines(60_000, values), lines(39_990, values[::-1])]
    yield [lines(60_000, values), lines(39_991, values)]
    neutral = lines(0, values[::-1])
    yield [neutral, lines(60_000, values), neutral, lines(39_990, values), neutral]
    yield [lines(60_000), lines(40_000), marked]
    yield [lines(60_000), lines(40_000), marked + b"(b 1)\n"]


def join_inputs():
    """Files of books to be joined, as lists of inputs."""
    for headers in _join_headers():
        yield [_region(*header, held=10 * place) for place, header in enumerate(headers)]
    for indexes in _join_indexes():
        yield [_region(0, 0, 0, lines=lines) for lines in indexes]
    yield from _join_lines()
    # Held at its most, and one beyond it.
    for more in (0, 1):
        yield [_region(0, 0, 0, 6 * 10**12), _region(1, 0, 1, 4 * 10**12 + more)]
    yield [_region(0, 0, 0, 10**13), HEADER, _region(0, 0, 0, 1)]
    # What is rounded once: rest and moved of a fraction of a cent in each; every other kind of line.
    yield [HEADER + b"(claims 1)\n(policy (class home) (prem 1) (term 300) (done 5))\n"] * 4
    yield [HEADER + OTHER_KINDS] * 3
    # Each region's own home and admitted b and c are not those of all.
    yield [_region(2, 0, 2, 10**9), _region(2, 0, 2, 0, [b"(equity -100)", b"(b 70)"]), HEADER + b"(equity 150)\n(c 90)\n"]
    # Files that are refused: by a line, empty, short of a loan; what comes after them is not read, and 16 comes where it is met first.
    well, odd = _region(1, 0, 1), _region(0, 0, 0, lines=[index(b"quebec", FIRST, 7)])
    for wrong in (b"", b"x\n", HEADER + b"(b 1)\nx\n", HEADER[:-1] + b"\n" + LOAN, _header(1), _header(2) + LOAN, HEADER + b"(back a)\n", b"\n"):
        yield from ([wrong], [wrong, well], [well, wrong], [well, wrong, odd], [well, well, wrong], [well, odd, wrong], [wrong, b"y\n"])
    # One file; a book with itself; last lines without a newline.
    yield from ([well], [well + b"\n"], [odd], [well, well], [odd, odd, odd], [well, well + b"\n", well])


def _three_regions():
    """Files of three regions that are joined in every order: loans of every kind, one in each by the index, index lines in other orders, fractions of a cent, a mark and a return."""
    own, december = index(b"toronto", 201003, 9_000), index(b"toronto", DECEMBER, 15_000)
    parts = [b"(claims 1)", b"(policy (class home) (prem 10) (term 300) (done 5))"]
    withdrawn = [mark(b"a"), b"(claims 1001)", back(b"a"), mark(b"b")]
    regions = (2, 1, 0, 700, [own, december, *parts]), (2, 0, 1, 30, [december, *withdrawn, own, *parts]), (3, 1, 1, 1, [own, *parts, december])
    return [_region(*region).replace(KEPT, made(201003, b"toronto"), 1) for region in regions]


def fixed_orders(source):
    """Fixed files in several orders, of which the same report is printed wherever one is."""
    regions = _three_regions()
    # In every order: files that are always joined, and files that are not where the first two stand first (16 at the second).
    for inputs in (regions, [_region(1, 0, 0), _region(19, 1, 0), _region(1, 1, 0)]):
        yield list(itertools.permutations(inputs))
    # With a neutral file in each place, and with two.
    neutral = neutral_input(source, book.run(regions[0]))
    yield [regions, *([*regions[:place], neutral, *regions[place:]] for place in range(4)), [neutral, *regions, neutral]]
    yield from ([regions[:1], [neutral, regions[0]], [regions[0], neutral]], [[neutral], [neutral] * 2, [neutral] * 3])


Region = collections.namedtuple("Region", "lines sheet")  # the lines of a book, the header first, and its sheet or None


def opened(found):
    """The book of a region with all its lines taken."""
    taken = book.open_book(found.lines[0], found.sheet)
    refused = [line for line in found.lines[1:] if taken.feed(line)]
    assert not refused
    return taken


def _fitting_counts(source, total):
    """Counts of a header that keeps the choices of the books joined so far, and its own, where some are found soon."""
    before = book.Book(total.loans, total.unscored, total.fresh, 0)
    for _ in range(30):
        counts = random_counts(source)
        if not book.wanting(before, book.Book(*counts, 0)):
            break
    return counts


def _parted_counts(source):
    """Counts of three headers, in any order, that are joined in some groupings and not in others: one takes another to 5% unscored or less, but not where the third is with either."""
    scored, unscored = source.randrange(1, 19), source.randrange(1, 4)
    return source.sample([(scored, 0, 0), (20 * unscored - source.randrange(1, scored + 1), unscored, 0), (1, 1, 0)], 3)


def _with_held(lines, most):
    """The lines of a book with no more held than this."""
    *counts, held = forms.read_opening(lines[0]).values
    return [book_header(*counts, min(held, most)), *lines[1:]]


def _other_sheet(source, _, found):
    """Another sheet, by one number where that keeps the rules; a copy of the built-in table is none."""
    numbers = found.sheet or sheets.BUILT_IN
    place = source.choice((0, len(numbers) - 1, source.randrange(len(numbers))))
    changed = [sheets.changed(numbers, place, numbers[place] + step) for step in (1, -1)]
    kept = [sheet for sheet in changed if not sheets.broken(sheet)]
    return Region(found.lines, source.choice((*kept, sheets.BUILT_IN if found.sheet is None else sheets.kept(source))))


def _other_index(source, _, found):
    """Another value, one fewer where no loan needs it, or one more; the lines are taken all the same."""
    lines = list(found.lines)
    at = {forms.read_feeding(line).values[:2]: i for i, line in enumerate(lines) if line.startswith(b"(index ")}
    needed = {place for form in opened(found).loan_forms() for place in house_index.needed(book.loan_values(form))}
    free = sorted(at.keys() - needed)
    kind, more = source.randrange(3), random_place(source)
    if at and kind == 0:
        place = source.choice(sorted(at))
        lines[at[place]] = index(*place, source.randrange(1, 1_000_001))
    elif free and kind == 1:
        del lines[at[source.choice(free)]]
    elif more not in at:
        lines.insert(1, index(*more, 7))
    return Region(lines, found.sheet)


def _loans_at_limit(source, total, found):
    """A header, without its loans, that brings those of all to their limit, or one beyond."""
    loans = MOST_LOANS - total.loans + source.randrange(2)
    if loans > MOST_LOANS:
        return found
    indexed = [line for line in found.lines if line.startswith(b"(index ")]
    return Region([book_header(loans, 0, 0 if total.aged else loans), *indexed], found.sheet)


def _held_at_limit(source, total, found):
    """As much held as brings that of all to its limit, or one beyond."""
    *counts, _ = forms.read_opening(found.lines[0]).values
    held = min(MOST_HELD - total.held + source.randrange(2), MOST_HELD)
    return Region([book_header(*counts, held), *found.lines[1:]], found.sheet)


# How a region is changed so that a condition may be wanting: in calls; and in files, all of which have their loans, under the one sheet that the program is lent.
IN_CALLS = (_other_sheet, _other_index, _loans_at_limit, _held_at_limit)
IN_FILES = (_other_index, _held_at_limit)


def regions(source, count, ways=IN_CALLS):
    """So many books with the same index lines, under one sheet or none; each but the first mostly joins with those before it that joined. Some three join in some groupings alone."""
    places, values = random_index(source)
    sheet = sheets.kept(source) if _other_sheet in ways and source.randrange(2) else None
    parted = _parted_counts(source) if count > 2 and source.randrange(5) == 0 else []
    found = [Region(region(source, parted.pop() if parted else random_counts(source), places, values), sheet)]
    total = opened(found[0])
    while len(found) < count:
        counts = parted.pop() if parted else random_counts(source) if source.randrange(3) == 0 else _fitting_counts(source, total)
        one = Region(_with_held(region(source, counts, places, values), MOST_HELD - total.held), sheet)
        way = source.randrange(10)
        if way < len(ways):
            one = ways[way](source, total, one)
        found.append(one)
        refusal, joined = book.join(total, opened(one))
        total = total if refusal else joined
    return found


def region_files(source, harm=False):
    """Two to four files of regions, each as its lines: half of them by way of marks and returns, and one damaged where that is asked."""
    files = [found.lines for found in regions(source, source.randrange(2, 5), IN_FILES)]
    harmed = source.randrange(len(files)) if harm else None
    for place, lines in enumerate(files):
        if place == harmed:
            files[place] = damaged(source, lines)
        elif source.randrange(2):
            files[place] = by_marks(source, lines)
    return files


def join_results(run, seed, count):
    """What came out of so many lists of generated files, half of them also in another order: in one of eight a file is damaged; a third under a sheet."""
    source = random.Random(seed)
    for i in range(count):
        files = region_files(source, i % 8 == 7)
        lending = _lent(run, source, i % 6 == 2) if i % 3 == 2 else run
        orders = some_orders(source, [_joined(source, lines) for lines in files], lending.sheet)
        yield from order_results(lending, source, orders)


def fixed_join_results(run):
    """What came out of the fixed files."""
    source = random.Random(61)
    yield from (join_result(run, source, inputs) for inputs in join_inputs())
    for lending in (run, run.under(sheets.DISTINCT)):
        for orders in fixed_orders(source):
            yield from order_results(lending, source, orders)
    # Under a sheet, and under one that breaks a rule.
    inputs = [_region(10, 0, 9), _region(10, 0, 9, 7)]
    yield from (join_result(run.under(sheet), source, inputs) for sheet in (sheets.DISTINCT, sheets.BUILT_IN, sheets.OUTSIDE[0]))
    yield from most_loans(run)


def most_loans(run):
    """What came out of a million loans in two files, and of one more: as many times the one loan's numbers, or 16, as the reference has it for the headers alone."""
    of_one = sums_of(run(_header(1) + SMALL_LOAN))
    half = MOST_LOANS // 2
    for counts in ((half, half), (half, half + 1)):
        refusal, joined = book.join(*(book.open_book(_header(count)[:-1]) for count in counts))
        printed = run.join([_header(count) + SMALL_LOAN * count for count in counts])
        if refusal:
            wrong = problem((refusal, 2), printed)
        else:
            well = sums_of(printed) == tuple(joined.loans * number for number in of_one) and counts_of(printed)[0] == joined.loans
            wrong = None if well else f"not {joined.loans} times one loan"
        yield wrong, b"".join(map(_header, counts)), printed


def join_files(program):
    """What came out of the word `join` without a file, and of files that cannot be read: a sentence, and nothing printed."""
    with tempfile.TemporaryDirectory() as folder:
        well, none = Path(folder) / "a book", Path(folder) / "none"
        well.write_bytes(HEADER)
        for words in ([JOIN], [CELLS, JOIN], [JOIN, none], [JOIN, well, none], [JOIN, none, well], [JOIN, folder], [JOIN, well, folder], [JOIN, well, "/proc/self/mem"], [JOIN, ""],
                      [JOIN, well, CELLS], [JOIN, JOIN], ["x", JOIN, well], [CELLS, CELLS, JOIN, well], [SHEET, JOIN, well], ["--join", well], ["Join", well], ["joins", well]):
            done = subprocess.run([Path(program).resolve(), *words], input=HEADER, capture_output=True, cwd=folder, check=False)
            wrong = None if done.stdout == b"" and done.stderr.endswith(b"\n") else f"with {words} {done.stderr!r} on standard error"
            yield wrong, HEADER, done.stdout


def stopped(command, data=HEADER + b"x\n", sheet=None):
    """What came out where the input goes on after a refusal: nothing more of it is waited for."""
    with subprocess.Popen(command, stdin=subprocess.PIPE, stdout=subprocess.PIPE) as process:
        process.stdin.write(data)
        process.stdin.flush()
        try:
            process.wait(timeout=30)
        except subprocess.TimeoutExpired:
            process.kill()
            return "more input is waited for after a refusal", data, b""
        printed = process.stdout.read()
    return problem(book.run(data, sheet), printed), data, printed


def broken_read(command):
    """What came out where a read fails after a whole book: it is not taken for the end, and nothing is printed."""
    data = HEADER + OTHER_KINDS
    ours, theirs = socket.socketpair()
    with ours, theirs:
        ours.send(data)
        theirs.send(b"x")
        ours.close()  # with a byte unread: the other side reads the data, then gets an error
        done = subprocess.run(command, stdin=theirs, stdout=subprocess.PIPE, stderr=subprocess.PIPE, check=False)
    wrong = None if done.stdout == b"" and b"reading" in done.stderr else f"a failed read: {done.stderr!r} on standard error"
    return wrong, data, done.stdout


def broken_write(command):
    """What came out where the report cannot be written: it is said on standard error."""
    data = HEADER + OTHER_KINDS
    with open("/dev/full", "wb") as full:
        done = subprocess.run(command, input=data, stdout=full, stderr=subprocess.PIPE, check=False)
    wrong = None if b"writing" in done.stderr else f"a failed write: {done.stderr!r} on standard error"
    return wrong, data, b""


# Words that the program does not know.
OTHER_WORDS = (
    ("",), ("cell",), ("cellss",), ("Cells",), ("--cells",), ("celle",), ("cells\n",), (CELLS, CELLS), (CELLS, ""), ("x", CELLS),
    (SHEET,), (CELLS, SHEET), (SHEET, ""), (SHEET, "", CELLS),
)


def other_words(program, word, name):
    """What came out where the program is given other words: a sentence, and no report. The sheet of this name is one."""
    named = (
        ("sheets", name), ("Sheet", name), ("--sheet", name), (name,), (CELLS, name), (name, SHEET), (word, name, word, name), (word, name, word),
        (word, name, name), (word, name, "x"), (word, name, ""), ("x", word, name), (CELLS, word, name, CELLS), (word, name, CELLS, CELLS),
        (word, CELLS, name), (word, name + "x"),
    )
    for words in OTHER_WORDS + named:
        done = subprocess.run([program, *words], input=HEADER, capture_output=True, check=False)
        wrong = None if done.stdout == b"" and done.stderr.endswith(b"\n") else f"with {words} {done.stderr!r} on standard error"
        yield wrong, HEADER, done.stdout


# Files that are no list of numbers, and files that are, with how many numbers they have. A file may have 65,536 bytes.
NO_LISTS = (
    b"x", b" ", b"\n", b" 1", b"1  2", b"1 \n2", b"1\n\n2", b"1\n\n", b"1\t2", b"1,2", b"1.25", b"01", b"00", b"+1", b"-1", b"1e2", b"0x1",
    b"123456789012345", b"1\r\n2\r\n", b"1\0", b"\xef\xbb\xbf1", "１".encode(), b"1 " * 32_768 + b"1", b"1 " * 32_767 + b"x", b"9" * 70_000,
    sheets.text(sheets.EQUAL) + b"x", sheets.text(sheets.EQUAL) + b"\n", b"\n" + sheets.text(sheets.EQUAL),
)
LISTS = {
    b"": 0, b"0": 1, b"1\n": 1, b"99999999999999 ": 1, b"1 2\n3 ": 3, b"1 " * 32_767 + b"1": 32_768, b"1 " * 32_768: 32_768,
    sheets.text(sheets.EQUAL, 1) + b" 0": 67, sheets.text(sheets.EQUAL, 1) + b" ": 66,
}


def _sheet_file_problem(done, count):
    """What is wrong with a run under a file of so many numbers, or under one that is no sheet at all (None); or None."""
    if count is None:
        return None if done.stdout == b"" and done.stderr.endswith(b"\n") else f"{done.stderr!r} on standard error"
    return problem(book.run(HEADER, (100,) * count), done.stdout) or (f"{done.stderr!r} on standard error" if done.stderr else None)


def sheet_files(program):
    """What came out of files that are no sheet: a sentence, and nothing printed; and of lists of other lengths and layouts."""
    with tempfile.TemporaryDirectory() as folder:
        path = Path(folder) / "a sheet"
        written = [(path, text, LISTS.get(text)) for text in (*NO_LISTS, *LISTS)]
        for file, text, count in [(path, None, None), (folder, None, None), ("/proc/self/mem", None, None), *written]:
            if text is not None:
                path.write_bytes(text)
            done = subprocess.run([program, SHEET, file], input=HEADER, capture_output=True, check=False)
            wrong = _sheet_file_problem(done, count)
            yield wrong and f"with the sheet {file} {text and text[:40]!r}: {wrong}", HEADER, done.stdout


def single_results(program):
    """What came out of runs that are no books."""
    kept, refused = (Runner(program, sheet) for sheet in (sheets.DISTINCT, sheets.OUTSIDE[0]))
    for words in ([], [CELLS], kept.lent, [CELLS, *kept.lent], [*kept.lent, CELLS]):
        for check in (stopped, broken_read, broken_write):
            yield check([program, *words])
    # With 10 no line after the header is waited for.
    yield stopped([program, *refused.lent], HEADER, refused.sheet)
    yield from other_words(program, *kept.lent)
    yield from sheet_files(program)
    yield from join_files(program)


def _lent(run, source, well):
    """The program under a random sheet: one that keeps the rules, or any."""
    sheet = sheets.kept(source) if well or source.randrange(2) else sheets.not_kept(source)
    return run.under(sheet, source.randrange(sheets.LAYOUTS))


def results(run, seed, count):
    """What came out of so many generated books: half of them damaged, a third under a sheet."""
    source = random.Random(seed)
    for i in range(count):
        lines = whole_book(source)
        whole = i % 2 == 0
        lending = _lent(run, source, whole) if i % 3 == 2 else run
        if whole:
            yield whole_result(lending, source, lines)
        else:
            tried = lines if lending is not run and source.randrange(2) else damaged(source, lines)
            yield from given_results(lending, [_joined(source, tried)])


def fixed_results(run):
    """What came out of the fixed books."""
    source = random.Random(60)
    yield from given_results(run, FIXED)
    yield from (whole_result(run, source, lines) for lines in (*farthest_books(), *_cell_books()))
    yield from (whole_result(run, source, lines) for lines in _index_books())
    yield from (whole_result(run, source, lines) for lines in (*_table_books(), *_fresh_books()))
    yield from given_results(run, (_joined(source, lines) for lines in (*_index_inputs(), *_fresh_inputs())))
    yield from given_results(run, (_joined(source, lines) for lines in _mark_inputs()))
    yield many_lines(run)
    yield from same_results(run, itertools.chain(_same_prints(), _mark_groups()))
    yield from (whole_result(run.under(sheet), source, lines) for lines, sheet in _sheet_books())
    for data, sheet in _sheet_inputs():
        yield from given_results(run.under(sheet), [data])


def failure(wrong, data, printed):
    return f"FAILED: {wrong}\n  input {data[:400]!r}\n  printed {printed[:400]!r}"


def main():
    parser = argparse.ArgumentParser(description=__doc__)
    parser.add_argument("program", help="the built program")
    parser.add_argument("--count", type=int, default=200, help="how many generated books, half of them damaged")
    parser.add_argument("--seed", type=int, default=1)
    parser.add_argument("--book", type=Path, help="the book of this file and no other")
    options = parser.parse_args()
    run = Runner(options.program)
    if options.book:
        tried = given_results(run, [options.book.read_bytes()])
    else:
        tried = itertools.chain(
            single_results(options.program), fixed_results(run), results(run, options.seed, options.count),
            fixed_join_results(run), join_results(run, options.seed, options.count // 4),
        )
    passed = failed = 0
    for result in tried:
        if result[0] is None:
            passed += 1
        else:
            failed += 1
            print(failure(*result))
    print(f"{passed} passed, {failed} failed")
    sys.exit(1 if failed else 0)


if __name__ == "__main__":
    main()
