"""The book of document 01: opening, feeding, closing, the report, the exact requirement, and the joining of two books (request L8).

It keeps the list of lines still standing. A mark notes that list under its name, and a return takes a noted list up again (request L6): nothing
else is kept of the book at a mark, and counts and index values are found anew from the list. A joined book is one book fed the lines standing in
both: nothing is added up but the headers.

A loan's two numbers are free within a distance, so the report is computed from given sums of them,
and `sum_bounds` tells which sums are allowed.
"""
from collections import namedtuple
from fractions import Fraction
from functools import lru_cache
from math import ceil, floor

from . import forms, house_index, loan, sheet as sheets
from .exponential import combination_bounds

OTHER_LINES = 100_000
MARKS = 8
REPORT_BUFFER = 512

# 002, 4.2.1.1: add-ons for a residual maturity of one year or less, to five years, over five years.
ADD_ONS = {
    b"rate": ("0.0", "0.5", "1.5"),
    b"float": ("0", "0", "0"),  # note 5: no potential exposure
    b"fx": ("1.0", "5.0", "7.5"),
    b"equity": ("6.0", "8.0", "10.0"),
    b"metal": ("7.0", "7.0", "8.0"),
    b"other": ("10.0", "12.0", "15.0"),
}

# 002, 3.3: per cent of the single premium; rows by completed years from 1, a blank cell is None.
PROVISIONS = (
    ("2.0", "3.0", "4.0", "4.0"),
    ("1.0", "2.0", "4.0", "4.0"),
    ("0.5", "1.0", "3.5", "4.0"),
    (None, "1.0", "3.0", "5.5"),
    (None, "0.5", "3.0", "6.0"),
    (None, "0.5", "2.0", "5.0"),
    (None, "0.0", "1.0", "3.5"),
    (None, None, "1.0", "2.0"),
    (None, None, "1.0", "1.5"),
    (None, None, "1.0", "1.5"),
    (None, None, "0.0", "1.0"),
    (None, None, None, "1.0"),
    (None, None, None, "0.5"),
    (None, None, None, "0.5"),
    (None, None, None, "0.5"),
    (None, None, None, "0.5"),
    (None, None, None, "0.5"),
    (None, None, None, "0.5"),
    (None, None, None, "0.5"),
    (None, None, None, "0.0"),
)
TERM_LIMITS = (60, 120, 180)


def _column(x, limits):
    return sum(1 for limit in limits if x > limit)


def add_on(kind, months):
    return Fraction(ADD_ONS[kind][_column(months, (12, 60))]) / 100


def derivative(kind, cost, notional, months, pays, factor):
    return (max(cost, 0) + notional * add_on(kind, months) * pays) * Fraction(factor, 10_000)


def provision(premium, term, done):
    """002, 3.3; 20 completed years and more are the last row."""
    if done == 0:
        return Fraction(0)
    cell = PROVISIONS[min(done, len(PROVISIONS)) - 1][_column(term, TERM_LIMITS)]
    return Fraction(0) if cell is None else premium * Fraction(cell) / 100


def rest_share(form):
    """What a line that is not a loan adds to the exact sum of `rest`; of index lines nothing."""
    kind, v = form
    if kind == "asset":
        return v[0] * Fraction(v[1], 10_000)
    if kind == "claims":
        return v[0] * Fraction(20, 100)
    if kind == "lossc":
        return v[0] * Fraction(40, 100)
    if kind == "stated":
        return Fraction(v[0])
    if kind == "deriv":
        return derivative(*v)
    if kind == "policy" and v[0] == b"multi":
        return Fraction(5, 4) * provision(*v[1:])
    return Fraction(0)


def moved_share(form):
    kind, v = form
    return provision(*v[1:]) if kind == "policy" and v[0] == b"home" else Fraction(0)


def admitted(equity, b, c):
    """Document 01, capital: the admitted amounts of b and of c."""
    e = max(equity, 0)
    two_thirds = floor(Fraction(2 * e, 3))
    admitted_b = min(b, two_thirds)
    admitted_c = min(c, two_thirds - admitted_b, floor(Fraction(7 * (e + admitted_b), 93)))
    return admitted_b, admitted_c


def ratio(capital, required):
    """In hundredths of a per cent, or None where nothing is required."""
    if required == 0:
        return None
    return max(-10_000_000, min(10_000_000, floor(Fraction(capital * 15_000, required))))


def is_loan(form):
    return form.kind in ("loan", "loan_unscored")


Loan = namedtuple("Loan", "balance value months term score sup since area")  # score is None or (number, age)


def loan_values(form):
    """What a loan's line says."""
    v = form.values
    score, after = ((v[4], v[5]), v[6:]) if form.kind == "loan" else (None, v[4:])
    return Loan(*v[:4], score, *after)


@lru_cache(maxsize=1 << 12)
def _exact_terms(balance, value, months, term, sup, m):
    """The exact base plus supplement, and the exact supplement, of a loan with this credit factor."""
    z = loan.scaled_value(value, balance)
    return loan.total(z, balance, months, term, sup, m), loan.supplement(z, balance, months, term, sup, m)


@lru_cache(maxsize=1 << 12)
def _exact_bounds(*values):
    """The bounds of both."""
    return tuple(map(combination_bounds, _exact_terms(*values)))


@lru_cache(maxsize=1 << 12)
def _allowed_numbers(values):
    """The least and greatest allowed total number of a loan, and supplement number."""
    total, supplement = _exact_terms(*values)
    return loan.allowed_total(total) + loan.allowed_supplement(supplement)


class Book:
    """The header's values, the sheet of credit factors where one is lent, the lines still standing, each with its form, and the marks that are kept."""

    def __init__(self, loans, unscored, fresh, held, sheet=None):
        self.loans = loans
        self.unscored = unscored
        self.fresh = fresh
        self.aged = loan.on_aged_table(loans, fresh)
        self.held = held
        self.sheet = None if sheet is None else tuple(sheet)
        self.marks = {}  # the lists of lines that were noted, by name, in the order in which the marks were set
        self._take_up([])

    def _take_up(self, standing):
        """Makes these the lines still standing, and counts them."""
        self.standing = []
        self.loan_count = 0
        self.unscored_count = 0
        self.fresh_count = 0
        self.other_count = 0
        self.index = {}  # by area and month
        for line, form in standing:
            self._add(line, form)

    def _add(self, line, form):
        """Adds a line at the end of those still standing."""
        self.loan_count += is_loan(form)
        self.unscored_count += form.kind == "loan_unscored"
        self.fresh_count += is_loan(form) and loan.is_fresh(loan_values(form).score)
        self.other_count += not is_loan(form)
        if form.kind == "index":
            self.index[form.values[:2]] = form.values[2]
        self.standing.append((line, form))

    def _loan_refusal(self, form):
        said = loan_values(form)
        no_place = said.score is None and self.unscored_count == self.unscored
        no_place |= loan.is_fresh(said.score) and self.fresh_count == self.fresh
        if no_place or self.loan_count == self.loans:
            return 5
        return 12 if house_index.missing(said, self.index) else 0

    def _other_refusal(self, form):
        if self.other_count == OTHER_LINES:
            return 8
        return 11 if form.kind == "index" and form.values[:2] in self.index else 0

    def _mark_refusal(self, name):
        if name in self.marks:
            return 13
        return 14 if len(self.marks) == MARKS else 0

    def _refusal(self, form):
        """Of what was read of a line: a form, or a number where it is refused for itself."""
        if isinstance(form, int):
            return form
        if form.kind == "mark":
            return self._mark_refusal(*form.values)
        if form.kind == "back":
            return 0 if form.values[0] in self.marks else 15
        return self._loan_refusal(form) if is_loan(form) else self._other_refusal(form)

    def refusal(self, line):
        """0 where the book as it stands would take the line, else its refusal."""
        return self._refusal(forms.read_feeding(line))

    def _return_to(self, name):
        """Takes up the lines noted under a mark again, and drops the marks that were set after it."""
        names = list(self.marks)
        for later in names[names.index(name) + 1 :]:
            del self.marks[later]
        self._take_up(self.marks[name])

    def feed(self, line):
        """0 where the line is taken, else its refusal."""
        form = forms.read_feeding(line)
        refusal = self._refusal(form)
        if refusal:
            return refusal
        if form.kind == "mark":
            self.marks[form.values[0]] = list(self.standing)
        elif form.kind == "back":
            self._return_to(form.values[0])
        else:
            self._add(line, form)
        return 0

    def copy(self):
        """A book of its own with the same lines standing, and no marks."""
        other = Book(self.loans, self.unscored, self.fresh, self.held, self.sheet)
        other._take_up(self.standing)
        return other

    @property
    def taken(self):
        """The forms of the lines still standing."""
        return [form for _, form in self.standing]

    def standing_lines(self):
        """The lines still standing, as they were written."""
        return [line for line, _ in self.standing]

    def closing_refusal(self, buffer=REPORT_BUFFER, least=REPORT_BUFFER):
        """0 where a text that asks for so many bytes at least can be written into such a buffer, else the refusal."""
        if self.loan_count < self.loans or self.unscored_count < self.unscored or self.fresh_count < self.fresh:
            return 6
        return 9 if buffer < least else 0

    def property_value(self, form):
        """The value of a loan taken, as the index has it."""
        return house_index.property_value(loan_values(form), self.index)

    def loan_terms(self, form):
        """What a loan taken is charged on: balance, value, months, term, sup and its credit factor."""
        said = loan_values(form)
        m = loan.credit_factor(said.score, self.aged, self.loans, self.unscored, self.sheet)
        return said.balance, self.property_value(form), said.months, said.term, said.sup, m

    def loan_forms(self):
        """The forms of the loans taken."""
        return [form for form in self.taken if is_loan(form)]

    def number_bounds(self, form):
        """The least and greatest allowed total number of a loan taken, and supplement number."""
        return _allowed_numbers(self.loan_terms(form))

    def sum_bounds(self):
        """The least and greatest allowed sum of the loans' total numbers, and of their supplements."""
        sums = [0, 0, 0, 0]
        for form in self.loan_forms():
            sums = [s + x for s, x in zip(sums, self.number_bounds(form))]
        return tuple(sums)

    def sums(self, kind):
        return sum(f.values[0] for f in self.taken if f.kind == kind)

    def figures(self, total, supplement):
        """The report's numbers from the two sums of the loans' numbers."""
        rest = ceil(sum(map(rest_share, self.taken), Fraction(0)))
        moved = ceil(sum(map(moved_share, self.taken), Fraction(0)))
        home = max(total - self.held, 0)
        oper = ceil(Fraction(max(home + rest - supplement, 0), 5))
        required = home + rest + oper
        equity, aoci, b, c = map(self.sums, ("equity", "aoci", "b", "c"))
        capital = equity + aoci + sum(admitted(equity, b, c))
        return (
            ("loans", self.loan_count),
            ("total", total),
            ("supplement", supplement),
            ("home", home),
            ("moved", moved),
            ("rest", rest),
            ("oper", oper),
            ("required", required),
            ("capital", capital),
            ("ratio", ratio(capital, required)),
        )

    def report(self, total, supplement):
        return b"".join(
            b"(%s %s)\n" % (name.encode(), b"none" if value is None else str(value).encode())
            for name, value in self.figures(total, supplement)
        )

    def exact_requirement(self):
        """Bounds of the exact requirement: no rounding, each loan with its exact amounts."""
        rest = sum(map(rest_share, self.taken), Fraction(0))
        ends = []
        totals, supplements = [], []
        for form in self.loan_forms():
            total, supplement = _exact_bounds(*self.loan_terms(form))
            totals.append(total)
            supplements.append(supplement)
        for side in (0, 1):
            # The requirement rises with the totals and falls with the supplements.
            total = sum((t[side] for t in totals), Fraction(0))
            supplement = sum((s[1 - side] for s in supplements), Fraction(0))
            home = max(total - self.held, Fraction(0))
            ends.append(home + rest + max(home + rest - supplement, Fraction(0)) / 5)
        return tuple(ends)


def open_book(line, sheet=None):
    """A book, or the number of the refusal: the header's, then 10 where a sheet is lent that breaks a rule."""
    form = forms.read_opening(line)
    if isinstance(form, int):
        return form
    if sheet is not None and sheets.broken(sheet):
        return 10
    return Book(*form.values, sheet)


def no_book():
    """What stands for a book after a refused opening: one of an all-zero header under the built-in table, with no line taken."""
    return Book(0, 0, 0, 0)


def _index_values(found):
    """The areas, months and values that the index lines still standing set."""
    return {form.values for form in found.taken if form.kind == "index"}


def _other_lines(*books):
    """How many lines still standing in the books are not loans, where the index lines of the first alone count."""
    count = sum(form.kind == "index" for form in books[0].taken)
    return count + sum(not is_loan(form) and form.kind != "index" for found in books for form in found.taken)


def _in_range(kind, place, number):
    """Whether the number at that place of a form lies in its range."""
    low, high = next(ranges for name, _, ranges in forms.FORMS if name == kind)[place]
    return low <= number <= high


def added_header(a, b):
    """Request L8: loans, unscored, fresh and held of the two headers, added."""
    return a.loans + b.loans, a.unscored + b.unscored, a.fresh + b.fresh, a.held + b.held


def _keeps_column(own, loans, fresh):
    return own.loans == 0 or loan.on_aged_table(own.loans, own.fresh) == loan.on_aged_table(loans, fresh)


def _keeps_factor(own, loans, unscored):
    """Whether the loans without a score have the same factor under both headers, where the book's own counts any."""
    if own.loans == 0 or own.unscored == 0:
        return True
    return loan.credit_factor(None, own.aged, own.loans, own.unscored) == loan.credit_factor(None, own.aged, loans, unscored)


# What two books must have to be joined (request L8), each by a name.
CONDITIONS = ("sheet", "index", "loans", "held", "lines", "column of the first", "column of the second", "factor of the first", "factor of the second")


def wanting(a, b):
    """The names of the conditions that are wanting for two books to be joined."""
    loans, unscored, fresh, held = added_header(a, b)
    kept = (
        (a.sheet or sheets.BUILT_IN) == (b.sheet or sheets.BUILT_IN),
        _index_values(a) == _index_values(b),
        _in_range("book", 0, loans),
        _in_range("book", 3, held),
        _other_lines(a, b) <= OTHER_LINES,
        *(_keeps_column(own, loans, fresh) for own in (a, b)),
        *(_keeps_factor(own, loans, unscored) for own in (a, b)),
    )
    return [name for name, holds in zip(CONDITIONS, kept, strict=True) if not holds]


def lines_of_both(a, b):
    """The lines still standing in two books: the index lines, which count once, and the others."""
    indexed = [line for line, form in a.standing if form.kind == "index"]
    return indexed, [line for found in (a, b) for line, form in found.standing if form.kind != "index"]


def join(a, b):
    """0 and the joined book, or 16 and the value of a refused opening; both books stay as they are.

    The joined book is one with the added header that was fed the lines still standing in both, index lines once and first.
    """
    if wanting(a, b):
        return 16, no_book()
    joined = Book(*added_header(a, b), a.sheet)
    for lines in lines_of_both(a, b):
        refused = [line for line in lines if joined.feed(line)]
        assert not refused, "a joined book takes every line"
    return 0, joined


def split_lines(data):
    """A line ends at a newline or at the end of the input; a newline at the very end begins no further line."""
    lines = data.split(b"\n")
    if len(lines) > 1 and lines[-1] == b"":
        lines.pop()
    return lines


def run(data, sheet=None):
    """The open book after a whole input, or (refusal, line number)."""
    lines = split_lines(data)
    book = open_book(lines[0], sheet)
    if isinstance(book, int):
        return book, 1
    for number, line in enumerate(lines[1:], 2):
        refusal = book.feed(line)
        if refusal:
            return refusal, number
    refusal = book.closing_refusal()
    return (refusal, len(lines) + 1) if refusal else book


def run_joined(inputs, sheet=None):
    """The book of several inputs joined from the first on; or the refusal of the first that is refused, with its line; or 16 and the number of the one that cannot be joined."""
    joined = None
    for number, data in enumerate(inputs, 1):
        found = run(data, sheet)
        if isinstance(found, tuple):
            return found
        refusal, joined = (0, found) if joined is None else join(joined, found)
        if refusal:
            return refusal, number
    return joined
