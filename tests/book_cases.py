#!/usr/bin/env python3
"""Lists of calls for `try_book`: opening, feeding and closing, also after refusals and into buffers of several sizes.

A call is one line: `o` and a header line, `f` and a line (a mark or a return too), `c` or `t` and the size of the buffer that is lent for the report or for
the table. Its answer is its letter and the refusal, 0 for none; a closing tells the length too, and then all bytes of the buffer
of which the lent one is the start, 640 or 8,320, `.` where nothing was written. `n` and numbers set the sheet of credit factors that
`s` and a header line lends; its answer is how many were read, 67 for more, or `bad` for what is no list of numbers, and then the sheet is empty,
as it is at first. `k` keeps a copy of the book, without its marks, and answers nothing; `j` joins the copy, at first that of a refused opening, and the book, which becomes
what joining gave. `x` exchanges the book and the copy and answers nothing: the book then has no marks.

The stored lists hold only loans whose two numbers the reference leaves no choice, so that it knows every byte of the answers.
Further lists (--run) hold any loans: by turns the same lines in two orders, and left standing by way of marks and returns, with refused lines between,
and regions that are joined, beside one book with the lines of both, some also with a neutral book or in another grouping; half of them under a sheet.
Their reports and tables are compared with the reference, and byte for byte with each other.
"""
import random
import re

import book_runs
import line_cases
import sheets
import stored
from reference import book, cells
from reference.forms import AREAS
from reference.house_index import DECEMBER, FIRST
from reference.sheet import LENGTH

# Of each closing the bytes that it asks for, the buffer of which a part is lent, and the sizes that are tried.
LEAST = {b"c": book.REPORT_BUFFER, b"t": cells.BUFFER}
BUFFERS = {b"c": 640, b"t": 8_320}
INPUT = 327_680  # bytes that the program reads
SIZES = {kind: (0, least - 1, least, least + 1, BUFFERS[kind]) for kind, least in LEAST.items()}


def _certain_report(found):
    """The report of a book whose loans have only one allowed number each."""
    total, greatest, supplement, greatest_supplement = found.sum_bounds()
    assert (total, supplement) == (greatest, greatest_supplement)
    return found.report(total, supplement)


def _certain_table(found):
    """The table of such a book."""
    least, greatest = zip(*cells.charge_bounds(found))
    assert least == greatest
    return cells.text(found, least)


CLOSED = [b"c%d" % LEAST[b"c"], b"t%d" % LEAST[b"t"]]  # for the report and for the table
CERTAIN = {b"c": _certain_report, b"t": _certain_table}


def _closing(found, kind, size, text):
    """What a closing answers: the book as it is found, the call's letter and size, what gives the text."""
    refusal = found.closing_refusal(min(size, BUFFERS[kind]), LEAST[kind])
    written = b"" if refusal else text(found)
    return b"%s %d %d\n%s\n" % (kind, refusal, len(written), written.ljust(BUFFERS[kind], b"."))


NUMBER = rb"(?:0|[1-9][0-9]{0,13})"


def _sheet_read(text):
    """The numbers that are read of a call's text, one more than a sheet has at most; or None where it is no list of numbers."""
    if not re.fullmatch(rb"(?:%s(?: %s)*)?" % (NUMBER, NUMBER), text):
        return None
    return [int(number) for number in text.split()][: LENGTH + 1]


class Program:
    """What the program keeps between calls: the book, a copy of one, and the sheet that is lent."""

    def __init__(self):
        self.book, self.kept, self.sheet = book.no_book(), book.no_book(), []

    def _lend(self, text):
        read = _sheet_read(text)
        self.sheet = read or []
        return b"n bad\n" if read is None else b"n %d\n" % len(read)

    def _open(self, line, *lent):
        opened = book.open_book(line, *lent)
        refused = isinstance(opened, int)
        self.book = book.no_book() if refused else opened
        return opened if refused else 0

    def _join(self):
        refusal, self.book = book.join(self.kept, self.book)
        return refusal

    def answer(self, call, texts=CERTAIN):
        """What a call answers; `texts` gives the report and the table of a book that is closed."""
        kind, rest = call[:1], call[1:]
        if kind == b"k":
            self.kept = self.book.copy()
            return b""
        if kind == b"x":
            self.book, self.kept = self.kept, self.book.copy()
            return b""
        if kind == b"n":
            return self._lend(rest)
        if kind in SIZES:
            return _closing(self.book, kind, int(rest), texts[kind])
        refusals = {b"o": lambda: self._open(rest), b"s": lambda: self._open(rest, self.sheet), b"f": lambda: self.book.feed(rest), b"j": self._join}
        return b"%s %d\n" % (kind, refusals[kind]())


def answers(calls, texts=CERTAIN):
    """What each call answers."""
    program = Program()
    return [program.answer(call, texts) for call in calls]


KINDS = (book_runs.FRESH_SCORE, book_runs.AGED_SCORE, book_runs.NO_SCORE)


def _is_certain(line, header, *lent, values=()):
    """Whether a loan's two numbers are certain under a header and index lines: without a sheet, and under each that is lent."""
    for sheet in (None, *lent):
        opened = book.open_book(header, sheet)
        refused = [opened.feed(each) for each in (*values, line)]
        assert not any(refused)
        bounds = opened.sum_bounds()
        if bounds[::2] != bounds[1::2]:
            return False
    return True


def _certain_loan(source, kind, header, *lent):
    """A loan of a kind whose two numbers are certain under a header."""
    while True:
        line = book_runs.loan_line(source, kind)
        if _is_certain(line, header, *lent):
            return line


def _certain_months(header, values, balance, value, since, *lent):
    """The loan of these amounts, made then and there, with the least months from 180 on at which its numbers are certain.

    Where the supplement is next to nothing its number is 0 or -1: there the loan has none.
    """
    lines = [book_runs.loan(balance, value, months=months, since=since) for months in range(180, 241)]
    lines += [line.replace(b"(sup 1)", b"(sup 0)") for line in lines]
    return next(line for line in lines if _is_certain(line, header, *lent, values=values))


def _limit_loans(header):
    """Loans at each limit of the table's columns and one cent either side, whose numbers are certain; some are charged less than 0."""
    amounts = [pair for row in book_runs.limit_amounts() for pair in row[:3]]
    for i, (balance, value) in enumerate(amounts):
        score = b"%d 7" % (300 + 61 * i % 601)
        lines = (book_runs.loan(balance, value, score, months) for months in range(1 + i % 9, 481))
        yield next(line for line in lines if _is_certain(line, header))


def _refused_lines(source, open_book):
    """A few lines that a book refuses as it stands, with 1, 2, 7, 3, 5, 11 or 12, or with 13, 14 or 15."""
    area, month = book_runs.random_place(source)
    set_already = source.sample(sorted(open_book.index.items()), min(1, len(open_book.index)))
    tried = [
        *(book_runs.index(*place, value) for place, first in set_already for value in (first, 7)),
        book_runs.loan_line(source, book_runs.FRESH_SCORE, book_runs.made(month, area)),
        b"x" * 241, b"", b"(claims 01)", book_runs.HEADER[:-1], b"(asset (amount 7) (factor 10001))",
        *(kind(name) for kind, name in zip((book_runs.mark, book_runs.back), source.sample(book_runs.MARK_NAMES, 2))),
        *(book_runs.loan_line(source, kind) for kind in KINDS),
        line_cases.random_line(source).replace(b"\n", b""),
    ]
    return [line for line in source.sample(tried, source.randrange(4)) if open_book.refusal(line)]


def _opening(header, sheet=None):
    """The calls that open a book, under a sheet where there is one."""
    return [b"o" + header] if sheet is None else [_lending(sheet), b"s" + header]


def _fed(*lines):
    """The calls that feed lines."""
    return [b"f" + line for line in lines]


def _lending(sheet):
    return b"n" + b" ".join(b"%d" % number for number in sheet)


def _feedings(source, header, lines, sheet=None):
    """The calls of a book in a shuffled order of its lines, with refused lines between."""
    return _fed_in_turn(source, header, book_runs.another_order(source, lines), sheet)


def _by_marks(source, header, lines, sheet=None):
    """The calls that leave these lines standing by way of marks and returns, with refused lines between."""
    return _fed_in_turn(source, header, book_runs.by_marks(source, [header, *lines])[1:], sheet)


def _fed_in_turn(source, header, ordered, sheet):
    """The calls of a book fed lines that are taken, with refused lines between."""
    open_book = book.open_book(header, sheet)
    calls = _opening(header, sheet)
    for line in ordered:
        calls += _fed(*_refused_lines(source, open_book))
        assert open_book.feed(line) == 0
        calls.append(b"f" + line)
    return calls + _fed(*_refused_lines(source, open_book))


def _closings(kind=b"c"):
    return [b"%s%d" % (kind, size) for size in SIZES[kind]]


def _stored_calls():
    source = random.Random(512)
    header = book_runs.book_header(3, 1, 1, 1000)
    loans = [_certain_loan(source, kind, header) for kind in KINDS]
    # Before any opening, and after each refusal of one: a book of an all-zero header.
    calls = _closings() + [b"s" + header]
    refused = _refused_headers(header)
    for line in refused:
        calls += [b"o" + header, b"f" + loans[0], b"o" + line, b"f" + loans[0], b"f(claims 1001)", b"c511", b"c512"]
    # Fewer loans than the header's, fewer without a score or fewer fresh ones: 6 before 9, whatever the buffer.
    calls += [b"o" + header] + _closings()
    calls += _fed(*loans[:2]) + _closings()
    calls += _fed(loans[2]) + _closings()
    # Closing changes no book: lines go on being taken.
    calls += [b"f(equity -100000000000)"] + _closings() + [b"f(equity 100000000000)", b"f(b 7)"] + _closings()
    calls += [b"o" + header] + _fed(loans[0]) * 3 + _fed(loans[1]) * 3 + _closings()
    calls += [b"o" + header] + _fed(*loans[1:], loans[1]) + _closings()
    # The same lines in several orders, with refused lines between.
    others = [line for line in book_runs.OTHER_KINDS.split(b"\n") if line]
    for _ in range(4):
        calls += _feedings(source, header, loans + others) + [b"c512"]
    calls += _table_calls(source, header, loans) + _sheet_calls(source) + _index_calls(source) + _fresh_calls(source) + _mark_calls(source)
    return calls + _joining_calls(source)


def _refused_headers(header):
    """Header lines that are refused with 1, 2, 7, 3 and, by one count and by two together, 4; the header counts 3 loans, one of them unscored and one fresh."""
    return b"x" * 241, b"", b"(claims 7)", header.replace(b"3", b"1000001"), header.replace(b"3", b"0"), header.replace(b"3", b"1")


def _sheet_calls(source):
    """Calls under sheets of credit factors."""
    header = book_runs.book_header(3, 1, 1, 1000)
    return _rule_calls(header) + _refused_sheet_calls(source, header) + _charged_calls(source, header)


def _rule_calls(header):
    """Openings under sheets: how many numbers, and each rule kept and broken at the first and at the last place where it can be."""
    taken = (sheets.BUILT_IN, sheets.DISTINCT, sheets.EQUAL, (1,) * LENGTH, (300,) * LENGTH)
    rising = [sheets.RISING[where] for where in ((0, 0), (0, 5), (9, 0), (9, 5))]
    falling = [sheets.FALLING[where] for where in ((0, 0), (0, 4), (10, 0), (10, 4))]
    # A number that breaks two rules, and one that falls from a band's last age to the next band's first, which is allowed.
    both, allowed = sheets.changed(sheets.EQUAL, 33, 101), sheets.changed(sheets.EQUAL, 5, 101)
    calls = []
    for sheet in (*taken, *sheets.LENGTHS, (100,) * 68, *sheets.OUTSIDE, *rising, *falling, both, allowed):
        calls += _opening(header, sheet)
    # After what is no list of numbers the sheet that was lent before is no longer lent.
    calls += [_lending(sheets.EQUAL), b"s" + header, b"nx", b"s" + header]
    no_lists = (b" ", b"1  2", b" 1", b"1 x", b"01", b"1.25", b"-1", b"1\t2", b"1,2", b"123456789012345", b"100\r")
    return calls + [b"n" + text for text in no_lists] + [b"s" + header]


def _refused_sheet_calls(source, header):
    """A refused sheet or header leaves a book of an all-zero header, whatever stood there; the header's refusals come first."""
    calls = []
    for sheet in (sheets.DISTINCT, sheets.OUTSIDE[0], sheets.LENGTHS[0]):
        calls.append(_lending(sheet))
        calls += [b"s" + refused for refused in _refused_headers(header)]
    one = book_runs.book_header(1, 0, 0, 1000)
    line = b"f" + _certain_loan(source, book_runs.AGED_SCORE, one, sheets.DISTINCT)
    own = [*_opening(one, sheets.DISTINCT), line]
    for sheet in (sheets.LENGTHS[2], sheets.OUTSIDE[1], sheets.RISING[0, 0]):
        calls += [*own, *_opening(one, sheet), line, b"f(claims 1001)", b"c511", b"c512", b"t8192"]
    # A header that is refused under a sheet that is taken. A book without a sheet, after one under a sheet and after each refusal.
    calls += [*own, b"s(claims 7)", line, b"c512", *_opening(one), line, b"c512"]
    calls += [*own, b"c512", *_opening(one), line, b"c512"]
    return calls + [*own, *_opening(one, sheets.LENGTHS[0]), *_opening(one), line, b"c512"]


def _scored(ages, small, sheet):
    """A header, and a loan of each band whose numbers are certain under the sheet and under none, of these ages; with so many small fresh ones."""
    header = book_runs.book_header(11 + small, 0, sum(age <= 12 for age in ages) + small)
    scores = [b"%d %d" % (lowest + 19, age) for lowest, age in zip((300, *range(600, 781, 20)), ages, strict=True)]
    return header, [_certain_balance(score, sheet, header) for score in scores] + [SMALL] * small


def _certain_balance(score, sheet, *headers):
    """A loan with this score whose numbers are certain under each header, with the sheet and without."""
    lines = (book_runs.loan(20_000_000 + i, 22_000_000, score) for i in range(1000))
    return next(line for line in lines if all(_is_certain(line, header, sheet) for header in headers))


SMALL = book_runs.SMALL_LOAN[:-1]
# Of a loan in each band. With the first it takes so many small fresh loans for 90% fresh ones; the second holds every age column, and few are fresh.
AGES = ((600, 0, 12, 0, 12, 7, 1, 13, 3, 25, 49), 29), ((0, 13, 25, 37, 49, 61, 12, 24, 36, 48, 60), 0)


def _charged_calls(source, header):
    """Books under a sheet: on the first column and on the aged table, beside the same book without one, and under a copy of the built-in table."""
    calls = []
    for ages, small in AGES:
        scored, loans = _scored(ages, small, sheets.DISTINCT)
        for sheet in (sheets.BUILT_IN, None, sheets.DISTINCT):
            calls += _opening(scored, sheet) + _fed(*loans) + [b"c512"]
        calls.append(b"t8192")
    # Without a score nothing changes. Another sheet lent to nobody changes nothing in a book that is open.
    unscored = b"f" + _certain_loan(source, book_runs.NO_SCORE, header)
    alone = book_runs.book_header(1, 1, 0, 1000)
    calls += [*_opening(alone), unscored, b"c512", *_opening(alone, sheets.DISTINCT), unscored, b"c512"]
    calls += [*_opening(scored, sheets.DISTINCT), _lending(sheets.EQUAL), *_fed(*loans), _lending(()), b"c512", b"nx", b"c512"]
    # The same lines in two orders under one sheet, with refused lines between.
    for _ in range(2):
        calls += _feedings(source, scored, loans, sheets.DISTINCT) + [b"c512"]
    return calls


def _index_calls(source):
    """Calls with the house price index."""
    fixed = (_missing_calls, _second_value_calls, _reopened_calls, _place_calls, _column_calls)
    return [call for calls in fixed for call in calls()] + _order_calls(source)


def _indexed_loan():
    """A header that counts one loan, the two index lines that the loan needs, and the loan, whose numbers are certain."""
    header = book_runs.book_header(1, 0, 1, 1000)
    own, december = (book_runs.index(b"toronto", month, value) for month, value in ((201003, 9_000), (DECEMBER, 15_000)))
    return header, own, december, _certain_months(header, (own, december), 20_000_000, 14_000_000, book_runs.made(201003, b"toronto"))


def _composite(*lines):
    return [line.replace(b"toronto", b"other") for line in lines]


def _missing_calls():
    """Each of the two values missing, another area's set in its place; the loan is in no figure and no cell until it is taken."""
    header, own, december, line = _indexed_loan()
    calls = []
    for first, second in ((own, december), (december, own)):
        calls += _opening(header) + _fed(line, *_composite(own, december), line, first, line, *_composite(line.replace(b"201003", b"201004")))
        calls += [*CLOSED, *_fed(second, line), *CLOSED, *_fed(line, line.replace(b"720 7", b"none"))]
    # Equal values are asked for too.
    return calls + _opening(header) + _fed(own, line, december.replace(b"15000", b"9000"), line)


def _second_value_calls():
    """A second value, equal or not, before and after a loan that looked the first up, also where the first is 1; one out of range is 3."""
    header, own, december, line = _indexed_loan()
    lowest = [book_runs.index(b"calgary", FIRST, value) for value in (1, 1, 2)]
    wrong, composite = [own.replace(b"9000", value) for value in (b"1000001", b"0")], _composite(own, december)
    again = [own, own.replace(b"9000", b"9001"), own.replace(b"9000", b"1000000"), *wrong]
    return _opening(header) + _fed(*lowest, *wrong, own, *again, december, december, *composite, *composite, line, *again, december) + CLOSED


def _reopened_calls():
    """Nothing is left of the index after an opening, with a sheet or without, nor after a refused one, which counts no loan: 5 before 12."""
    header, own, december, line = _indexed_loan()
    unscored = line.replace(b"720 7", b"none")
    calls = _opening(header) + _fed(own, december, line)
    for opening in (_opening(header), _opening(header, sheets.DISTINCT), [b"o", *_opening(header)]):
        calls += opening + _fed(line, unscored, december, own, december)
    for refused in (b"", b"(claims 7)", own):
        calls += [b"o" + refused, *_fed(line, unscored, own, own, december, line), *CLOSED]
    return calls


def _place_calls():
    """Every area at the ends of the index, each value in a place of its own; loans whose values stay, and a sheet beside the index."""
    months = (FIRST, 201511, DECEMBER)
    values = [book_runs.index(area, month, 100 * i + 7 * j + 61) for i, area in enumerate(AREAS) for j, month in enumerate(months)]
    made = [book_runs.made(month, area) for i, area in enumerate(AREAS) for month in (months[i % 2], (200412, DECEMBER, 190001, 209912)[i % 4])]
    header = book_runs.book_header(len(made), 0, len(made))
    loans = [_certain_months(header, values, 20_000_000 + i, 19_000_000, since, sheets.DISTINCT) for i, since in enumerate(made)]
    calls = []
    for sheet in (None, sheets.DISTINCT):
        calls += _opening(header, sheet) + _fed(*values, *values[::5], *loans) + CLOSED
    return calls


def _column_calls():
    """Loans at a limit of the columns by the index alone, and beside it by one in an index; the ends of all ranges; 90% of ten thirds of a cent."""
    extreme = [(area, month, value) for area, *both in EXTREME for month, value in zip((FIRST, DECEMBER), both)]
    values = [book_runs.index(*value) for value in book_runs.LIMIT_VALUES + extreme]
    amounts = [(*row[0], since) for row in book_runs.amounts_by_index() for since in book_runs.LIMIT_PLACES]
    amounts += [(balance, value, book_runs.made(FIRST, area)) for balance in (1, 200_000_000) for value in (1, 10**10) for area, *_ in EXTREME]
    amounts.append((3, 1, book_runs.made(FIRST, b"hamilton")))
    header = book_runs.book_header(len(amounts), 0, len(amounts))
    loans = [_certain_months(header, values, *amount) for amount in amounts]
    return _opening(header) + _fed(*values, *loans) + CLOSED


# Areas with the values of January 2005 and of December 2015.
EXTREME = ((b"hamilton", 3, 10), (b"montreal", 1, 1), (b"quebec", 1, 1_000_000), (b"victoria", 1_000_000, 1), (b"winnipeg", 999_999, 1_000_000), (b"other", 1_000_000, 1_000_000))


def _order_calls(source):
    """Orders of lines that take different loans, and orders that take the same ones."""
    header = book_runs.book_header(2, 0, 2)
    set_values = (b"halifax", 200808, 11_100), (b"halifax", DECEMBER, 13_300), (b"other", DECEMBER, 7)
    values = [book_runs.index(*value) for value in set_values]
    amounts = (17_000_000, 200808), (16_000_000, 200412), (18_000_000, DECEMBER)
    loans = [_certain_months(header, values, balance, 15_000_000, book_runs.made(month, b"halifax")) for balance, month in amounts]
    calls = []
    # The first loan is taken only after both values, and then it leaves no room for the last.
    for order in ((*values, *loans), (values[0], *loans, *values[1:]), (*loans, *values), (loans[1], *values, *loans[::-1]), (*values, *loans[::-1])):
        calls += _opening(header) + _fed(*order) + CLOSED
    for _ in range(3):
        calls += _feedings(source, header, [*values, *loans[:2]]) + CLOSED
    return calls


def _fresh_calls(source):
    """Calls around the count of fresh loans, and the table of credit factors that it chooses."""
    return _count_calls() + _no_place_calls() + _choice_calls(source) + _edge_calls()


def _small(*scores):
    """Small loans with these scores; what each is charged is certain, whatever its factor."""
    return [SMALL.replace(b"900 0", b"none" if age is None else b"900 %d" % age) for age in scores]


def _counted_book(counts, *scores):
    """The calls of a book with these counts that is fed small loans, and closed for the report."""
    return _opening(book_runs.book_header(*counts)) + _fed(*_small(*scores)) + CLOSED[:1]


def _count_calls():
    """The ages that are fresh; each of the counts reached, one short and passed by one, alone; loans that are not fresh take any place."""
    calls = []
    for age in (0, 12, 13, 600):
        for fresh in (0, 1):
            calls += _counted_book((1, 0, fresh), age)
    # A fresh loan too many though loans are open, and one that is not fresh in its place.
    calls += _counted_book((4, 1, 1), 12, 0, 12, 13, 600, None, 13) + CLOSED[1:]
    # Loans, those without a score and fresh ones wanting alone: 6 before 9, whatever the buffer.
    for scores in ((12, None), (12, 13, 13), (13, None, 13)):
        calls += _counted_book((3, 1, 1), *scores) + [b"c0", b"c511", b"c640", b"t8191", b"t8192"]
    # Those that are not fresh are limited by the loans alone; then no place is left for the others.
    calls += _counted_book((2, 1, 1), 13, 600, 13, 12, None)
    # Without a score a loan is never fresh.
    for counts in ((1, 1, 0), (1, 0, 1), (2, 1, 1)):
        calls += _counted_book(counts, None, None, 7)
    return calls + _counted_book((0, 0, 0), 0, None, 13)


def _no_place_calls():
    """What is tested before 5 and after it, for a fresh loan too many; the book after an opening that is refused by its counts."""
    fresh, aged, unscored = _small(12, 13, None)
    _, own, december, line = _indexed_loan()
    old = line.replace(b"720 7", b"720 13")
    calls = _opening(book_runs.book_header(2, 0, 1)) + _fed(fresh, line, fresh.replace(b"bal 1", b"bal 0"), b"x" * 241, old, own, december, line, aged) + CLOSED
    calls += _opening(book_runs.book_header(1, 0, 0)) + _fed(line, old, own, line, old, december, line)
    for counts in ((3, 2, 2), (3, 0, 4), (3, 10**14 - 1, 10**14 - 1), (10**6, 0, 10**14 - 1)):
        calls += _opening(book_runs.book_header(1, 0, 1)) + _fed(fresh)
        calls += _opening(book_runs.book_header(*counts)) + _fed(fresh, aged, unscored) + CLOSED[:1]
    return calls + CLOSED[1:]


def _choice_calls(source):
    """The header's counts choose the table, not the lines taken: with 9 of 10 fresh the first column, with 8 the whole table.

    Closed in between, when all lines so far are fresh, and when none is.
    """
    nine, eight = (book_runs.book_header(10, 0, fresh, 1000) for fresh in (9, 8))
    aged = _certain_balance(b"745 40", sheets.DISTINCT, nine, eight)
    fresh = [_certain_balance(b"765 12", sheets.DISTINCT, nine, eight), *_small(0, 12, 0, 12, 0, 12, 0)]
    calls = []
    for header, last in ((nine, 12), (eight, 13)):
        lines = [*fresh, *_small(last)]
        for sheet in (None, sheets.DISTINCT):
            calls += _opening(header, sheet) + _fed(aged) + CLOSED + _fed(*lines) + CLOSED
        calls += _opening(header) + _fed(*fresh) + CLOSED + _fed(lines[-1], aged) + CLOSED
        calls += _feedings(source, header, [aged, *lines]) + CLOSED
    return calls


def _edge_calls():
    """Just as many fresh loans as the first column asks for, and one fewer; and 9 of 11 with a loan without a score, which counts among the 11 too."""
    calls = []
    for loans in (1, 2, 9, 11):
        least = -(-9 * loans // 10)
        for fresh in (least, least - 1):
            header = book_runs.book_header(loans, 0, fresh)
            lines = _small(*[12] * fresh, *[13] * (loans - fresh))
            if fresh < loans:
                lines[-1] = _certain_balance(b"785 61", sheets.DISTINCT, header)
            calls += _opening(header) + _fed(*lines) + CLOSED[:1]
    header = book_runs.book_header(11, 1, 9)
    return calls + _opening(header) + _fed(_certain_balance(b"785 61", sheets.DISTINCT, header), *_small(None, *[12] * 9)) + CLOSED[:1]


def _mark_calls(source):
    """Calls with marks and returns. Each part of a book that a return must bring back has calls of its own."""
    fixed = (
        _restored_sums_calls, _restored_counts_calls, _restored_cells_calls, _restored_index_calls, _later_marks_calls, _own_mark_calls, _refused_mark_calls,
        _eight_marks_calls, _reopened_marks_calls, _mark_name_calls,
    )
    return [call for calls in fixed for call in calls()] + _walk_calls(source) + _loan_walk_calls(source) + _way_calls(source)


def _marks(*names):
    """The calls that set marks: a name in capitals stands for a return to it."""
    return [b"f" + (book_runs.back(name.lower()) if name.isupper() else book_runs.mark(name)) for name in names]


def _restored_sums_calls():
    """Every sum of the report moved after the mark, by lines of every kind, and back: the report of the lines before it, also the second time."""
    # each number that a mark keeps of them is above 0: rest and moved have whole cents and parts of one, equity and aoci both signs
    parted = [b"(policy (class home) (prem 123457) (term 300) (done 5))", b"(asset (amount 12345) (factor 7))"]
    before = [b"(equity 1000000)", b"(equity -300)", b"(aoci -7)", b"(aoci 900)", b"(b 300000)", b"(c 20000)", *parted, *book_runs.OTHER_KINDS.splitlines()]
    moving = [
        [b"(policy (class home) (prem 100000000) (term 300) (done 5))"], [b"(policy (class multi) (prem 100000000) (term 300) (done 5))"],
        [b"(deriv (kind fx) (cost 70000) (notional 7000000) (months 7) (pays 7) (factor 7000))", b"(lossc 70000)"], [b"(asset (amount 70000) (factor 7000))", b"(claims 70000)"],
        [b"(equity 70000)", b"(equity -3000)"], [b"(aoci 700)", b"(aoci -30000)"], [b"(b 70000)"], [b"(c 50000)"],
    ]
    calls = _opening(book_runs.HEADER[:-1]) + _fed(*before) + _marks(b"sums") + CLOSED[:1]
    for lines in moving:
        calls += _fed(*lines) + CLOSED[:1] + _marks(b"SUMS") + CLOSED[:1]
    every = [line for lines in moving for line in lines]
    return calls + _fed(*every) + _marks(b"SUMS") + CLOSED[:1] + _fed(*every) + CLOSED[:1]


def _restored_counts_calls():
    """Loans, those without a score and fresh ones counted after the mark have their places free again (5), and are missing at the end (6)."""
    fresh, aged, unscored = _small(12, 13, None)
    calls = _opening(book_runs.book_header(3, 1, 1))
    calls += _fed(aged) + _marks(b"counts") + _fed(fresh, fresh, unscored, unscored, aged) + CLOSED[:1]
    calls += _marks(b"COUNTS") + CLOSED[:1] + _fed(unscored, unscored) + CLOSED[:1] + _fed(fresh, fresh, aged) + CLOSED[:1]
    # A return to a full book brings no place.
    return calls + _marks(b"full") + _fed(aged, b"(b 7)") + _marks(b"FULL") + _fed(aged, unscored, fresh) + CLOSED[:1]


def _restored_cells_calls():
    """The cells: of a loan taken after the mark nothing is left in the table, of those before it all."""
    bands = [SMALL.replace(b"900 0", b"%d 0" % score) for score in (599, 619, 739, 900)]
    calls = _opening(book_runs.book_header(2, 0, 2)) + _fed(bands[0]) + _marks(b"cells")
    for line in bands:
        calls += _fed(line) + CLOSED[1:] + _marks(b"CELLS")
    return calls + _fed(bands[3]) + _marks(b"whole") + CLOSED[1:] + _marks(b"WHOLE") + CLOSED[1:] + _marks(b"CELLS") + _fed(bands[2]) + CLOSED


def _restored_index_calls():
    """The index: a value set after the mark is gone, a loan that needs it is 12, and another value may be set and counts; one set before stays (11)."""
    header, own, december, line = _indexed_loan()
    other = own.replace(b"9000", b"12000")
    again = _certain_months(header, (other, december), 20_000_000, 14_000_000, book_runs.made(201003, b"toronto"))
    calls = _opening(header) + _fed(december) + _marks(b"index") + _fed(own, own, line) + CLOSED + _marks(b"INDEX")
    calls += _fed(line, december, other, own, again) + CLOSED + _marks(b"INDEX") + _fed(again, own) + _marks(b"later") + _fed(line) + CLOSED
    calls += _marks(b"LATER") + _fed(own, other, line) + CLOSED
    # All of the index unset, and set in another place alone.
    return calls + _opening(header) + _marks(b"none") + _fed(own, december) + _marks(b"NONE") + _fed(*_composite(own, december), line, own, line, december, line) + CLOSED


def _later_marks_calls():
    """A return drops the marks that were set after the one returned to: they cannot be returned to (15), and their names can be set again."""
    one, two, three, four = _fed(b"(stated 1)", b"(stated 2)", b"(stated 4)", b"(stated 8)")
    calls = _opening(book_runs.HEADER[:-1]) + [one, *_marks(b"a"), two, *_marks(b"b"), three, *_marks(b"c"), four, *_marks(b"B"), *CLOSED[:1]]
    calls += [*_marks(b"C", b"c", b"c"), four, *_marks(b"A", b"C", b"B"), *CLOSED[:1]]
    # The dropped names once more, in another order and with other lines: the last one counts.
    calls += [four, *_marks(b"c"), three, *_marks(b"b"), two, *_marks(b"C", b"B"), *CLOSED[:1], *_marks(b"A", b"b"), three, *_marks(b"B"), *CLOSED[:1]]
    return calls + [*_marks(b"A"), *CLOSED[:1]]


def _own_mark_calls():
    """The mark returned to stays: it can be returned to again and again, whatever came in between, and setting it is 13."""
    one, two, three, four = _fed(b"(stated 1)", b"(stated 2)", b"(stated 4)", b"(stated 8)")
    calls = _opening(book_runs.HEADER[:-1]) + [one, *_marks(b"a"), two, *_marks(b"A", b"A"), *CLOSED[:1], *_marks(b"a"), three, *_marks(b"A"), *CLOSED[:1]]
    return calls + [four, *_marks(b"b"), one, *_marks(b"B", b"B", b"b", b"A", b"A"), *CLOSED[:1], *_marks(b"B")]


def _refused_mark_calls():
    """13, 14 and 15 change neither the book nor what is kept under any name; what is no name is 2 first, also at eight marks."""
    names = book_runs.EIGHT_NAMES
    calls = _opening(book_runs.HEADER[:-1]) + _marks(b"A") + _fed(b"(stated 1)") + _marks(b"a") + _fed(b"(stated 2)") + _marks(b"a", b"AA", b"A") + CLOSED[:1]
    for i, name in enumerate(names[1:]):
        calls += _fed(b"(stated %d)" % 4**i) + _marks(name, b"a", name)
    calls += _fed(b"(stated 7)") + _marks(b"ninth", *names, b"NINTH") + _fed(b"(mark )", b"(mark Ninth)", b"(back )", b"(mark %s)" % (b"a" * 13)) + CLOSED[:1]
    calls += _marks(names[-1].upper(), b"ninth") + CLOSED[:1] + _marks(names[-2].upper(), names[-1].upper(), b"ninth", names[-1]) + CLOSED[:1]
    return calls + _fed(b"(stated 3)") + _marks(b"NINTH") + CLOSED[:1] + _marks(b"A") + CLOSED[:1]


def _eight_marks_calls():
    """Eight marks, at each another loan, index value and sum: to each of them, last first, then to the first; filled up there and closed both ways."""
    bands = [SMALL.replace(b"900 0", b"%d 0" % score) for score in (599, *range(600, 740, 20))]
    calls = _opening(book_runs.book_header(8, 0, 8))
    values = [book_runs.index(area, DECEMBER, 100 + i) for i, area in enumerate(AREAS[:8])]
    for i, name in enumerate(book_runs.EIGHT_NAMES):
        calls += _fed(b"(stated %d)" % 2**i, values[i], bands[i]) + _marks(name)
    for place in (7, 6, 4, 0):
        # Of the values those up to the mark are set (11).
        calls += _marks(book_runs.EIGHT_NAMES[place].upper()) + _fed(*values[place : place + 2]) + _fed(*[SMALL] * (7 - place)) + CLOSED
    return calls + _marks(*(name.upper() for name in book_runs.EIGHT_NAMES))


def _reopened_marks_calls():
    """Nothing is kept after an opening, with a sheet or without, taken or refused; the book of a refused one takes marks too. A closing drops none."""
    header = book_runs.HEADER[:-1]
    calls = _opening(header) + _fed(b"(stated 1)") + [b"f" + line for line in book_runs.EIGHT_MARKS]
    for opening in (_opening(header), _opening(header, sheets.DISTINCT), [b"o"], [b"s(claims 7)"], _opening(header, sheets.LENGTHS[0])):
        calls += [*opening, *_marks(b"A", b"AA"), *_fed(b"(stated 2)"), *_marks(b"aa", b"a", b"aa"), *_fed(b"(stated 4)"), *CLOSED, *_marks(b"AA"), *CLOSED[:1]]
    return calls


def _mark_name_calls():
    """Names of 1 and of 12 letters, names that begin alike, that have the same letters, and whose numbers agree in their low bits: each keeps its own book."""
    names = (b"z", b"zz", b"z" * 11 + b"y", b"z" * 12, b"zzy", b"yzz", line_cases.name_of(2**32 + 26), line_cases.name_of(2**53 + 26))
    calls = _opening(book_runs.HEADER[:-1])
    for i, name in enumerate(names):
        calls += _fed(b"(stated %d)" % 2**i) + _marks(name)
    for name in reversed(names):
        calls += _marks(name.upper()) + CLOSED[:1]
    return calls + _fed(*(kind(name) for name in (b"", b"z" * 13, b"Z", b"z1", b"z z") for kind in (book_runs.mark, book_runs.back)), b"(mark z", b"(mark)", b"(back z")


def _walk_calls(source):
    """Marks, returns and lines of two kinds in any order, many of them refused; closed now and then. Each line tells by its amount whether it stands."""
    names = (b"a", b"b", b"ab", b"east", b"west", b"north", b"south", b"z", b"zz", b"zzzzzzzzzzzz")
    calls = _opening(book_runs.HEADER[:-1])
    for number in range(160):
        line = source.choice((b"(stated %d)" % 2 ** (number % 36), book_runs.index(source.choice(AREAS[:3]), DECEMBER, number + 1)))
        name = source.choice(names)
        calls += _fed(source.choice((line, line, book_runs.mark(name), book_runs.mark(name), book_runs.back(name))))
        calls += CLOSED[: source.choice((0, 0, 0, 1))]
    return calls


def _loan_walk_calls(source):
    """The same with small loans, and one that needs the index: the counts tell by 5 and 6, the index by 11 and 12, report and cells by the loans.

    Closed both ways now and then when all loans are there, else for the report.
    """
    _, own, december, _ = _indexed_loan()
    header = book_runs.book_header(2, 1, 1)
    line = _certain_months(header, (own, december), 20_000_000, 14_000_000, book_runs.made(201003, b"toronto"))
    calls, open_book = _opening(header), book.open_book(header)
    steps = [*_small(0, None, None), line, line, own, december, *(kind(name) for name in (b"a", b"b", b"c") for kind in (book_runs.mark, book_runs.back))]
    for _ in range(120):
        step = source.choice(steps)
        open_book.feed(step)
        calls += _fed(step) + source.choice(([], [], CLOSED[:1] if open_book.closing_refusal() else CLOSED))
    return calls


def _way_calls(source):
    """The same lines left standing by several ways, with refused lines between, without a sheet and under one."""
    header = book_runs.book_header(4, 1, 2, 1000)
    _, own, december, _ = _indexed_loan()
    loans = [_certain_loan(source, kind, header, sheets.DISTINCT) for kind in KINDS]
    loans.append(_certain_months(header, (own, december), 20_000_000, 14_000_000, book_runs.made(201003, b"toronto"), sheets.DISTINCT))
    lines = [own, december, *loans, *book_runs.OTHER_KINDS.splitlines()[4:]]
    calls = []
    for sheet in (None, sheets.DISTINCT):
        calls += _feedings(source, header, lines, sheet) + CLOSED
        for _ in range(2):
            calls += _by_marks(source, header, lines, sheet) + CLOSED
    return calls


def _joining_calls(source):
    """Calls that join two books. Each condition has calls of its own, at its limit and one beyond."""
    fixed = (
        _first_joining_calls, _range_calls, _line_count_calls, _column_choice_calls, _factor_choice_calls, _no_loans_calls, _same_sheet_calls, _same_index_calls,
        _withdrawn_index_calls, _dropped_marks_calls, _refused_joining_calls, _untouched_copy_calls, _added_sums_calls, _added_counts_calls, _joined_on_calls,
    )
    calls = [call for calls in fixed for call in calls()] + _one_book_calls(source)
    calls += _exchange_calls() + _grouping_calls(source) + _other_grouping_calls()
    return calls + _neutral_calls(source) + _full_neutral_calls() + _not_neutral_calls()


FLAT = 8, *(9,) * 5, *(7,) * (LENGTH - 12), *(5,) * 6  # a sheet of few bytes, in which its first and its last number can be another


def _counted(*counts):
    """The calls that open a book with these counts, and feed no line."""
    return _opening(book_runs.book_header(*counts))


def _with_lines(*lines, sheet=None):
    """The calls that open a book of an all-zero header, under a sheet where there is one, and feed it lines."""
    return _opening(book_runs.HEADER[:-1], sheet) + _fed(*lines)


def _joined(first, second):
    """The calls that join the books that two lists of calls make; a second list that keeps a copy itself comes first, and its book is exchanged for the first."""
    if b"k" in second:
        assert b"k" not in first
        return [*second, b"k", *first, b"x", b"j"]
    return [*first, b"k", *second, b"j"]


def _both_ways(first, second):
    return _joined(first, second) + _joined(second, first)


def _first_joining_calls():
    """The values of refused openings joined: the copy before any is kept, with each other, with a book, with a book under a sheet (16)."""
    one = _with_lines(b"(claims 1001)", b"(equity 1000)")
    calls = [b"o", b"j", *one, b"j", *CLOSED[:1]] + _joined([b"o"], [b"s(claims 7)"]) + CLOSED + _both_ways([b"o"], one) + CLOSED[:1]
    lent = _opening(book_runs.HEADER[:-1], FLAT)
    return calls + _both_ways([b"o"], lent) + CLOSED[:1] + _joined([b"o"], _counted(1, 0, 0, 7)) + _fed(*_small(13, 13)) + CLOSED


def _range_calls():
    """The added header in range: loans to 1,000,000 and held to 10^13, in two parts and all in one book."""
    calls = []
    for first, second in ((600_000, 400_000), (0, 1_000_000)):
        for loans in (first, first + 1):
            calls += _joined(_counted(loans, 0, 0), _counted(second, 0, 0)) + CLOSED[:1]
    for first, second in ((6 * 10**12, 4 * 10**12), (10**13, 0)):
        for held in (second, second + 1):
            calls += _joined(_counted(0, 0, 0, first), _counted(0, 0, 0, held)) + CLOSED[:1]
    # Unscored and fresh have no range of their own.
    for counts in ((500_000, 500_000, 0, 5 * 10**12), (500_000, 0, 500_000, 5 * 10**12)):
        calls += _joined(_counted(*counts), _counted(*counts)) + _fed(*_small(None, 12)) + CLOSED[:1]
    return calls


def _many_lines(count, *values):
    """The calls that make a book of so many lines that are neither loans nor index lines, by joining it with itself, and of these index lines; it is kept."""
    calls = _with_lines(*values)
    for digit in f"{count:b}":
        calls += [b"k", b"j"] + _fed(b"(b 1)") * int(digit)
    return [*calls, b"k"]


TEN_VALUES = [book_runs.index(b"other", month, 7) for month in range(200_501, 200_511)]


def _line_count_calls():
    """The lines that are not loans, index lines once: 100,000 join and 100,001 do not. Then no line more is taken that is not a loan (8)."""
    calls = []
    for third, values in ((33_333, ()), (33_330, TEN_VALUES)):
        calls += _many_lines(third, *values)
        # From no other line, by joining the copy to it again and again.
        short = 100_000 - 3 * third - len(values)
        for more in (short, short + 1):
            calls += _with_lines(*values) + [b"j", b"j"] + _fed(b"(stated 7)") * more + [b"j", *_fed(b"(c 7)", book_runs.index(b"toronto", FIRST, 7), *values[:1])]
            calls += CLOSED[:1]
    return calls


def _column_choice_calls():
    """The score column of each book by the added header, whether it is the first's or the second's that changes, also with no loan taken.

    90% fresh are lost by the sum and reached by it, and kept exactly; a sheet whose columns are alike changes nothing.
    """
    calls = []
    for first, second in (
        ((10, 0, 9), (20, 0, 18)), ((10, 0, 9), (1, 0, 1)), ((10, 0, 8), (11, 0, 9)),  # joins
        ((10, 0, 9), (10, 0, 8)), ((20, 0, 18), (1, 0, 0)), ((10, 0, 8), (10, 0, 10)), ((9, 0, 8), (1, 0, 1)),  # does not
    ):
        calls += _both_ways(_counted(*first), _counted(*second))
    nine, eight = (book_runs.book_header(10, 0, fresh) for fresh in (9, 8))
    calls += [_lending(sheets.EQUAL), *_both_ways([b"s" + nine], [b"s" + eight]), *_joined([b"s" + nine], [b"s" + nine])]
    # The loans taken choose nothing: of the nine fresh ones none is there.
    aged = _certain_balance(b"785 61", sheets.DISTINCT, book_runs.book_header(1, 0, 0))
    return calls + _both_ways(_opening(nine), _counted(1, 0, 0) + _fed(aged)) + CLOSED[:1]


def _factor_choice_calls():
    """The factor of loans without a score by the added header: exactly 5% and more, for each book that counts any, and for no other."""
    calls = []
    for first, second in (
        ((20, 1, 0), (20, 1, 0)), ((19, 1, 0), (20, 2, 0)), ((20, 1, 0), (7, 0, 0)), ((5, 0, 0), (1, 1, 0)), ((0, 0, 0), (1, 1, 0)),  # joins
        ((20, 1, 0), (19, 1, 0)), ((19, 1, 0), (21, 1, 0)), ((1, 0, 0), (19, 1, 0)), ((21, 1, 0), (18, 1, 0)),  # does not
    ):
        calls += _both_ways(_counted(*first), _counted(*second))
    # A loan at 3.0, in the last cell, beside a book without such loans, which is charged as before.
    header = book_runs.book_header(1, 1, 0)
    unscored = next(_certain_unscored(header))
    return calls + _joined(_counted(5, 0, 0) + _fed(*_small(13) * 5), _opening(header) + _fed(unscored)) + CLOSED


def _certain_unscored(header):
    """Loans without a score, in the last cell, whose numbers are certain under the header, one after another."""
    lines = (book_runs.loan(20_000_000 + i, 20_500_000, b"none") for i in range(1000))
    return (line for line in lines if _is_certain(line, header))


def _no_loans_calls():
    """A header that counts no loans asks for nothing, whatever held and lines it has."""
    none = _counted(0, 0, 0, 7) + _fed(b"(equity 7)")
    calls = []
    for counts in ((1, 0, 0), (10, 0, 9), (1, 1, 0), (20, 1, 0)):
        calls += _both_ways(none, _counted(*counts, 11))
    calls += _joined(none, none) + CLOSED[:1]
    # What is held is added: of the loan's total, held by neither book alone, more than nothing is left.
    header = book_runs.book_header(1, 0, 0, 1000)
    aged = _opening(header) + _fed(_certain_balance(b"785 61", sheets.DISTINCT, header))
    return calls + _joined(_counted(0, 0, 0, 700), aged) + CLOSED[:1] + _joined(aged, _counted(0, 0, 0, 30)) + CLOSED[:1]


def _same_sheet_calls():
    """A sheet and one with another number, at either end; the built-in table and a copy of it, which are the same."""
    header = book_runs.book_header(1, 0, 0)
    plain, copy, lent = (_opening(header, sheet) for sheet in (None, sheets.BUILT_IN, sheets.DISTINCT))
    calls = _both_ways(plain, copy) + CLOSED[:1]
    flat = _opening(header, FLAT)
    first, last = (_opening(header, sheets.changed(FLAT, *changed)) for changed in ((0, 7), (LENGTH - 1, 6)))
    for one, other in ((plain, flat), (first, flat), (flat, last)):
        calls += _joined(one, other)
    # The joined book is under the sheet of both: what it takes is charged by it.
    aged = _certain_balance(b"785 61", sheets.DISTINCT, header)
    for opening in (lent, copy):
        calls += _joined(opening + _fed(aged), opening) + _fed(aged) + CLOSED[:1]
    return calls


def _same_index_calls():
    """Index values in one book only, one that differs, one more in either book, others' places; the same values in another order join."""
    _, own, december, line = _indexed_loan()
    values = [own, december, book_runs.index(b"other", DECEMBER, 7)]
    ends = [book_runs.index(area, month, 7) for area, month in ((AREAS[0], FIRST), (AREAS[-1], DECEMBER), (b"toronto", 201003), (b"toronto", 201004), (b"other", 201003))]
    pairs = [(values, ()), (values, values[:2]), (values, [own.replace(b"9000", b"9001"), *values[1:]])]
    pairs += [([value], [value.replace(b" 7)", b" 8)")]) for value in ends[:2]] + [([value], ()) for value in ends[:2]] + [(ends[2:3], [other]) for other in ends[3:]]
    calls = []
    for number, pair in enumerate(pairs):
        first, second = (_with_lines(*lines) for lines in pair)
        calls += _joined(second, first) if number % 2 else _joined(first, second)
    calls += _joined(_with_lines(*pairs[0][1]), _with_lines(*pairs[0][0]))
    # Index values are set in the joined book (11), and serve its loans.
    one = book_runs.book_header(1, 0, 1, 1000)
    calls += _joined(_opening(one) + _fed(*values, line), _opening(one) + _fed(*values[::-1])) + _fed(*values, line, line) + CLOSED
    return calls + CLOSED[:1]


def _withdrawn_index_calls():
    """Only index lines still standing count: withdrawn ones are not asked for, and those set after a return are."""
    _, own, december, _ = _indexed_loan()
    other = own.replace(b"9000", b"12000")
    withdrawn = _with_lines(b"(stated 1)") + _marks(b"a") + _fed(own, december, b"(stated 2)") + _marks(b"A")
    calls = _both_ways(withdrawn, _with_lines(b"(stated 4)")) + _fed(own) + CLOSED[:1] + _joined(withdrawn, _with_lines(own, december))
    return calls + _joined(_with_lines(other), withdrawn + _fed(other)) + CLOSED[:1] + _joined(withdrawn + _fed(other), _with_lines(own))


def _dropped_marks_calls():
    """Marks of both books are dropped, of joined ones and at 16: none can be returned to (15), and eight can be set."""
    first = _with_lines(b"(stated 1)") + _marks(b"a", b"b") + _fed(b"(stated 2)")
    second = _with_lines(b"(stated 4)") + _marks(b"b", b"c") + _fed(b"(stated 8)")
    names = (b"A", b"B", b"C")
    calls = _joined(first, second) + _marks(*names) + _fed(*book_runs.EIGHT_MARKS, b"(stated 16)") + _marks(b"ninth", b"A") + CLOSED[:1]
    refused = _opening(book_runs.HEADER[:-1], FLAT) + second[1:]
    calls += _joined(first, refused) + _marks(*names, *names) + _fed(*book_runs.EIGHT_MARKS, b"(stated 16)") + _marks(b"ninth", b"A") + CLOSED[:1]
    # The marks of the book that is kept are not those of the copy.
    return calls + first + [b"k"] + _marks(b"A") + [b"j"] + _marks(b"A", b"a") + CLOSED[:1]


def _refused_joining_calls():
    """What stands after 16 is what stands after a refused opening: the report, the table, the index, the built-in table, and what is taken."""
    header, own, december, line = _indexed_loan()
    first = _opening(header) + _fed(own, december, line, b"(claims 1001)") + _marks(b"a")
    second = _opening(header, FLAT) + _fed(own, december, line) + _marks(b"b")
    after = [*CLOSED, *_fed(line, *_small(13, None), own, own, december, b"(equity 1000)", header, b"x"), *_marks(b"A", b"B", b"a"), b"c511", *CLOSED]
    calls = []
    for refused in (_joined(first, second), [b"o"]):
        calls += [*refused, *after]
    # It joins with books under the built-in table, and with no other.
    none, lent = _counted(0, 0, 0), _opening(book_runs.HEADER[:-1], FLAT)
    return calls + _joined(_joined(lent, none), none) + _joined(_joined(none, lent), none) + _joined(_joined(none, lent), lent)


def _untouched_copy_calls():
    """The first book after a joining, refused or not: it joins again as before, and so it does after the book went on."""
    header, own, december, line = _indexed_loan()
    first = _opening(header) + _fed(own, december, line, b"(stated 1)") + [b"k"]
    other = _opening(header) + _fed(own, december.replace(b"15000", b"15001"), b"(stated 2)") + [b"j"]
    calls = first + other + CLOSED[:1] + _opening(header) + _fed(own, december, line, b"(stated 4)") + [b"j", *CLOSED, b"j", *CLOSED]
    # What is fed after a copy was made, withdrawn or opened is not in the copy.
    calls += first + _marks(b"a") + _fed(b"(stated 8)") + _marks(b"A") + _fed(b"(stated 16)") + [b"j", *CLOSED]
    # A closing leaves both as they are.
    return calls + _opening(header) + _fed(own, december, line) + [*CLOSED, b"k", *CLOSED, b"j", *CLOSED, b"j"] + CLOSED


def _added_sums_calls():
    """Rest and moved are rounded once, and capital is limited once: cents of both books add up before; each kind of line in both, with its sign."""
    calls = []
    for line in (b"(claims 1)", b"(policy (class home) (prem 10) (term 300) (done 5))", b"(asset (amount 1) (factor 1))"):
        calls += _joined(_with_lines(line), _with_lines(line)) + CLOSED[:1] + [b"j", b"j", *CLOSED[:1]]
    lines = book_runs.OTHER_KINDS.splitlines()
    small, large = [b"(equity 600)", b"(b 500)", b"(c 100)", b"(aoci -7)"], [b"(equity -300)", b"(b 70)", b"(c 900)", b"(aoci 900)"]
    return calls + _both_ways(_with_lines(*small, *lines[:5]), _with_lines(*large, *lines[3:8])) + CLOSED[:1]


def _added_counts_calls():
    """6 for a joined book where one of the two is short, by each count: the book goes on until they are reached, and takes no loan more (5)."""
    fresh, aged, unscored = _small(12, 13, None)
    header = book_runs.book_header(3, 1, 1)
    whole = _opening(header) + _fed(fresh, aged, unscored)
    calls = [*whole, b"k"]
    for lines in ((fresh, unscored), (fresh, aged, aged), (aged, unscored, aged)):
        calls += _opening(header) + _fed(*lines) + [b"j", b"c0", b"c512"]
    calls += _joined(_opening(header) + _fed(fresh, unscored), whole) + CLOSED[:1] + _fed(aged) + CLOSED + [*whole, b"k", b"j", b"c511", *CLOSED]
    # Both are short of other kinds. Places that one book has are free for the lines of the joined one.
    calls += _joined(_opening(header) + _fed(fresh), _opening(header) + _fed(unscored, aged)) + CLOSED[:1]
    return calls + _fed(aged, unscored, unscored, fresh, fresh) + CLOSED + _fed(fresh, aged, unscored)


def _joined_on_calls():
    """A joined book goes on as any: it is fed, marked, returned to, closed and joined again, with itself too."""
    header, own, december, line = _indexed_loan()
    one = _opening(header) + _fed(own, december, line)
    calls = _joined(one, _opening(header) + _fed(december, own, b"(stated 1)")) + CLOSED[:1] + _marks(b"a") + _fed(b"(stated 2)", line) + CLOSED + _marks(b"b")
    calls += _marks(b"A", b"B") + CLOSED[:1] + _fed(b"(stated 4)", line, line) + CLOSED[:1]
    calls += [b"k", *one, b"j", *CLOSED, b"k", b"j", *CLOSED, *_marks(b"A"), *_fed(own, line, b"(stated 8)"), *CLOSED[:1]]
    # With a book of no other lines, and with one that has no index lines either (16).
    return calls + [b"k", *_with_lines(own, december), b"j", *CLOSED, b"k", *_counted(0, 0, 0), b"j", *CLOSED[:1]]


def _one_book(source, header, lines, sheet=None):
    """The calls of one book fed index lines and others, each in another order, and closed."""
    indexed = [line for line in lines if line.startswith(b"(index ")]
    others = [line for line in lines if line not in indexed]
    return _opening(header, sheet) + _fed(*source.sample(indexed, len(indexed)), *source.sample(others, len(others))) + CLOSED


def _certain_regions(source, counts, sheet=None):
    """Regions with these headers, the same two index lines in any order and loans whose numbers are certain: the calls of each, and all lines, index lines once and first."""
    _, own, december, _ = _indexed_loan()
    others = book_runs.OTHER_KINDS.splitlines()
    since = book_runs.made(201003, b"toronto")
    regions, all_lines = [], [own, december]
    for number, (loans, unscored, fresh, held) in enumerate(counts):
        header = book_runs.book_header(loans, unscored, fresh, held)
        kinds = [book_runs.FRESH_SCORE] * fresh + [book_runs.NO_SCORE] * unscored + [book_runs.AGED_SCORE] * (loans - unscored - fresh)
        lines = [_certain_loan(source, kind, header, *filter(None, [sheet])) for kind in kinds[1:]]
        lines += [_certain_region_loan(kinds[0], header, (own, december), since, sheet), *others[number::3]]
        regions.append(_opening(header, sheet) + _fed(*source.sample((own, december), 2), *lines))
        all_lines += lines
    return regions, all_lines


def _one_book_calls(source):
    """Regions joined one after another, and one book with the added header and the lines of all, index lines once and first: both closings are the same."""
    calls = []
    for counts, sheet in ((((2, 0, 2, 700), (1, 0, 1, 30)), None), (((3, 1, 1, 700), (2, 1, 0, 10**7), (1, 0, 0, 1)), sheets.DISTINCT)):
        regions, all_lines = _certain_regions(source, counts, sheet)
        joined = regions[0]
        for region in regions[1:]:
            joined = _joined(joined, region)
        header = book_runs.book_header(*map(sum, zip(*counts)))
        one = _one_book(source, header, all_lines, sheet)
        assert answers(joined + CLOSED)[-2:] == answers(one)[-2:]
        calls += joined + CLOSED + one
    return calls


def _certain_region_loan(kind, header, values, since, sheet):
    """A loan of a kind that needs the index, whose numbers are certain."""
    score = {book_runs.FRESH_SCORE: b"720 7", book_runs.AGED_SCORE: b"720 40", book_runs.NO_SCORE: b"none"}[kind]
    lines = (book_runs.loan(20_000_000 + i, 14_000_000, score, since=since) for i in range(1000))
    return next(line for line in lines if _is_certain(line, header, *filter(None, [sheet]), values=values))


def _exchange_calls():
    """The book and the copy exchanged: each is the other as it was, tables too, and neither has marks; what comes to the book then does not come to the copy."""
    header, own, december, line = _indexed_loan()
    first = _opening(header, sheets.DISTINCT) + _fed(own, december, line) + _marks(b"a") + _fed(b"(stated 1)")
    second = _counted(1, 0, 0) + _fed(b"(stated 2)") + _marks(b"b")
    calls = [*first, b"x", *CLOSED, b"x", *CLOSED, *_marks(b"A"), *_fed(own), b"k", *second, b"x", *CLOSED, *_fed(own, line, b"(stated 4)"), *CLOSED[:1]]
    # Exchanged back, the second book has its own tables and no mark, and the first has the line that it was fed meanwhile.
    calls += [b"x", *_marks(b"B"), *_fed(own, *_small(13, 13)), *CLOSED, *_counted(0, 0, 0), b"x", *CLOSED[:1], *_fed(own), b"x", *CLOSED[:1]]
    # The copy that an exchange leaves is joined under its own sheet and index values.
    calls += [*first, b"k", *second, b"x", *_with_lines(), b"j", *_fed(*_small(13)), *CLOSED[:1]]
    calls += [*second, b"k", *first, b"x", *_with_lines(own, december, sheet=sheets.DISTINCT), b"j", *CLOSED[:1]]
    # Eight marks can be set after an exchange, and are dropped by the next two.
    return calls + _fed(*book_runs.EIGHT_MARKS) + _marks(b"ninth") + [b"x", *_fed(*book_runs.EIGHT_MARKS), *_marks(b"ninth"), b"x", *_marks(b"A"), *CLOSED[:1]]


def _agreed(calls):
    """These calls, of which every joining succeeds and all closings of a kind write the same bytes."""
    told = answers(calls)
    assert b"j 0\n" in told and b"j 16\n" not in told
    for kind in SIZES:
        closed = {answer for answer in told if answer.startswith(kind)}
        assert len(closed) <= 1 and all(answer.startswith(kind + b" 0 ") for answer in closed)
    return calls


def _grouping_calls(source):
    """Three regions in all twelve groupings (request L9): all succeed, the closings write the same bytes, and the last book goes on as any.

    Each has fractions of a cent in rest and moved. The second was returned to a mark and has marks, which are dropped.
    """
    fractions = _fed(b"(claims 1)", b"(policy (class home) (prem 10) (term 300) (done 5))")
    own = _indexed_loan()[1]
    calls = []
    for sheet, closings in ((None, CLOSED), (sheets.DISTINCT, CLOSED[:1])):
        regions, _ = _certain_regions(source, ((2, 1, 0, 700), (2, 0, 1, 30), (1, 0, 0, 1)), sheet)
        lent = [] if sheet is None else [_lending(sheet)]
        regions = [region[len(lent) :] + fractions for region in regions]  # the sheet is lent once
        regions[1] += _marks(b"a") + _fed(b"(claims 1001)") + _marks(b"A", b"b")
        calls += _agreed([*lent, *(call for joined in book_runs.groupings(_joined, regions) for call in (*joined, *closings))])
        calls += _fed(own, *_small(0), b"(claims 3)") + _marks(b"A", b"b", b"a") + CLOSED
    return calls


def _other_grouping_calls():
    """Three regions of which some groupings are 16 and the others write the same bytes: the first takes the second to 5% unscored, but not where the third is with either.

    Of the second's loans all but the one without a score are fed to the joined book.
    """
    header = book_runs.book_header(1, 1, 0)
    unscored = _certain_unscored(header)
    aged = _certain_balance(b"785 61", sheets.DISTINCT, book_runs.book_header(1, 0, 0))
    regions = [_counted(1, 0, 0) + _fed(aged), _counted(19, 1, 0) + _fed(next(unscored)), _opening(header) + _fed(next(unscored))]
    joined = list(book_runs.groupings(_joined, regions))
    well = [calls for calls in joined if b"j 16\n" not in answers(calls)]
    assert (len(joined), len(well)) == (12, 8)
    after = _fed(*_small(13) * 18) + CLOSED[:1]
    _agreed([call for calls in well for call in calls + after])
    return [call for calls in joined for call in calls + (after if calls in well else CLOSED[:1])]


def _with_past(lines, withdrawn, sheet=None):
    """The calls of a book of an all-zero header with marks, returns, refused and withdrawn lines before and after these lines, which alone still stand."""
    calls = _with_lines(sheet=sheet) + _marks(b"a") + _fed(*withdrawn, b"x") + _marks(b"a", b"A") + _fed(*lines, *lines[:1])
    return calls + _marks(b"b") + _fed(*withdrawn[1:]) + _marks(b"B", b"C")


def _neutral_calls(source):
    """A book of an all-zero header with the same index lines, under the same sheet, on either side of a book (request L9).

    The closings write the same bytes and the book goes on taking what it took: the loan that it is short of (0) and none more (5), no index value again (11). So it is
    with a neutral book that has a past, and with two joined.
    """
    _, own, december, _ = _indexed_loan()
    calls = []
    for sheet in (None, sheets.DISTINCT):
        (whole,), _ = _certain_regions(source, ((3, 1, 1, 1000),), sheet)
        loan = next(call for call in whole if b"(from 201003)" in call)
        short = [call for call in whole if call != loan]
        plain = _with_lines(december, own, sheet=sheet)
        past = _with_past([own, december], [own.replace(b"9000", b"9001"), b"(stated 7)", loan[1:]], sheet)
        calls += _agreed([*whole, *CLOSED, b"k", *plain, b"j", *CLOSED, b"k", *plain, b"x", b"j", *CLOSED])
        calls += _agreed(plain + CLOSED[:1] + _joined(plain, past) + CLOSED[:1]) + _fed(own, b"(claims 1)")
        after = CLOSED[:1] + [loan, loan] + _fed(own, december) + _marks(b"A", b"B") + CLOSED[:1]
        ways = [short, *(_joined(*pair) for each in (past, _joined(plain, past)) for pair in ((short, each), (each, short)))]
        assert len({tuple(answers(way + after)[-len(after) :]) for way in ways}) == 1
        calls += [call for way in ways for call in way + after]
    return calls


def _full_neutral_calls():
    """99,999 and 100,000 lines that are not loans, with ten index lines: a neutral book on either side joins, and 8 comes exactly where it came before."""
    neutral, one = _with_lines(*TEN_VALUES[::-1]), _fed(b"(c 7)")
    many = _many_lines(99_989, *TEN_VALUES)
    calls = [*one, *one, *neutral, b"j", *one, *one, *neutral, b"x", b"j", *one, *one, b"k", *neutral, b"j", *one, b"k", *neutral, b"x", b"j", *one]
    told = answers(many + calls)[len(many) :]
    joined = b"".join(answer for call, answer in zip(calls, told) if call in (b"j", *one))
    assert joined == b"f 0\nf 8\n" + b"j 0\nf 0\nf 8\n" * 2 + b"j 0\nf 8\n" * 2
    return many + calls + _fed(TEN_VALUES[0], book_runs.index(b"toronto", FIRST, 7)) + CLOSED[:1]


def _not_neutral_calls():
    """What is not neutral: an index line fewer or more and another sheet (16); a line of nothing, which counts (8, and 16 at 100,000); held of 1, which is taken from home."""
    header, own, december, line = _indexed_loan()
    whole = _opening(header) + _fed(own, december, line)
    calls = []
    for other in (_with_lines(own), _with_lines(own, december, book_runs.index(b"other", DECEMBER, 7)), _with_lines(own, december, sheet=FLAT)):
        both = _both_ways(whole, other)
        assert answers(both).count(b"j 16\n") == 2
        calls += both
    held = _counted(0, 0, 0, 1) + _fed(own, december)
    for pair in ((whole, held), (held, whole)):
        joined = _joined(*pair) + CLOSED[:1]
        assert answers(whole + CLOSED[:1])[-1] != answers(joined)[-1]
        calls += joined
    zero, one = _with_lines(b"(stated 0)"), _fed(b"(c 7)")
    calls += [*_many_lines(99_999), *zero, b"j", *one, *zero, b"x", b"j", *one, *CLOSED[:1]]
    return [*calls, b"k", *zero, b"j", *zero, b"x", b"j", *CLOSED[:1]]


def _table_calls(source, header, loans):
    """Calls for the table."""
    # Of no book; then of one that has not all its loans: 6 before 9, whatever the buffer.
    calls = [b"o"] + _closings(b"t")
    calls += [b"o" + header, *_fed(*loans[:2])] + _closings(b"t")
    # A loan that is refused, with 5 or for its range, is in no cell, before the last loan and after it.
    calls += _fed(loans[2].replace(b"(bal ", b"(bal 9"), loans[2]) + _closings(b"t") + _fed(*loans)
    # Once more and after the report: a closing changes nothing, and lines go on being taken.
    calls += [b"t8192", b"t8192", b"c512", b"t8192", b"f(equity 7)", b"t8192", b"c512"]
    # A refused opening leaves no loan.
    calls += [b"o" + header, b"f" + loans[0], b"o(claims 7)", b"t8192", b"f" + loans[0], b"t8192"]
    # The limits of the columns, in two orders with refused lines between.
    count = len(list(book_runs.limit_amounts())) * 3
    many = book_runs.book_header(count, 0, count)
    limits = list(_limit_loans(many))
    for _ in range(2):
        calls += _feedings(source, many, limits) + [b"t8191", b"t8192"]
    return calls


def _input(calls):
    return b"".join(call + b"\n" for call in calls)


def stored_files():
    calls = _stored_calls()
    assert len(_input(calls)) <= INPUT
    return {"stdin": _input(calls), "stdout": b"".join(answers(calls))}


def _book_calls(source):
    """A book, its sheet or None, and calls that make it in two orders, the second by way of marks and returns; the program reads them whole."""
    while True:
        lines = book_runs.whole_book(source)
        sheet = sheets.kept(source) if source.randrange(2) else None
        closings = [b"%s%d" % (kind, size) for kind in SIZES for size in (LEAST[kind] - 1, source.choice(SIZES[kind][2:]))]
        calls = [call for way in (_feedings, _by_marks) for call in way(source, lines[0], lines[1:], sheet) + closings]
        if len(_input(calls)) <= INPUT:
            return lines, sheet, calls


def _texts(printed, kind):
    """The texts that the closings of a kind wrote, in turn."""
    closings = re.findall(rb"(?m)^%s 0 (\d+)\n(?s:(.{%d}))\n" % (kind, BUFFERS[kind]), printed)
    return [written[: int(length)] for length, written in closings]


def _problem(run, source):
    """What is wrong with the answers of one book's calls in two orders, or None; the input and what was printed."""
    lines, sheet, calls = _book_calls(source)
    data = _input(calls)
    printed = run(data)
    reports, tables = (_texts(printed, kind) for kind in SIZES)
    if not len(reports) == len(tables) == 2 or len({*reports}) + len({*tables}) != 2:
        return "not two equal reports and two equal tables", data, printed
    report, table = reports[0], tables[0]
    expected = b"".join(answers(calls, {b"c": lambda _: report, b"t": lambda _: table}))
    if printed != expected:
        return f"expected {expected!r}", data, printed
    found = book.run(b"\n".join(lines), sheet)
    return book_runs.problem(found, report) or book_runs.table_problem(found, report, table), data, printed


def _region_calls(source, region):
    """The calls of a region's book, in a shuffled order or by way of marks and returns, with refused lines between; now and then some lines short."""
    way = source.choice((_feedings, _by_marks))
    calls = way(source, region.lines[0], region.lines[1:], region.sheet)
    return calls[: len(calls) - source.randrange(1, 4)] if source.randrange(12) == 0 and len(calls) > 6 else calls


def _neutral_to(source, found):
    """The calls that join a book with one under its sheet with its index lines, in another order, and no other line, on either side, close it and keep it; it is kept before."""
    header, *indexed = book_runs.neutral_input(source, found).splitlines()
    return [*_opening(header, found.sheet), *_fed(*indexed), *source.choice(([b"j"], [b"x", b"j"])), *CLOSED, b"k"]


def joining_calls(source):
    """The calls that join some regions in turn, now and then a book with the one that it was joined to or with a neutral one, those of one book with the lines of each that is
    joined further, and now and then those that join the first three in another grouping."""
    found, program, calls = book_runs.regions(source, source.choice((2, 2, 3, 4))), Program(), []
    regions = [_region_calls(source, region) for region in found]

    def make(*further):
        calls.extend(further)
        return [program.answer(call, {kind: lambda _: b"" for kind in SIZES}) for call in further]

    make(*regions[0], b"k")
    for region, fed in zip(found[1:], regions[1:]):
        make(*fed)
        again = source.choice(([], [], [], [b"j", *CLOSED]))
        if b"j 16\n" in make(b"j", *CLOSED, *again):
            # What stands then, and the copy as before: a neutral book changes nothing in it.
            make(b"f" + source.choice(region.lines[1:] or [b""]), *CLOSED, *_neutral_to(source, program.kept))
        else:
            make(b"k", *_as_one(source, program.book), *CLOSED)
            make(*(_neutral_to(source, program.kept) if source.randrange(4) == 0 else ()))
    if len(regions) > 2 and source.randrange(2):
        make(*source.choice(list(book_runs.groupings(_joined, regions[:3]))), *CLOSED)
    return calls


def _as_one(source, joined):
    """The calls of one book with the header of a joined one and the lines still standing in it."""
    header, *lines = book_runs.as_one(source, joined)
    return _opening(header, joined.sheet) + _fed(*lines)


class _Closed:
    """What a program wrote at the closings of its calls, by the reference's book at each."""

    def __init__(self, printed):
        self.left = {kind: _texts(printed, kind) for kind in SIZES}
        self.books = {}  # by header, sheet and lines: the book and its texts of either kind

    def text(self, kind):
        """What gives the text of a book that is closed: the next one written."""

        def written(found):
            text = self.left[kind].pop(0) if self.left[kind] else b""
            sheet = found.sheet or sheets.BUILT_IN
            key = found.loans, found.unscored, found.fresh, found.held, sheet, tuple(sorted(found.standing_lines()))
            self.books.setdefault(key, (found.copy(), {each: set() for each in SIZES}))[1][kind].add(text)
            return text

        return written

    def problem(self):
        """What is wrong with the texts, or None: those of books with the same header, sheet and lines are the same, and they are the book's."""
        for found, texts in self.books.values():
            if any(len(each) != 1 for each in texts.values()):
                return "not one report and one table of books with the same lines"
            (report,), (table,) = texts[b"c"], texts[b"t"]
            wrong = book_runs.problem(found, report) or book_runs.table_problem(found, report, table)
            if wrong is not None:
                return wrong
        return None


def _joining_problem(run, source):
    """What is wrong with the answers of calls that join books, or None; the input and what was printed."""
    calls = joining_calls(source)
    while len(_input(calls)) > INPUT:
        calls = joining_calls(source)
    data = _input(calls)
    printed = run(data)
    closed = _Closed(printed)
    expected = b"".join(answers(calls, {kind: closed.text(kind) for kind in SIZES}))
    return closed.problem() if printed == expected else f"expected {expected!r}", data, printed


def results(run, seed, count):
    """What came out of so many lists of calls: of a book in two orders, and of books that are joined, by turns."""
    source = random.Random(seed)
    return ((_joining_problem if i % 2 else _problem)(run, source) for i in range(count))


def further(program, seed, count):
    failed = 0
    for result in results(book_runs.Runner(program), seed, count):
        if result[0] is not None:
            failed += 1
            print(book_runs.failure(*result))
    print(f"{count - failed} within, {failed} outside")
    return failed == 0


if __name__ == "__main__":
    stored.main("try_book", __doc__, stored_files, further)
