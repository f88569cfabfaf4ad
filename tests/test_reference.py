"""The reference held to document 01's twelve examples, and to Python's own decimal exponential."""
import decimal
import functools
import itertools
import random
import unicodedata
import unittest
from fractions import Fraction as F

import book_cases
import book_runs
import line_cases
import near_bounds
import sheets
from reference import book, cells, exponential, forms, house_index, loan, sheet


class Examples(unittest.TestCase):
    def test_01_bracket(self):
        self.assertEqual(exponential.bracket(1, 2), (F(6, 17), F(2, 5)))

    def test_02_c1_other_set(self):
        self.assertEqual(loan.coefficients(192, 61)[0]["c1"], 2488)
        self.assertEqual(loan.coefficients(193, 61)[0]["c1"], F(29635, 12))

    def test_03_sigma2_first_set(self):
        self.assertEqual(loan.coefficients(186, 60)[0]["sigma2"], F(16, 100))
        self.assertEqual(loan.coefficients(187, 60)[0]["sigma2"], F(19433, 120000))

    def test_04_c2(self):
        for term in (60, 61):
            self.assertEqual(loan.coefficients(8, term)[0]["c2"], F(-25, 3))
            self.assertEqual(loan.coefficients(9, term)[0]["c2"], F(5, 4))

    def test_05_exponent(self):
        self.assertEqual(loan.exponent(F(1), F(90, 100), F(17, 100)), F(50, 289))

    def test_06_credit_factor(self):
        self.assertEqual(loan.credit_factor((719, 13), True, 1, 0), 1)
        self.assertEqual(loan.credit_factor((720, 12), True, 1, 0), F(65, 100))

    def test_07_unscored(self):
        self.assertEqual(loan.credit_factor(None, False, 20, 1), F(13, 10))
        self.assertEqual(loan.credit_factor(None, False, 19, 1), 3)

    def test_08_add_on(self):
        self.assertEqual(book.add_on(b"rate", 60), F(5, 1000))
        self.assertEqual(book.add_on(b"rate", 61), F(15, 1000))

    def test_09_provision(self):
        form = forms.read_feeding(b"(policy (class multi) (prem 1000000) (term 300) (done 5))")
        self.assertEqual(book.rest_share(form), 75000)

    def test_10_admitted_b(self):
        self.assertEqual(book.admitted(600, 500, 100), (400, 0))

    def test_11_admitted_c(self):
        self.assertEqual(book.admitted(9300, 0, 1000), (0, 700))

    def test_12_report(self):
        found = book.run(
            b"(book (loans 0) (unscored 0) (fresh 0) (held 0))\n"
            b"(asset (amount 100000) (factor 25))\n(claims 1001)\n(equity 1000)\n(c 100)\n"
        )
        self.assertEqual(
            found.report(0, 0),
            b"(loans 0)\n(total 0)\n(supplement 0)\n(home 0)\n(moved 0)\n(rest 451)\n(oper 91)\n"
            b"(required 542)\n(capital 1075)\n(ratio 29750)\n",
        )


class Exponential(unittest.TestCase):
    def test_against_decimal(self):
        source = random.Random(1)
        with decimal.localcontext() as context:
            context.prec = 90
            for _ in range(400):
                y = F(source.randrange(10**12), source.choice((10**9, 10**10, 10**11, 10**12)))
                y = min(y, F(100))
                low, high = exponential.bounds(y)
                value = (-decimal.Decimal(y.numerator) / decimal.Decimal(y.denominator)).exp()
                close = value * decimal.Decimal(10) ** -80
                self.assertLess(low, F(value + close))
                self.assertGreater(high, F(value - close))
                self.assertLess(high - low, low * F(1, 10**60))

    def test_inside_every_bracket(self):
        for y in (F(0), F(1, 64), F(1), F(50, 289), F(7, 2), F(24)):
            low, high = exponential.bounds(y)
            for n in (48, 60, 90):
                least, greatest = exponential.bracket(y, n)
                self.assertLessEqual(least, high)
                self.assertLessEqual(low, greatest)

    def test_sign_of_huge_exponents(self):
        far = F(10**21)
        self.assertEqual(exponential.combination_sign([(F(-5), far), (F(1), far - 2)]), 1)
        self.assertEqual(exponential.combination_sign([(F(-9), far), (F(1), far - 2)]), -1)
        self.assertEqual(exponential.combination_ceil([(F(1), far)]), 1)
        self.assertEqual(exponential.combination_ceil([(F(-1), far)]), 0)
        self.assertEqual(exponential.combination_floor([(F(-1), far)]), -1)


class CloserCents(unittest.TestCase):
    """Request L7: which whole numbers lie less than one and a twentieth cents from an exact amount, on their side."""

    def test_totals(self):
        for amount, allowed in (
            ("0", (0, 1)), ("0.0001", (1, 1)), ("0.5", (1, 1)), ("0.9499", (1, 1)), ("0.95", (1, 1)), ("0.9501", (1, 2)), ("1", (1, 2)),
            ("-0.04", (0, 1)), ("-0.05", (0, 0)), ("-0.06", (0, 0)), ("-7.01", (-7, -6)), ("-7.05", (-7, -7)), ("-7.99", (-7, -7)),
        ):
            self.assertEqual(loan.allowed_total([(F(amount), F(0))]), allowed, amount)

    def test_supplements(self):
        for amount, allowed in (
            ("0", (-1, 0)), ("0.0499", (-1, 0)), ("0.05", (0, 0)), ("0.0501", (0, 0)), ("0.9999", (0, 0)), ("1", (0, 1)), ("1.04", (0, 1)), ("1.06", (1, 1)),
            ("-0.5", (-1, -1)), ("-0.95", (-1, -1)), ("-0.96", (-2, -1)), ("-7", (-8, -7)),
        ):
            self.assertEqual(loan.allowed_supplement([(F(amount), F(0))]), allowed, amount)
        self.assertEqual(loan.allowed_supplement([]), (0, 0))

    def test_exactly_a_bound_away(self):
        """With an exponential: an amount that is just above or below the last one that allows a second number."""
        small = (F(1, 10**30), F(3))
        self.assertEqual(loan.allowed_total([(F("0.95"), F(0)), small]), (1, 2))
        self.assertEqual(loan.allowed_total([(F("0.95"), F(0)), (-small[0], F(3))]), (1, 1))
        self.assertEqual(loan.allowed_supplement([(F("0.05"), F(0)), small]), (0, 0))
        self.assertEqual(loan.allowed_supplement([(F("0.05"), F(0)), (-small[0], F(3))]), (-1, 0))

    @staticmethod
    def _beyond(terms):
        """How far an amount lies above the last whole number of cents."""
        low, high = exponential.combination_bounds(terms)
        return (low + high) / 2 % 1

    def test_loans_next_to_bounds(self):
        """The loans of the tests lie next to every bound, on both sides, with and without a supplement, above and below 0."""
        met = set()
        for z, balance, months, term, sup, m in near_bounds.loans(random.Random(3)):
            total, supplement = (amount(z, balance, months, term, sup, m) for amount in (loan.total, loan.supplement))
            numbers = [low <= self._beyond(total) <= high for low, high in near_bounds.TOTALS]
            others = [low <= self._beyond(supplement) <= high for low, high in near_bounds.SUPPLEMENTS] if sup else []
            self.assertTrue(any(numbers + others))
            below = exponential.combination_sign(total) < 0
            least, greatest = loan.allowed_total(total)
            for i in (i for i, there in enumerate(numbers) if there):
                self.assertEqual(greatest - least, int(i >= 2))
                met.add(("total", sup, i, below))
            least, greatest = loan.allowed_supplement(supplement)
            for i in (i for i, there in enumerate(others) if there):
                self.assertEqual(greatest - least, int(i >= 2))
                met.add(("supplement", sup, i, below))
        wanted = {(of, sup, i, below) for of, sup in (("total", 0), ("total", 1), ("supplement", 1)) for i in range(4) for below in (False, True)}
        self.assertEqual(wanted - met, set())

    def test_farthest_books(self):
        """The loans of these books: the nearest whole numbers are almost a cent away."""
        for lines in book_runs.farthest_books():
            loans = [forms.read_feeding(line) for line in lines if line.startswith(b"(loan ")]
            self.assertGreaterEqual(len(loans), 30)
            found = book.run(b"\n".join(lines))
            for form in loans:
                balance, value, *others = found.loan_terms(form)
                of = loan.scaled_value(value, balance), balance, *others
                self.assertLess(self._beyond(loan.total(*of)), F(1, 100))
                self.assertGreater(self._beyond(loan.supplement(*of)), F(99, 100))


class Forms(unittest.TestCase):
    def test_order_of_refusals(self):
        header = b"(book (loans 1000001) (unscored 2000000) (fresh 0) (held 0))"
        self.assertEqual(forms.read_opening(header), 3)
        self.assertEqual(forms.read_feeding(header), 7)
        self.assertEqual(forms.read_opening(b"(claims 99999999999999)"), 7)
        self.assertEqual(forms.read_feeding(b"(claims 99999999999999)"), 3)
        self.assertEqual(forms.read_opening(header.replace(b"1000001", b"1000000")), 4)
        self.assertEqual(forms.read_feeding(b" " * 241), 1)
        self.assertEqual(forms.read_feeding(b" " * 240), 2)
        self.assertEqual(forms.read_feeding(b"(claims 1)\n"), 2)


def fed(header, *lines):
    """A book fed some lines, and their refusals."""
    opened = book.open_book(header)
    return opened, [opened.feed(line) for line in lines]


class HouseIndex(unittest.TestCase):
    HEADER = b"(book (loans 4) (unscored 1) (fresh 3) (held 0))"
    OWN, DECEMBER = book_runs.index(b"toronto", 201003, 9000), book_runs.index(b"toronto", 201512, 15000)
    LOAN = book_runs.loan(700, 100, since=book_runs.made(201003, b"toronto"))

    def refusal(self, *lines, header=HEADER):
        """The refusal of the last line; those before are taken."""
        refusals = fed(header, *lines)[1]
        self.assertFalse(any(refusals[:-1]))
        return refusals[-1]

    def test_areas(self):
        """000, Appendix A, section 2, in lower case without accents, hyphens or spaces."""
        paper = "Calgary Edmonton Halifax Hamilton Montr\u00e9al Ottawa-Gatineau Qu\u00e9bec Toronto Vancouver Victoria Winnipeg".split()
        plain = [unicodedata.normalize("NFD", name).encode("ascii", "ignore").lower().replace(b"-", b"") for name in paper]
        self.assertEqual(list(forms.AREAS), plain + [b"other"])

    def test_months(self):
        """What is not among the months is 3, a leading zero is no D."""
        taken = (190001, 190012, 199906, 200412, 200501, 201511, 201512, 209912)
        not_taken = (0, 1, 12, 189912, 190000, 190013, 200413, 200500, 201513, 209913, 210001, 20151, 2015012, 99_999_999_999_912)
        for month in taken:
            self.assertEqual(forms.read_feeding(book_runs.loan(7, 7, since=book_runs.made(month))).values[-2:], (month, b"other"))
        for month in not_taken:
            self.assertEqual(forms.read_feeding(book_runs.loan(7, 7, since=book_runs.made(month))), 3)
        for month in (b"0201512", b"", b"201512012345678", b"2015-12"):
            self.assertEqual(forms.read_feeding(book_runs.loan(7, 7, since=b"(from %s) (area other)" % month)), 2)

    def test_index_line(self):
        for month, value in ((200501, 1), (200512, 1_000_000), (201512, 7)):
            self.assertEqual(forms.read_feeding(book_runs.index(b"quebec", month, value)), ("index", (b"quebec", month, value)))
        for month, value in ((200412, 7), (200500, 7), (200513, 7), (201513, 7), (201601, 7), (0, 7), (201512, 0), (201512, 1_000_001)):
            self.assertEqual(forms.read_feeding(book_runs.index(b"quebec", month, value)), 3)
        for line in (b"(index regina 201512 7)", b"(index Quebec 201512 7)", b"(index quebec 201512 07)", b"(index quebec 0201512 7)", b"(index quebec 201512)"):
            self.assertEqual(forms.read_feeding(line), 2)
        self.assertEqual(forms.read_opening(self.OWN), 7)

    def test_forms(self):
        """The form without month and area is none any more; no form is longer than a line may be."""
        self.assertEqual(forms.read_feeding(b"(loan (bal 7) (val 7) (amort 7) (term 7) (score none) (sup 1))"), 2)
        self.assertEqual(max(len(line_cases.longest(fields)) for fields in line_cases.FIELDS.values()), 196)

    def test_property_value(self):
        """9000 in its month and 15000 in December 2015: five thirds of the value, not rounded."""
        opened, refusals = fed(self.HEADER, self.OWN, self.DECEMBER, self.LOAN)
        self.assertEqual(refusals, [0, 0, 0])
        self.assertEqual(opened.property_value(opened.taken[-1]), F(500, 3))
        self.assertEqual(opened.loan_terms(opened.taken[-1])[:2], (700, F(500, 3)))

    def test_values_that_stay(self):
        """Before 2005 and from December 2015 on nothing is looked up, whatever is set."""
        lines = [book_runs.index(b"other", month, value) for month, value in ((200501, 1), (201511, 2), (201512, 1_000_000))]
        for month in (190001, 200412, 201512, 201601, 209912):
            for before in ((), lines):
                opened, refusals = fed(self.HEADER, *before, book_runs.loan(7, 9, since=book_runs.made(month)))
                self.assertEqual((refusals[-1], opened.property_value(opened.taken[-1])), (0, 9))
        for month, value in ((200501, 9_000_000), (201511, 4_500_000)):
            opened, refusals = fed(self.HEADER, *lines, book_runs.loan(7, 9, since=book_runs.made(month)))
            self.assertEqual((refusals[-1], opened.property_value(opened.taken[-1])), (0, value))

    def test_missing(self):
        """12 where either value is not set, also where they would be equal; another area's values do not serve."""
        self.assertEqual(self.refusal(self.LOAN), 12)
        self.assertEqual(self.refusal(self.OWN, self.LOAN), 12)
        self.assertEqual(self.refusal(self.DECEMBER, self.LOAN), 12)
        self.assertEqual(self.refusal(self.DECEMBER, self.OWN, self.LOAN), 0)
        for area in (b"other", b"vancouver"):
            lines = [line.replace(b"toronto", area) for line in (self.OWN, self.DECEMBER)]
            self.assertEqual(self.refusal(*lines, self.LOAN), 12)
            self.assertEqual(self.refusal(*lines, self.LOAN.replace(b"toronto", area)), 0)
        places = ((b"toronto", 201003), (b"toronto", 201512))
        said = book.loan_values(forms.read_feeding(self.LOAN))
        self.assertEqual(house_index.missing(said, {}), list(places))
        self.assertEqual(house_index.missing(said, {places[0]: 7}), [places[1]])

    def test_second_value(self):
        """11 for an equal value too; the first stays."""
        for again in (self.OWN, self.OWN.replace(b"9000", b"9001")):
            opened, refusals = fed(self.HEADER, self.OWN, again, self.DECEMBER, self.LOAN)
            self.assertEqual((refusals, opened.other_count, opened.index[b"toronto", 201003]), ([0, 11, 0, 0], 2, 9000))
        self.assertEqual(self.refusal(self.OWN, self.OWN.replace(b"toronto", b"other")), 0)
        self.assertEqual(self.refusal(self.OWN, self.OWN.replace(b"201003", b"201004")), 0)

    def test_order_of_refusals(self):
        none = b"(book (loans 0) (unscored 0) (fresh 0) (held 0))"
        unscored = b"(book (loans 1) (unscored 0) (fresh 1) (held 0))"
        self.assertEqual(self.refusal(self.LOAN, header=none), 5)
        self.assertEqual(self.refusal(self.LOAN.replace(b"720 7", b"none"), header=unscored), 5)
        self.assertEqual(self.refusal(self.LOAN.replace(b"(bal 700)", b"(bal 0)"), header=none), 3)
        full, _ = fed(self.HEADER, self.OWN)
        full.other_count = book.OTHER_LINES
        self.assertEqual([full.refusal(line) for line in (self.OWN, self.DECEMBER, self.OWN.replace(b"9000", b"0"))], [8, 8, 3])

    def test_figures(self):
        """Index lines are no part of any figure."""
        lines = [b"(asset (amount 100000) (factor 25))", b"(equity 1000)"]
        with_index, without = (fed(self.HEADER, *before, *lines)[0] for before in ((self.OWN, self.DECEMBER), ()))
        self.assertEqual(with_index.figures(0, 0), without.figures(0, 0))
        self.assertEqual((with_index.other_count, without.other_count), (4, 2))

    def test_columns(self):
        """The columns go by the value so found: 65 over 39 times 15000 / 9000 is 100%, over 60 times that 65%."""
        for value, column in ((39, 5), (41, 5), (42, 4), (43, 4), (44, 3), (48, 3), (49, 2), (59, 2), (60, 1), (61, 1)):
            line = book_runs.loan(65, value, b"none", since=book_runs.made(201003, b"toronto"))
            opened, _ = fed(self.HEADER, self.OWN, self.DECEMBER, line)
            self.assertEqual(cells.place(opened, opened.taken[-1]), (12, column))

    def test_equal_fractions(self):
        """The exact amounts depend on value times index over index alone."""
        plain = fed(self.HEADER, book_runs.loan(150_000, 200_000))[0].exact_requirement()
        for value, own, december in ((200_000, 100, 100), (100_000, 1, 2), (100_000, 2, 4), (100_000, 500_000, 1_000_000), (400_000, 6, 3)):
            lines = book_runs.index(b"other", 200501, own), book_runs.index(b"other", 201512, december)
            opened, refusals = fed(self.HEADER, *lines, book_runs.loan(150_000, value, since=book_runs.made(200501)))
            self.assertEqual(refusals, [0, 0, 0])
            self.assertEqual(opened.exact_requirement(), plain)

    def test_another_order(self):
        """Lines in another order that takes them too."""
        source = random.Random(4)
        lines = [self.OWN, self.DECEMBER, self.LOAN, self.LOAN, b"(equity 7)", book_runs.LOAN[:-1]]
        orders = {tuple(book_runs.another_order(source, lines)) for _ in range(300)}
        self.assertGreater(len(orders), 30)
        for order in orders:
            self.assertEqual(sorted(order), sorted(lines))
            self.assertFalse(any(fed(self.HEADER, *order)[1]))


class Fresh(unittest.TestCase):
    """Request L5, by hand."""

    def header(self, loans, unscored, fresh, held=0):
        return b"(book (loans %d) (unscored %d) (fresh %d) (held %d))" % (loans, unscored, fresh, held)

    def refusals(self, counts, *scores):
        """The refusals of loans with these scores, and that of closing after them."""
        opened, refused = fed(self.header(*counts), *(book_runs.loan(7, 7, score) for score in scores))
        return refused, opened.closing_refusal()

    def test_form(self):
        self.assertEqual(forms.read_opening(b"(book (loans 10) (unscored 1) (fresh 9) (held 3))"), ("book", (10, 1, 9, 3)))
        for line in (
            b"(book (loans 10) (unscored 1) (scores fresh) (held 3))", b"(book (loans 10) (unscored 1) (scores aged) (held 3))",
            b"(book (loans 10) (unscored 1) (scores 9) (held 3))", b"(book (loans 10) (unscored 1) (fresh) (held 3))",
            b"(book (loans 10) (unscored 1) (fresh none) (held 3))", b"(book (loans 10) (unscored 1) (fresh 09) (held 3))",
            b"(book (loans 10) (fresh 9) (unscored 1) (held 3))", b"(book (loans 10) (unscored 1) (fresh 9) (fresh 9) (held 3))",
            b"(book (loans 10) (unscored 1) (held 3))", b"(book (loans 10) (unscored 1) (fresh 100000000000000) (held 3))",
        ):
            self.assertEqual((forms.read_opening(line), forms.read_feeding(line)), (2, 2))
        self.assertEqual(forms.read_feeding(b"(book (loans 10) (unscored 1) (fresh 9) (held 3))"), 7)

    def test_header_counts(self):
        """4 by the sum of both; 3 for loans and held comes first; neither count has a range of its own."""
        most, digits = 1_000_000, 99_999_999_999_999
        for counts in ((0, 0, 0), (10, 1, 9), (10, 0, 10), (10, 10, 0), (10, 1, 8), (most, most, 0), (most, 0, most), (most, 1, most - 1)):
            self.assertEqual(forms.read_opening(self.header(*counts)).values[:3], counts)
        for counts in (
            (0, 0, 1), (0, 1, 0), (10, 1, 10), (10, 2, 9), (10, 0, 11), (10, 11, 0), (most, 1, most), (10, 0, digits), (10, digits, 0),
            (10, digits, digits), (most, 0, digits), (most, digits, digits),
        ):
            self.assertEqual(forms.read_opening(self.header(*counts)), 4)
            self.assertEqual(forms.read_opening(self.header(*counts, 10**13)), 4)
            self.assertEqual(forms.read_opening(self.header(*counts, 10**13 + 1)), 3)
        self.assertEqual(forms.read_opening(self.header(most + 1, 0, digits)), 3)
        self.assertEqual(forms.read_opening(self.header(most + 1, 0, 0)), 3)
        self.assertEqual(book.open_book(self.header(10, 2, 9), [7] * 65), 4)
        self.assertEqual(book.open_book(self.header(10, 1, 9), [7] * 65), 10)

    def test_ages(self):
        for score, fresh in ((None, False), ((300, 0), True), ((900, 12), True), ((720, 13), False), ((720, 600), False)):
            self.assertEqual(loan.is_fresh(score), fresh)

    def test_table(self):
        """90% of the header's loans, and no fewer; 0 of 0 is the first column."""
        first = ((0, 0), (1, 1), (2, 2), (9, 9), (10, 9), (10, 10), (11, 10), (99, 90), (100, 90), (101, 91), (999_999, 900_000), (1_000_000, 900_000))
        aged = ((1, 0), (2, 1), (9, 8), (10, 8), (10, 0), (11, 9), (99, 89), (100, 89), (101, 90), (999_999, 899_999), (1_000_000, 899_999))
        for serving, counts in ((False, first), (True, aged)):
            for loans, fresh in counts:
                self.assertEqual(book.open_book(self.header(loans, 0, fresh)).aged, serving)
        self.assertFalse(book.open_book(self.header(10, 1, 9)).aged)
        self.assertTrue(book.open_book(self.header(10, 2, 8)).aged)

    def test_factors(self):
        """Example 6's loans: on the aged table 1.00 and 0.65, on the first column 0.90 and 0.65."""
        for fresh, factors in ((8, (F(1), F(65, 100))), (9, (F(90, 100), F(65, 100)))):
            opened, refused = fed(self.header(10, 0, fresh), book_runs.loan(7, 7, b"719 13"), book_runs.loan(7, 7, b"720 12"))
            self.assertEqual(refused, [0, 0])
            self.assertEqual(tuple(opened.loan_terms(form)[-1] for form in opened.taken), factors)

    def test_too_many(self):
        """5 by each count alone; a loan that is not fresh is limited by the loans alone."""
        self.assertEqual(self.refusals((3, 0, 1), b"720 12", b"720 0", b"720 13", b"720 13", b"720 13"), ([0, 5, 0, 0, 5], 0))
        self.assertEqual(self.refusals((3, 1, 1), b"none", b"none", b"720 7", b"720 7", b"720 13"), ([0, 5, 0, 5, 0], 0))
        self.assertEqual(self.refusals((2, 0, 2), b"720 7", b"720 7", b"720 7", b"720 13", b"none"), ([0, 0, 5, 5, 5], 0))
        self.assertEqual(self.refusals((2, 1, 1), b"720 13", b"720 13", b"720 13", b"720 7", b"none"), ([0, 0, 5, 5, 5], 6))
        self.assertEqual(self.refusals((1, 1, 0), b"720 7", b"none"), ([5, 0], 0))
        self.assertEqual(self.refusals((1, 0, 1), b"none", b"720 7"), ([5, 0], 0))
        self.assertEqual(self.refusals((0, 0, 0), b"720 7", b"720 13", b"none"), ([5, 5, 5], 0))

    def test_too_few(self):
        """6 by each count alone, and before 9."""
        for scores in ((b"720 7", b"none"), (b"720 7", b"720 13", b"720 13"), (b"none", b"720 13", b"720 13"), ()):
            self.assertEqual(self.refusals((3, 1, 1), *scores), ([0] * len(scores), 6))
            opened, _ = fed(self.header(3, 1, 1), *(book_runs.loan(7, 7, score) for score in scores))
            self.assertEqual([opened.closing_refusal(size, 512) for size in (0, 511, 512)], [6, 6, 6])
        opened, _ = fed(self.header(3, 1, 1), *(book_runs.loan(7, 7, score) for score in (b"none", b"720 13", b"720 7")))
        self.assertEqual([opened.closing_refusal(size, 512) for size in (0, 511, 512)], [9, 9, 0])

    def test_order_of_refusals(self):
        """3 before 5, and 5 before 12."""
        lacking = book_runs.loan(7, 7, since=book_runs.made(201003))
        tried = (lacking, lacking.replace(b"720 7", b"720 13"), lacking.replace(b"(bal 7)", b"(bal 0)"))
        self.assertEqual(fed(self.header(1, 0, 0), *tried)[1], [5, 12, 3])
        self.assertEqual(fed(self.header(3, 0, 1), book_runs.loan(7, 7), *tried)[1], [0, 5, 12, 3])

    def test_header_decides(self):
        """The table goes by the header's counts, whatever lines are there yet; a refused opening's value is on the first column."""
        for fresh, aged in ((9, False), (8, True)):
            for line in (book_runs.loan(7, 7), book_runs.loan(7, 7, b"720 13")):
                opened, _ = fed(self.header(10, 0, fresh), line)
                self.assertEqual((opened.aged, opened.closing_refusal()), (aged, 6))
        self.assertFalse(book.Book(0, 0, 0, 0).aged)

    def test_generated_books(self):
        """Books that the tests generate are taken; a third at least are on either table, and many have exactly 90% fresh ones."""
        source = random.Random(5)
        opened = [book.run(b"\n".join(book_runs.whole_book(source))) for _ in range(400)]
        aged = sum(found.aged for found in opened)
        self.assertTrue(len(opened) <= 3 * aged <= 2 * len(opened))
        self.assertGreater(sum(found.loans > 0 and 10 * found.fresh == 9 * found.loans for found in opened), 20)


class Marks(unittest.TestCase):
    """Request L6, by hand."""

    HEADER = b"(book (loans 3) (unscored 1) (fresh 1) (held 0))"
    ONE, TWO, THREE, FOUR = (b"(stated %d)" % number for number in (1, 2, 4, 8))
    FRESH, AGED, UNSCORED = (book_runs.loan(7, 7, score) for score in (b"720 12", b"720 13", b"none"))

    def standing(self, *lines, header=HEADER):
        """The lines still standing after lines that are all taken."""
        opened, refusals = fed(header, *lines)
        self.assertEqual(refusals, [0] * len(lines))
        return opened.standing_lines()

    def test_names(self):
        for name in (b"a", b"z", b"west", b"abcdefghijkl", b"zzzzzzzzzzzz"):
            self.assertEqual(forms.read_feeding(b"(mark %s)" % name), ("mark", (name,)))
            self.assertEqual(forms.read_feeding(b"(back %s)" % name), ("back", (name,)))
            self.assertEqual((forms.read_opening(b"(mark %s)" % name), forms.read_opening(b"(back %s)" % name)), (7, 7))
        for name in (b"", b"abcdefghijklm", b"A", b"West", b"a1", b"1", b"a b", b" a", b"a ", b"a-b", b"a)", "\u00e9".encode(), b"`", b"{", b"NAME"):
            for word in (b"mark", b"back"):
                line = b"(%s %s)" % (word, name)
                self.assertEqual((forms.read_feeding(line), forms.read_opening(line)), (2, 2))
        for line in (b"(mark)", b"(mark a", b"mark a)", b"(mark a b)", b"(mark a)\n", b"(marks a)", b"(Mark a)", b"(mark %s)" % (b"a" * 233)):
            self.assertEqual(forms.read_feeding(line), 2)
        self.assertEqual(forms.read_feeding(b"(mark %s)" % (b"a" * 234)), 1)

    def test_numbers_of_names(self):
        """a = 1 to z = 26, aa = 27, and so on without a gap; the greatest is that of twelve z."""
        for name, number in ((b"a", 1), (b"z", 26), (b"aa", 27), (b"az", 52), (b"ba", 53), (b"zz", 702), (b"aaa", 703), (b"z" * 12, 99_246_114_928_149_462)):
            self.assertEqual((line_cases.number_of(name), line_cases.name_of(number)), (number, name))
        self.assertEqual([line_cases.number_of(line_cases.name_of(number)) for number in range(1, 20_000)], list(range(1, 20_000)))
        self.assertEqual(sum(26**length for length in range(1, 13)), 99_246_114_928_149_462)

    def test_return(self):
        """The lines that stood at the mark stand again; the mark returned to stays, and those set after it are dropped."""
        a, b, c = (book_runs.mark(name) for name in (b"a", b"b", b"c"))
        to_a, to_b, to_c = (book_runs.back(name) for name in (b"a", b"b", b"c"))
        one, two, three, four = self.ONE, self.TWO, self.THREE, self.FOUR
        for lines, left in (
            ((a,), ()),
            ((one, a, two), (one, two)),
            ((one, a, two, to_a), (one,)),
            ((one, a, two, to_a, three), (one, three)),
            ((one, a, two, to_a, three, to_a, four), (one, four)),
            ((one, a, two, b, three, to_a, four), (one, four)),
            ((one, a, two, b, three, to_b, four), (one, two, four)),
            ((one, a, two, b, three, to_b, four, to_a), (one,)),
            ((one, a, two, b, three, to_a, four, b, two, to_b), (one, four)),  # b once more, after a
            ((one, a, two, b, three, to_a, four, c, two, to_a, b, three, to_b), (one,)),
            ((one, a, b, c, two, to_c, to_b, to_a, three), (one, three)),
            ((one, one, a, one, to_a, one), (one, one, one)),  # a line that is added twice counts twice
        ):
            self.assertEqual(self.standing(*lines), list(left))

    def test_refusals(self):
        """13 for a name that is kept, 14 for a ninth mark, 15 for a return to a name that is not kept; 13 before 14. A refused one changes nothing."""
        a, b, c = (book_runs.mark(name) for name in (b"a", b"b", b"c"))
        to_a, to_b, to_c = (book_runs.back(name) for name in (b"a", b"b", b"c"))
        for lines, refusals in (
            ((a, a, to_a, a), [0, 13, 0, 13]),
            ((to_a, a, to_b, to_a), [15, 0, 15, 0]),
            ((a, b, c, to_b, to_c, c, to_c, b, to_a, to_b, to_c, b), [0, 0, 0, 0, 15, 0, 0, 13, 0, 15, 15, 0]),
        ):
            self.assertEqual(fed(self.HEADER, *lines)[1], refusals)
        opened, refusals = fed(self.HEADER, self.ONE, a, self.TWO, a, self.THREE, to_b, to_a)
        self.assertEqual((refusals, opened.standing_lines(), list(opened.marks)), ([0, 0, 0, 13, 0, 15, 0], [self.ONE], [b"a"]))
        eight = book_runs.EIGHT_NAMES
        self.assertEqual(len(set(eight)), 8)
        opened, refusals = fed(self.HEADER, *map(book_runs.mark, eight), self.ONE)
        self.assertEqual(refusals, [0] * 9)
        self.assertEqual([opened.feed(book_runs.mark(name)) for name in (b"ninth", *eight, b"ninth")], [14, *[13] * 8, 14])
        self.assertEqual([opened.feed(line) for line in (book_runs.back(b"ninth"), book_runs.back(eight[6]), book_runs.mark(eight[7]), book_runs.mark(b"ninth"))], [15, 0, 0, 14])
        self.assertEqual([opened.feed(line) for line in (book_runs.back(eight[6]), book_runs.mark(b"ninth"), book_runs.back(eight[7]), book_runs.mark(eight[7]))], [0, 0, 15, 14])

    def test_counts(self):
        """5 and 8 count the lines still standing, and 6 too; neither a mark nor a return is one of the other lines."""
        a, to_a = book_runs.mark(b"a"), book_runs.back(b"a")
        lines = self.AGED, a, self.FRESH, self.FRESH, self.UNSCORED, self.UNSCORED, to_a, self.UNSCORED, self.UNSCORED, self.FRESH, self.FRESH
        opened, refusals = fed(self.HEADER, *lines)
        self.assertEqual((refusals, opened.closing_refusal()), ([0, 0, 0, 5, 0, 5, 0, 0, 5, 0, 5], 0))
        self.assertEqual((opened.loan_count, opened.unscored_count, opened.fresh_count, opened.other_count), (3, 1, 1, 0))
        self.assertEqual((opened.feed(to_a), opened.closing_refusal(), opened.loan_count), (0, 6, 1))
        self.assertEqual((opened.unscored_count, opened.fresh_count), (0, 0))
        for before, after in ((book.OTHER_LINES, 0), (0, book.OTHER_LINES), (book.OTHER_LINES - 1, 1)):
            header = b"(book (loans 0) (unscored 0) (fresh 0) (held 0))\n"
            lines = b"(b 0)\n" * before + a + b"\n" + b"(b 0)\n" * after
            self.assertEqual(book.run(header + lines).other_count, book.OTHER_LINES)
            self.assertEqual(book.run(header + lines + b"(b 0)\n"), (8, book.OTHER_LINES + 3))
            self.assertEqual(book.run(header + lines + b"(mark b)\n" + to_a).other_count, before)
            again = lines + to_a + b"\n" + b"(b 0)\n" * after
            self.assertEqual(book.run(header + again).other_count, book.OTHER_LINES)
            self.assertEqual(book.run(header + again + b"(b 0)\n"), (8, book.OTHER_LINES + after + 4))

    def test_index(self):
        """A value set after the mark is set no longer, and may be set otherwise; one set before it stays."""
        own, december, other = (book_runs.index(b"toronto", month, value) for month, value in ((201003, 9_000), (201512, 15_000), (201003, 10_000)))
        a, to_a = book_runs.mark(b"a"), book_runs.back(b"a")
        older = book_runs.loan(700, 100, since=book_runs.made(201003, b"toronto"))
        header = b"(book (loans 1) (unscored 0) (fresh 1) (held 0))"
        opened, refusals = fed(header, december, a, own, older, to_a, older, december, other, own, older)
        self.assertEqual(refusals, [0, 0, 0, 0, 0, 12, 11, 0, 11, 0])
        self.assertEqual((opened.index, opened.property_value(opened.taken[-1])), ({(b"toronto", 201512): 15_000, (b"toronto", 201003): 10_000}, F(150)))
        self.assertEqual((opened.feed(to_a), opened.index, opened.other_count), (0, {(b"toronto", 201512): 15_000}, 1))

    def test_figures(self):
        """Report, bounds and cells are those of the lines still standing."""
        small = book_runs.SMALL_LOAN[:-1]
        header = b"(book (loans 2) (unscored 0) (fresh 2) (held 0))"
        lines = small, b"(claims 1001)", b"(mark a)", small.replace(b"900 0", b"599 0"), b"(equity 7)", b"(back a)", b"(equity 1000)", small.replace(b"900 0", b"700 0")
        opened, refusals = fed(header, *lines)
        plain, _ = fed(header, *lines[:2], *lines[-2:])
        self.assertEqual(refusals, [0] * len(lines))
        self.assertEqual(opened.sum_bounds(), (2, 2, 0, 0))
        self.assertEqual(opened.figures(2, 0), plain.figures(2, 0))
        self.assertEqual(opened.exact_requirement(), plain.exact_requirement())
        charges = [charge for charge, _ in cells.charge_bounds(opened)]
        self.assertEqual([place for place, charge in zip(cells.PLACES, charges) if charge], [(7, 1), (11, 1)])
        self.assertEqual(cells.text(opened, charges), cells.text(plain, charges))

    def test_run(self):
        """Marks and returns have line numbers; a header in their place is 7, and marks kept at the end are no reason for a refusal."""
        none = b"(book (loans 0) (unscored 0) (fresh 0) (held 0))\n"
        for data, refused in (
            (b"(mark a)\n" + none, (7, 1)), (b"(back a)\n", (7, 1)), (none + b"(mark a)\n" + none, (7, 3)), (none + b"(mark a)\n(back a)\n(back b)\n", (15, 4)),
            (none + b"(mark a)\n(mark a)\n", (13, 3)), (none + b"".join(b"(mark %c)\n" % letter for letter in b"abcdefghi"), (14, 10)),
            (none + b"(mark a)\n" + b"(back a)\n" * 1000 + b"x\n", (2, 1003)),
        ):
            self.assertEqual(book.run(data), refused)
        self.assertEqual(list(book.run(none + b"(mark a)\n(mark b)\n").marks), [b"a", b"b"])
        one = b"(book (loans 1) (unscored 0) (fresh 1) (held 0))\n(mark a)\n" + book_runs.LOAN
        self.assertEqual(book.run(one).loan_count, 1)
        self.assertEqual(book.run(one + b"(back a)"), (6, 5))

    def test_sheet(self):
        """The sheet, the header and what they choose stay through a return."""
        opened = book.open_book(self.HEADER, [7] * 66)
        self.assertEqual([opened.feed(line) for line in (b"(mark a)", self.FRESH, b"(back a)", self.AGED)], [0] * 4)
        self.assertEqual((opened.sheet, opened.aged, opened.loan_terms(opened.taken[0])[-1]), ((7,) * 66, True, F(7, 100)))

    def test_generated_ways(self):
        """Ways that the tests generate leave the lines meant; they return to first, middle and last marks, and set dropped names again."""
        source = random.Random(6)
        seen = dict.fromkeys(("first", "middle", "last", "again", "eight", "kept"), 0)
        for _ in range(150):
            lines = book_runs.whole_book(source)
            opened, dropped = book.open_book(lines[0]), set()
            for line in book_runs.by_marks(source, lines)[1:]:
                before, form = list(opened.marks), forms.read_feeding(line)
                self.assertEqual(opened.feed(line), 0)
                if form.kind == "back":
                    place = before.index(form.values[0])
                    dropped |= set(before[place + 1 :])
                    seen["first" if place == 0 else "last" if place == len(before) - 1 else "middle"] += 1
                seen["again"] += form.kind == "mark" and form.values[0] in dropped
                seen["eight"] += len(before) < len(opened.marks) == book.MARKS
            self.assertEqual(sorted(opened.standing_lines()), sorted(lines[1:]))
            seen["kept"] += bool(opened.marks)
        self.assertGreater(min(seen.values()), 20)
        numbers = [found[0] for found in (book.run(b"\n".join(book_runs.damaged(source, book_runs.whole_book(source)))) for _ in range(400)) if isinstance(found, tuple)]
        for refusal in (13, 14, 15):
            self.assertGreater(numbers.count(refusal), 3)


class Joining(unittest.TestCase):
    """Request L8: two books joined."""

    SMALL = book_runs.SMALL_LOAN[:-1]
    VALUES = (b"(index other 200501 7)", b"(index other 201512 9)")

    @staticmethod
    def header(loans, unscored=0, fresh=0, held=0, sheet=None):
        return book.Book(loans, unscored, fresh, held, sheet)

    def book_of(self, *lines, counts=(0, 0, 0), sheet=None):
        opened = book.open_book(book_runs.book_header(*counts), sheet)
        self.assertEqual([opened.feed(line) for line in lines], [0] * len(lines))
        return opened

    def assert_joins(self, a, b):
        self.assertEqual(book.wanting(a, b), [])
        refusal, joined = book.join(a, b)
        self.assertEqual(refusal, 0)
        return joined

    def assert_wanting(self, a, b, *names):
        """These conditions alone are wanting, in this order of the books; what comes back is the value of a refused opening, and both books stay."""
        before = [(found.standing_lines(), dict(found.marks)) for found in (a, b)]
        self.assertEqual(book.wanting(a, b), list(names))
        refusal, given = book.join(a, b)
        self.assertEqual((refusal, given.standing, given.marks, given.sheet), (16, [], {}, None))
        self.assertEqual((given.loans, given.unscored, given.fresh, given.held), (0, 0, 0, 0))
        self.assertEqual([(found.standing_lines(), found.marks) for found in (a, b)], before)

    def test_worked_example(self):
        """Document 01's report, joined with itself: rest 900.4 and not 2 x 451, c admitted once up to 7/93 of 2,000."""
        one = self.book_of(b"(asset (amount 100000) (factor 25))", b"(claims 1001)", b"(equity 1000)", b"(c 100)")
        report = (
            b"(loans 0)\n(total 0)\n(supplement 0)\n(home 0)\n(moved 0)\n(rest 901)\n(oper 181)\n(required 1082)\n(capital 2150)\n(ratio 29805)\n"
        )
        self.assertEqual(self.assert_joins(one, one).report(0, 0), report)
        self.assertEqual(one.report(0, 0), book.run(book_runs.HEADER + b"\n".join(one.standing_lines())).report(0, 0))

    def test_lines(self):
        """The index lines once and first, then the others of the first and of the second; header and counts added, no mark."""
        fresh, older = self.SMALL, self.SMALL.replace(b"(from 201512)", b"(from 200501)")
        a = self.book_of(b"(b 1)", *self.VALUES, b"(mark a)", older, counts=(1, 0, 1, 30))
        b = self.book_of(b"(mark a)", *self.VALUES[::-1], fresh, b"(c 2)", b"(mark b)", counts=(2, 0, 2, 4))
        joined = self.assert_joins(a, b)
        self.assertEqual(joined.standing_lines(), [*self.VALUES, b"(b 1)", older, fresh, b"(c 2)"])
        self.assertEqual((joined.loans, joined.unscored, joined.fresh, joined.held), (3, 0, 3, 34))
        self.assertEqual((joined.loan_count, joined.other_count, joined.marks), (2, 4, {}))
        self.assertEqual((a.other_count, b.other_count, list(b.marks)), (3, 3, [b"a", b"b"]))
        # It goes on as any: a loan is missing (6), then none more is taken (5), values are set (11), names are free.
        self.assertEqual([joined.closing_refusal(), joined.feed(b"(back a)"), joined.feed(b"(mark a)"), joined.feed(self.VALUES[0])], [6, 15, 0, 11])
        self.assertEqual([joined.feed(older), joined.feed(fresh), joined.closing_refusal()], [0, 5, 0])
        twice = self.assert_joins(joined, joined)
        self.assertEqual((twice.loan_count, twice.other_count, twice.loans, twice.held, twice.marks), (6, 6, 6, 68, {}))

    def test_withdrawn(self):
        """Lines still standing count, and no others."""
        a = self.book_of(b"(mark a)", *self.VALUES, b"(b 1)", b"(back a)", b"(b 2)")
        b = self.book_of(b"(b 4)")
        self.assertEqual(self.assert_joins(a, b).standing_lines(), [b"(b 2)", b"(b 4)"])
        self.assert_wanting(a, self.book_of(*self.VALUES), "index")

    def test_sheet(self):
        """All 66 numbers; the built-in table and its copy are the same."""
        plain, copy, own = (self.header(0, sheet=lent) for lent in (None, sheet.BUILT_IN, sheets.DISTINCT))
        self.assertIsNone(self.assert_joins(plain, copy).sheet)
        self.assertEqual(self.assert_joins(own, own).sheet, sheets.DISTINCT)
        self.assert_wanting(plain, own, "sheet")
        for place in range(66):
            other = self.header(0, sheet=sheets.changed(sheets.DISTINCT, place, sheets.DISTINCT[place] + 1))
            self.assert_wanting(own, other, "sheet")
            self.assert_wanting(other, own, "sheet")

    def test_index(self):
        """The same areas, months and values, in whatever order."""
        both = self.book_of(*self.VALUES)
        self.assertEqual(self.assert_joins(both, self.book_of(*self.VALUES[::-1])).other_count, 2)
        for lines in ((), self.VALUES[:1], self.VALUES[1:], (*self.VALUES, b"(index other 200502 7)"), (self.VALUES[0], b"(index other 201512 10)"), (self.VALUES[0], b"(index calgary 201512 9)")):
            self.assert_wanting(both, self.book_of(*lines), "index")
            self.assert_wanting(self.book_of(*lines), both, "index")

    def test_range(self):
        most = self.header(600_000)
        self.assertEqual(self.assert_joins(most, self.header(400_000)).loans, 1_000_000)
        self.assert_wanting(most, self.header(400_001), "loans")
        self.assert_wanting(self.header(1), self.header(1_000_000), "loans")
        held = self.header(0, held=6 * 10**12)
        self.assertEqual(self.assert_joins(held, self.header(0, held=4 * 10**12)).held, 10**13)
        self.assert_wanting(held, self.header(0, held=4 * 10**12 + 1), "held")
        # Unscored and fresh are limited by loans alone.
        self.assertEqual(self.assert_joins(self.header(500_000, 500_000), self.header(500_000, 500_000)).unscored, 1_000_000)

    def test_other_lines(self):
        """100,000, index lines once: 60,000 and 39,990 with ten index lines in both, and one more."""
        values = [b"(index other %d 7)" % month for month in range(200_501, 200_511)]
        large, small, more = (self.book_of(*values, *[b"(b 1)"] * count) for count in (60_000, 39_990, 39_991))
        self.assertEqual(self.assert_joins(large, small).other_count, 100_000)
        self.assertEqual(self.assert_joins(large, small).feed(b"(b 1)"), 8)
        self.assert_wanting(large, more, "lines")
        self.assert_wanting(more, large, "lines")
        half = self.book_of(*[b"(b 1)"] * 50_000)
        self.assertEqual(self.assert_joins(half, half).other_count, 100_000)
        self.assertEqual(half.feed(b"(b 1)"), 0)
        self.assert_wanting(half, half, "lines")

    def test_column(self):
        """Of each book whose header counts loans, by the header alone."""
        nine, eight, ten = (self.header(10, 0, fresh) for fresh in (9, 8, 10))
        for a, b, aged in ((nine, nine, False), (nine, ten, False), (eight, eight, True), (nine, self.header(20, 0, 18), False), (self.header(0, held=7), eight, True)):
            self.assertEqual((self.assert_joins(a, b).aged, self.assert_joins(b, a).aged), (aged, aged))
        # Lost by the sum and reached by it.
        self.assert_wanting(nine, eight, "column of the first")
        self.assert_wanting(eight, nine, "column of the second")
        self.assert_wanting(eight, ten, "column of the first")
        self.assert_wanting(ten, eight, "column of the second")
        # Also where all columns of the sheet are alike.
        self.assert_wanting(self.header(10, 0, 9, sheet=sheets.EQUAL), self.header(10, 0, 8, sheet=sheets.EQUAL), "column of the first")

    def test_factor(self):
        """Of each book whose header counts loans without a score, by the header alone."""
        twenty, nineteen, none = self.header(20, 1), self.header(19, 1), self.header(5)
        for a, b in ((twenty, twenty), (nineteen, nineteen), (twenty, none), (none, self.header(1, 1)), (self.header(0), nineteen)):
            self.assert_joins(a, b)
            self.assert_joins(b, a)
        self.assert_wanting(twenty, nineteen, "factor of the first")
        self.assert_wanting(nineteen, twenty, "factor of the second")
        self.assert_wanting(nineteen, self.header(21, 1), "factor of the first")
        self.assert_wanting(self.header(1), nineteen, "factor of the second")

    def test_no_loans(self):
        """A header that counts no loans asks for nothing; the value of a refused opening is such a book, under the built-in table."""
        none = book.no_book()
        for found in (self.header(10, 0, 9), self.header(10, 0, 8), self.header(19, 1), self.header(20, 1), none):
            joined = self.assert_joins(none, found)
            self.assertEqual((joined.loans, joined.unscored, joined.fresh), (found.loans, found.unscored, found.fresh))
            self.assert_joins(found, none)
        self.assert_wanting(none, self.header(0, sheet=sheets.EQUAL), "sheet")
        self.assert_wanting(none, self.book_of(*self.VALUES), "index")

    def test_several(self):
        """All that is wanting is told."""
        a = self.header(10, 1, 9, 10**13, sheets.EQUAL)
        b = self.book_of(*self.VALUES, counts=(1_000_000, 1, 0, 1))
        self.assert_wanting(a, b, "sheet", "index", "loans", "held", "column of the first", "factor of the first")

    def test_closing(self):
        """The joined book closes as one book with the lines of both; its charges are those of the loans in their own books."""
        source = random.Random(16)
        joined = 0
        while joined < 20:
            a, b = map(book_runs.opened, book_runs.regions(source, 2))
            refusal, both = book.join(a, b)
            if refusal:
                continue
            joined += 1
            bounds = [x + y for x, y in zip(a.sum_bounds(), b.sum_bounds())]
            self.assertEqual(list(both.sum_bounds()), bounds)
            self.assertEqual(both.closing_refusal(), a.closing_refusal() or b.closing_refusal())
            charges = [x + y for (x, _), (y, _) in zip(cells.charge_bounds(a), cells.charge_bounds(b))]
            self.assertEqual([charge for charge, _ in cells.charge_bounds(both)], charges)

    def test_inputs(self):
        """Inputs joined from the first on: the first that is refused, with its line, or that cannot be joined, with its number."""
        one, value, short = book_runs.HEADER + b"(b 1)\n", book_runs.HEADER + self.VALUES[0], book_runs.book_header(1, 0, 0)
        for inputs, lines in (([one], 1), ([one] * 4, 4), ([book_runs.HEADER, one], 1), ([value, value + b"\n(b 1)"], 2)):
            joined = book.run_joined(inputs)
            self.assertEqual((joined.other_count, joined.sheet), (lines, None))
        self.assertEqual(book.run_joined([one, one], sheets.DISTINCT).sheet, sheets.DISTINCT)
        wrong = one + b"x\n"
        for inputs, found in (
            ([wrong], (2, 3)), ([one, wrong, value], (2, 3)), ([one, one, b""], (2, 1)), ([one, short], (6, 2)), ([short, wrong], (6, 2)),
            ([one, value], (16, 2)), ([one, one, value, wrong], (16, 3)), ([value, one, one], (16, 2)),
        ):
            self.assertEqual(book.run_joined(inputs), found)
        self.assertEqual(book.run_joined([one, wrong], sheets.OUTSIDE[0]), (10, 1))

    def test_generated(self):
        """The regions that the tests generate lack every condition but that of the lines, each alone too, and join as often."""
        source = random.Random(8)
        seen, joined, short = {name: [0, 0] for name in book.CONDITIONS}, 0, 0
        for _ in range(250):
            first, *others = map(book_runs.opened, book_runs.regions(source, 3))
            for other in others:
                names = book.wanting(first, other)
                for name in names:
                    seen[name][0] += 1
                    seen[name][1] += len(names) == 1
                refusal, both = book.join(first, other)
                self.assertEqual(refusal, 16 if names else 0)
                first = first if refusal else both
                joined += not refusal
                short += not refusal and both.closing_refusal() == 6
        del seen["lines"]
        self.assertGreater(min(count for count, _ in seen.values()), 10)
        self.assertGreater(min(alone for _, alone in seen.values()), 2)
        self.assertGreater(joined, 150)
        self.assertGreater(short, 5)

    def test_generated_files(self):
        """The files that the tests generate are joined, refused for themselves, and lack each condition that files under one sheet with their loans can lack in short books."""
        source = random.Random(10)
        seen, joined, refused = dict.fromkeys(("index", "held", *book.CONDITIONS[5:]), 0), 0, 0
        for i in range(300):
            inputs = [b"\n".join(lines) for lines in book_runs.region_files(source, i % 8 == 7)]
            found = book.run_joined(inputs)
            if not isinstance(found, tuple):
                joined += 1
            elif found[0] != 16:
                refused += 1
            else:
                number = found[1]
                names = book.wanting(book.run_joined(inputs[: number - 1]), book.run(inputs[number - 1]))
                if len(names) == 1:
                    seen[names[0]] += 1
        self.assertGreater(min(seen.values()), 3)
        self.assertGreater(joined, 80)
        self.assertGreater(refused, 10)

    def test_generated_calls(self):
        """The calls that the tests generate join and are refused, and joined books are closed with 0 and with 6."""
        source = random.Random(9)
        texts = {kind: lambda _: b"" for kind in book_cases.SIZES}
        told = [answer[:4] for _ in range(60) for answer in book_cases.answers(book_cases.joining_calls(source), texts)]
        for answer, least in ((b"j 0\n", 60), (b"j 16", 20), (b"c 0 ", 100), (b"c 6 ", 5), (b"t 0 ", 100), (b"t 6 ", 5)):
            self.assertGreater(told.count(answer), least)


class Grouping(unittest.TestCase):
    """Request L9: books joined in any grouping."""

    # Loans and unscored ones around 5%.
    AROUND = (0, 0), (1, 0), (2, 0), (18, 0), (1, 1), (2, 1), (18, 1), (19, 1), (20, 1), (21, 1), (39, 2), (40, 2), (41, 2)

    @staticmethod
    def parts(found):
        """Every part that is kept of a book, its lines in no order; None for none."""
        if found is None:
            return None
        header = found.loans, found.unscored, found.fresh, found.held, found.aged, found.sheet or sheet.BUILT_IN
        counts = found.loan_count, found.unscored_count, found.fresh_count, found.other_count
        return header, counts, found.index, found.marks, sorted(found.standing_lines())

    @staticmethod
    def joined(a, b):
        """The joined book; None where a condition is wanting, or one of the two is none."""
        if a is None or b is None:
            return None
        refusal, both = book.join(a, b)
        return None if refusal else both

    @staticmethod
    @functools.lru_cache(maxsize=None)
    def added(a, b):
        """The same of headers alone, told by their loans, unscored and fresh."""
        if a is None or b is None or book.wanting(book.Book(*a, 0), book.Book(*b, 0)):
            return None
        return a[0] + b[0], a[1] + b[1], a[2] + b[2]

    def random_books(self, count, seed, times):
        """So many times some regions of the tests, with marks and without."""
        source = random.Random(seed)
        for _ in range(times):
            found = book_runs.regions(source, count)
            ways = [book_runs.Region(book_runs.by_marks(source, lines) if source.randrange(2) else lines, lent) for lines, lent in found]
            yield list(map(book_runs.opened, ways)), source

    def test_commutes(self):
        """Either order is refused, or both give the same book."""
        joined = refused = 0
        for (a, b), _ in self.random_books(2, 91, 60):
            both = self.joined(a, b)
            self.assertEqual(self.parts(both), self.parts(self.joined(b, a)))
            joined += both is not None
            refused += both is None
        self.assertGreater(min(joined, refused), 15)

    def test_neutral(self):
        """A book of an all-zero header with the same index lines, under the same sheet, changes nothing on either side; held, a line, an index line or another sheet does."""
        for (found,), source in self.random_books(1, 92, 30):
            lines = book_runs.neutral_input(source, found).splitlines()
            neutral = book_runs.opened(book_runs.Region(lines, found.sheet))
            for both in (self.joined(found, neutral), self.joined(neutral, found)):
                self.assertEqual(self.parts(both), self.parts(found.copy()))
            for line in (b"(b 0)", b"(index other 201512 999999)", b"(index calgary 200501 999999)"):
                other = neutral.copy()
                taken = other.feed(line) == 0
                self.assertEqual(self.parts(self.joined(other, found)) == self.parts(found.copy()), not taken)
            for other in (book.Book(0, 0, 0, 1, found.sheet), book.Book(0, 0, 0, 0, sheets.DISTINCT)):
                refused = [line for line in lines[1:] if other.feed(line)]
                self.assertEqual(refused, [])
                self.assertNotEqual(self.parts(self.joined(found, other)), self.parts(found.copy()))

    def test_groupings(self):
        """Of three random books all groupings that succeed give the same book; some succeed where others do not."""
        every = mixed = 0
        for three, _ in self.random_books(3, 93, 60):
            given = [self.parts(both) for both in book_runs.groupings(self.joined, three)]
            joined = [each for each in given if each is not None]
            self.assertEqual(joined, joined[:1] * len(joined))
            every += len(joined) == len(given) == 12
            mixed += 0 < len(joined) < len(given)
        self.assertGreater(every, 8)
        self.assertGreater(mixed, 3)

    def headers(self):
        """All headers of few loans, then those around 5% without fresh scores and with none but fresh ones."""
        few = [(loans, unscored, fresh) for loans in range(7) for unscored in range(loans + 1) for fresh in range(loans - unscored + 1)]
        return few, [(loans, unscored, fresh) for loans, unscored in self.AROUND for fresh in {0, loans - unscored}]

    def test_headers(self):
        """Of three headers: the groupings that succeed give the same; where one does, so does every order, from the first on, in which those that count unscored loans come first."""
        mixed = 0
        for headers in self.headers():
            for pair in itertools.product(headers, repeat=2):
                self.assertEqual(self.added(*pair), self.added(*pair[::-1]))
            for three in itertools.combinations_with_replacement(headers, 3):
                given = set(book_runs.groupings(self.added, three))
                mixed += None in given and len(given) > 1
                given.discard(None)
                self.assertLessEqual(len(given), 1)
                self.assert_law(three, given)
        self.assertGreater(mixed, 30)

    def assert_law(self, headers, given):
        """Where anything is given in some order, it is so in each order in which headers that count unscored loans come first."""
        if given:
            first, last = ([header for header in headers if (header[1] > 0) == counts] for counts in (True, False))
            for order in itertools.product(itertools.permutations(first), itertools.permutations(last)):
                self.assertEqual({functools.reduce(self.added, [*order[0], *order[1]])}, given, headers)

    def test_four_headers(self):
        """The same of four headers, joined from the first on in every order."""
        mixed = 0
        for four in itertools.combinations_with_replacement([(loans, unscored, 0) for loans, unscored in self.AROUND], 4):
            given = {functools.reduce(self.added, order) for order in itertools.permutations(four)}
            mixed += None in given and len(given) > 1
            given.discard(None)
            self.assertLessEqual(len(given), 1)
            self.assert_law(four, given)
        self.assertGreater(mixed, 100)

    def test_generated_calls(self):
        """The calls that the tests generate join three in another grouping, after a book with the same lines was closed, and exchange the book and the copy."""
        source, texts = random.Random(94), {kind: lambda _: b"" for kind in book_cases.SIZES}
        grouped, again, exchanged = 0, 0, 0
        for _ in range(60):
            calls, program, closed = book_cases.joining_calls(source), book_cases.Program(), []
            for call in calls:
                closed += [self.parts(program.book)] * (call == book_cases.CLOSED[0])
                program.answer(call, texts)
            ends = calls[-3] == b"j"  # only those that end with another grouping do
            grouped += ends
            again += ends and closed[-1] in closed[:-1]
            exchanged += b"x" in calls
        self.assertGreater(grouped, 8)
        self.assertGreater(again, 5)
        self.assertGreater(exchanged, 8)

    def test_generated_orders(self):
        """The files that the tests generate are joined in two orders, with a neutral file, and with those that count unscored loans first where they are not as they stand."""
        source = random.Random(95)
        seen = dict.fromkeys(("both", "law", "neutral"), 0)
        for _ in range(160):
            inputs = [b"\n".join(lines) for lines in book_runs.region_files(source)]
            for other in book_runs.some_orders(source, inputs, None)[1:]:
                given = [isinstance(book.run_joined(order), book.Book) for order in (inputs, other)]
                moved = len(other) == len(inputs) and other != inputs
                seen["both"] += moved and all(given)
                seen["law"] += given == [False, True] and book_runs.unscored_first(other)
                seen["neutral"] += len(other) > len(inputs) and all(given)
        self.assertGreater(seen["law"], 2, seen)
        self.assertGreater(min(seen["both"], seen["neutral"]), 8, seen)


def changed(numbers, changes):
    """A sheet with other numbers at some places."""
    return [changes.get(place, number) for place, number in enumerate(numbers)]


class Sheets(unittest.TestCase):
    # 000, 1.1.4 iii), in hundredths.
    PAPER = (
        [300] * 6 + [205] * 6 + [180] * 6 + [160] * 6 + [135] * 6 + [110] * 6 + [90] + [100] * 5 + [65, 90] + [100] * 4
        + [55, 65, 90] + [100] * 3 + [45, 55, 65, 90] + [100] * 2 + [40, 45, 55, 65, 90, 100]
    )

    def test_built_in(self):
        self.assertEqual(list(sheet.BUILT_IN), self.PAPER)

    def test_taken(self):
        steps = [10 * (11 - band) + age for band in range(11) for age in range(6)]  # no two neighbours are equal
        for numbers in (self.PAPER, [1] * 66, [300] * 66, [300] * 30 + [1] * 36, [1, 1, 1, 300, 300, 300] * 11, steps):
            self.assertIsNone(sheet.broken(numbers))

    def test_length(self):
        for count in (0, 1, 65, 67, 132):
            self.assertEqual(sheet.broken([7] * count), ("length", count))

    def test_range(self):
        self.assertEqual(sheet.broken([0] * 66), ("range", 0))
        self.assertEqual(sheet.broken([301] * 66), ("range", 0))
        self.assertEqual(sheet.broken(changed([1] * 66, {60: 0})), ("range", 60))
        self.assertEqual(sheet.broken(changed([300] * 66, {5: 301})), ("range", 5))
        self.assertEqual(sheet.broken(changed([300] * 66, {65: 10**14 - 1})), ("range", 65))

    def test_band(self):
        """The number of a band may not be more than that of the band below, at the same age."""
        self.assertEqual(sheet.broken(changed([7] * 66, {11: 8})), ("band", 11))
        self.assertEqual(sheet.broken(changed([7] * 66, {65: 8})), ("band", 65))
        self.assertEqual(sheet.broken([7] * 6 + [8] * 60), ("band", 6))
        self.assertEqual(sheet.broken([7] * 60 + [8] * 6), ("band", 60))

    def test_age(self):
        """The number of an age may not be less than that of the age before, in the same band."""
        self.assertEqual(sheet.broken(changed([7] * 66, {0: 8})), ("age", 1))
        self.assertEqual(sheet.broken([9, 8, 8, 8, 8, 8] * 11), ("age", 1))
        self.assertEqual(sheet.broken(changed([7] * 66, {65: 6})), ("age", 65))
        self.assertIsNone(sheet.broken(changed([7] * 66, {5: 8})))  # it may fall from a band's last age to the next band's first

    def test_first_broken(self):
        self.assertEqual(sheet.broken(changed([7] * 66, {20: 0, 30: 301})), ("range", 20))
        self.assertEqual(sheet.broken(changed([7] * 66, {20: 8, 30: 0})), ("band", 20))
        self.assertEqual(sheet.broken(changed([7] * 66, {20: 6, 30: 0})), ("age", 20))

    def test_sheets_of_the_tests(self):
        """Each of those that break the order between two neighbours has this fault alone; random ones keep the rules, or do not."""
        for (band, age), numbers in sheets.RISING.items():
            self.assertEqual(sheet.broken(numbers), ("band", 6 * band + 6 + age))
            self.assertIsNone(sheet.broken(sheets.changed(numbers, 6 * band + 6 + age, 100)))
        for (band, age), numbers in sheets.FALLING.items():
            self.assertEqual(sheet.broken(numbers), ("age", 6 * band + age + 1))
            self.assertIsNone(sheet.broken(sheets.changed(numbers, 6 * band + age, 150)))
        self.assertEqual((len(sheets.RISING), len(sheets.FALLING)), (60, 55))
        source = random.Random(66)
        for _ in range(200):
            self.assertIsNone(sheet.broken(sheets.kept(source)))
            self.assertIsNotNone(sheet.broken(sheets.not_kept(source)))

    def test_credit_factor(self):
        numbers = list(range(101, 167))  # the number tells its place; the rules of loading are not asked here
        for score, age, place in (
            (300, 0, 0), (599, 12, 0), (599, 13, 1), (599, 61, 5), (600, 0, 6), (619, 24, 7), (719, 13, 37), (720, 12, 42),
            (739, 36, 44), (740, 37, 51), (760, 48, 57), (779, 49, 58), (779, 60, 58), (780, 0, 60), (900, 61, 65), (900, 600, 65),
        ):
            self.assertEqual(loan.credit_factor((score, age), True, 1, 0, numbers), F(101 + place, 100))
            first = place - place % 6
            self.assertEqual(loan.credit_factor((score, age), False, 1, 0, numbers), F(101 + first, 100))
        self.assertEqual(loan.credit_factor(None, True, 20, 1, numbers), F(13, 10))
        self.assertEqual(loan.credit_factor(None, True, 19, 1, numbers), 3)

    def test_paper_as_sheet(self):
        for score in range(300, 901):
            for age in (0, 12, 13, 24, 25, 36, 37, 48, 49, 60, 61, 600):
                for aged in (False, True):
                    factors = [loan.credit_factor((score, age), aged, 1, 0, lent) for lent in (None, self.PAPER)]
                    self.assertEqual(factors[0], factors[1])

    def test_opening(self):
        """10 after 1, 2, 7, 3 and 4; a sheet that is taken opens the book, which keeps it."""
        header = b"(book (loans 3) (unscored 1) (fresh 2) (held 0))"
        long, third, fourth = b" " * 241, header.replace(b"3", b"1000001"), header.replace(b"3", b"0")
        for line, refusal in ((long, 1), (b"", 2), (b"(claims 7)", 7), (third, 3), (fourth, 4), (header, 10)):
            self.assertEqual(book.open_book(line, [7] * 65), refusal)
            self.assertEqual(book.run(line + b"\n", [7] * 65), (refusal, 1))
        self.assertEqual(book.open_book(header, [7] * 66).sheet, (7,) * 66)
        self.assertIsNone(book.open_book(header).sheet)

    def test_loan_terms(self):
        lent = changed([7] * 66, {65: 6, 64: 6, 63: 6, 62: 6, 61: 6, 60: 5})
        opened = book.open_book(b"(book (loans 2) (unscored 1) (fresh 1) (held 0))", lent)
        for score, m in ((b"900 0", F(5, 100)), (b"900 13", F(6, 100)), (b"779 0", F(7, 100)), (b"none", F(3))):
            self.assertEqual(opened.loan_terms(forms.read_feeding(book_runs.loan(7, 8, score, 9))), (7, 8, 9, 9, 1, m))

    def test_requirement(self):
        """The exact requirement of a loan goes with the sheet's number: of 0.02 it is twice that of 0.01."""
        data = b"(book (loans 1) (unscored 0) (fresh 1) (held 0))\n" + book_runs.loan(10_000_000, 11_000_000)
        (low, high), (low_twice, high_twice) = (book.run(data, [number] * 66).exact_requirement() for number in (1, 2))
        self.assertLess(0, low)
        self.assertLessEqual(2 * low, high_twice)
        self.assertLessEqual(low_twice, 2 * high)
        self.assertLess(high_twice - low_twice, F(1, 10**60))


class Books(unittest.TestCase):
    def test_small_loan(self):
        """The numbers of the loan that fills up a book are certain: fresh, not fresh and without a score, under any sheet."""
        unscored = book_runs.SMALL_LOAN.replace(b"900 0", b"none")
        for fresh, line in ((1, book_runs.SMALL_LOAN), (0, book_runs.SMALL_AGED), (0, unscored)):
            for lent in (None, [1] * 66, [300] * 66):
                found = book.run(b"(book (loans 1) (unscored %d) (fresh %d) (held 0))\n" % (line is unscored, fresh) + line, lent)
                bounds = found.sum_bounds()
                self.assertEqual(bounds, (book_runs.SMALL_TOTAL, book_runs.SMALL_TOTAL, 0, 0))

    def test_cells(self):
        """The table of three loans with known numbers, two of them in one cell, written out by hand."""
        lines = book_runs.SMALL_LOAN * 2 + book_runs.SMALL_LOAN.replace(b"900 0", b"599 600")
        found = book.run(b"(book (loans 3) (unscored 0) (fresh 2) (held 0))\n" + lines)
        certain = [(charge, charge) for charge in (1, *[0] * 49, 2, *[0] * 9)]
        self.assertEqual(list(cells.charge_bounds(found)), certain)
        table = cells.text(found, [charge for charge, _ in certain]).split(b"\n")
        self.assertEqual(len(table), 61)
        self.assertEqual((table[0], table[50]), (b"(cell 1 1 1 1 1)", b"(cell 11 1 2 2 2)"))
        self.assertEqual((table[1], table[5], table[59], table[60]), (b"(cell 1 2 0 0 0)", b"(cell 2 1 0 0 0)", b"(cell 12 5 0 0 0)", b""))

    def test_places_of_cells(self):
        def place(balance, value, score):
            return cells.place(book.open_book(book_runs.HEADER[:-1]), forms.read_feeding(book_runs.loan(balance, value, score)))

        columns = {64: 1, 65: 1, 66: 2, 80: 2, 81: 3, 90: 3, 91: 4, 95: 4, 96: 5, 100: 5, 101: 5}
        for balance, column in columns.items():
            self.assertEqual(place(balance, 100, b"none"), (12, column))
        self.assertEqual(place(65_000_001, 100_000_000, b"none"), (12, 2))
        bands = {300: 1, 599: 1, 600: 2, 619: 2, 620: 3, 699: 6, 700: 7, 779: 10, 780: 11, 900: 11}
        for score, band in bands.items():
            for age in (0, 600):
                self.assertEqual(place(1, 1, b"%d %d" % (score, age)), (band, 5))


if __name__ == "__main__":
    unittest.main()
