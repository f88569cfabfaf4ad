"""The forms of document 01, "A book, line by line", and of document 02, requests L4, L5 and L6, as regular expressions, with their ranges."""
import re
from collections import namedtuple
from functools import lru_cache

D = rb"(0|[1-9][0-9]{0,13})"
S = rb"(0|-?[1-9][0-9]{0,13})"
NAME = rb"([a-z]{1,12})"  # of a mark
MONEY = 100_000_000_000
LONGEST = 240

# 000, Appendix A, in lower case without accents, hyphens or spaces; `other` is everywhere else.
AREAS = (
    b"calgary", b"edmonton", b"halifax", b"hamilton", b"montreal", b"ottawagatineau", b"quebec", b"toronto", b"vancouver",
    b"victoria", b"winnipeg", b"other",
)

Form = namedtuple("Form", "kind values")  # values in the order of the line; words as bytes
Months = namedtuple("Months", "first last")  # a range of months YYYYMM

_ANY = (None, None)
_WORD = "word"
FROM = Months(190001, 209912)  # when a loan was made
INDEX = Months(200501, 201512)  # months of the house price index


def _compile(text):
    """A form as the paper prints it: D, S, NAME, and choices between upright bars in words."""
    written = {b"D": D, b"S": S, b"NAME": NAME}
    out = b""
    for part in re.split(rb"(\b(?:D|S|NAME)\b|[a-z]+(?:\|[a-z]+)+)", text):
        if part in written:
            out += written[part]
        elif b"|" in part:
            out += b"(" + part + b")"
        else:
            out += re.escape(part)
    return re.compile(out)


_AREA = b"|".join(AREAS)

# kind, form, range of each number ("to" starts at 0; money with no bound is at most MONEY either way). A month YYYYMM is read as a D.
FORMS = [
    (kind, _compile(text), ranges)
    for kind, text, ranges in (
        (
            "book",
            b"(book (loans D) (unscored D) (fresh D) (held D))",
            ((0, 1_000_000), _ANY, _ANY, (0, 10_000_000_000_000)),
        ),
        (
            "loan",
            b"(loan (bal D) (val D) (amort D) (term D) (score D D) (sup D) (from D) (area %s))" % _AREA,
            ((1, 200_000_000), (1, 10_000_000_000), (1, 480), (1, 480), (300, 900), (0, 600), (0, 1), FROM, _WORD),
        ),
        (
            "loan_unscored",
            b"(loan (bal D) (val D) (amort D) (term D) (score none) (sup D) (from D) (area %s))" % _AREA,
            ((1, 200_000_000), (1, 10_000_000_000), (1, 480), (1, 480), (0, 1), FROM, _WORD),
        ),
        (
            "policy",
            b"(policy (class home|multi) (prem D) (term D) (done D))",
            (_WORD, (0, 100_000_000), (1, 480), (0, 40)),
        ),
        (
            "deriv",
            b"(deriv (kind rate|float|fx|equity|metal|other) (cost S) (notional D) (months D) (pays D) (factor D))",
            (_WORD, (-MONEY, MONEY), (0, MONEY), (0, 600), (1, 100), (0, 10_000)),
        ),
        ("asset", b"(asset (amount D) (factor D))", ((0, MONEY), (0, 10_000))),
        ("index", b"(index %s D D)" % _AREA, (_WORD, INDEX, (1, 1_000_000))),
        ("claims", b"(claims D)", ((0, MONEY),)),
        ("lossc", b"(lossc D)", ((0, MONEY),)),
        ("stated", b"(stated D)", ((0, MONEY),)),
        ("equity", b"(equity S)", ((-MONEY, MONEY),)),
        ("aoci", b"(aoci S)", ((-MONEY, MONEY),)),
        ("b", b"(b D)", ((0, MONEY),)),
        ("c", b"(c D)", ((0, MONEY),)),
        ("mark", b"(mark NAME)", (_WORD,)),
        ("back", b"(back NAME)", (_WORD,)),
    )
]


def _in_range(value, limits):
    low, high = limits
    is_month = not isinstance(limits, Months) or 1 <= value % 100 <= 12
    return is_month and (low is None or low <= value) and (high is None or value <= high)


def form_of(line):
    """The form that the whole line has, with whether every number is in range; or None."""
    for kind, pattern, ranges in FORMS:
        found = pattern.fullmatch(line)
        if found is None:
            continue
        values = []
        in_range = True
        for text, limits in zip(found.groups(), ranges, strict=True):
            if limits is _WORD:
                values.append(text)
                continue
            values.append(int(text))
            in_range &= _in_range(values[-1], limits)
        return Form(kind, tuple(values)), in_range
    return None


def _read(line, opening):
    """A form, or the number of the first refusal of 1, 2, 7, 3 that applies."""
    if len(line) > LONGEST:
        return 1
    found = form_of(line)
    if found is None:
        return 2
    form, in_range = found
    if (form.kind == "book") != opening:
        return 7
    return form if in_range else 3


@lru_cache(maxsize=1 << 12)
def read_feeding(line):
    """What feeding reads before the book's own tests (5 and 12, 8 and 11, 13 and 14, or 15): 1, 2, 7, 3, or the form."""
    return _read(line, opening=False)


def read_opening(line):
    """What opening reads: 1, 2, 7, 3, 4, or the header."""
    form = _read(line, opening=True)
    if isinstance(form, Form):
        loans, unscored, fresh, _ = form.values
        if unscored + fresh > loans:
            return 4
    return form
