#!/usr/bin/env python3
"""Cases for the line forms: `length feeding opening kind a b c d e f g h i line`, the line as it is, of any bytes.

`feeding` and `opening` are the refusals of the line as one after the header and as the header, 0 where it is
accepted. Where it is, `kind` and the nine numbers are what it holds (see `numbers_of`), else they are 0.
"""
import itertools
import random
import string
from collections import namedtuple

import stored
from reference import forms
from reference.forms import AREAS, FROM, INDEX, MONEY, Form, Months

KINDS = {"loan": 1, "loan_unscored": 2, "policy": 3, "deriv": 4, "asset": 5, "book": 7, "index": 8, "mark": 9, "back": 10}
AMOUNTS = ("claims", "lossc", "stated", "equity", "aoci", "b", "c")  # kind 6, numbered from 0
CLASSES = (b"home", b"multi")
DERIVATIVES = (b"rate", b"float", b"fx", b"equity", b"metal", b"other")
NUMBERS = 9

Letters = namedtuple("Letters", "least most")  # a word of so many small letters
LETTERS = string.ascii_lowercase.encode()
NAME = Letters(1, 12)

# A form as a list of fields; each field is text, or a range of a number or of a month, or a choice of words, or the name of a mark.
FIELDS = {
    "book": (
        b"(book (loans ", (0, 1_000_000), b") (unscored ", (0, 1), b") (fresh ", (0, 1), b") (held ", (0, 10**13), b"))",
    ),
    "loan": (
        b"(loan (bal ", (1, 200_000_000), b") (val ", (1, 10**10), b") (amort ", (1, 480), b") (term ", (1, 480),
        b") (score ", (300, 900), b" ", (0, 600), b") (sup ", (0, 1), b") (from ", FROM, b") (area ", AREAS, b"))",
    ),
    "loan_unscored": (
        b"(loan (bal ", (1, 200_000_000), b") (val ", (1, 10**10), b") (amort ", (1, 480), b") (term ", (1, 480),
        b") (score none) (sup ", (0, 1), b") (from ", FROM, b") (area ", AREAS, b"))",
    ),
    "policy": (
        b"(policy (class ", CLASSES, b") (prem ", (0, 100_000_000), b") (term ", (1, 480), b") (done ", (0, 40), b"))",
    ),
    "deriv": (
        b"(deriv (kind ", DERIVATIVES, b") (cost ", (-MONEY, MONEY), b") (notional ", (0, MONEY), b") (months ",
        (0, 600), b") (pays ", (1, 100), b") (factor ", (0, 10_000), b"))",
    ),
    "asset": (b"(asset (amount ", (0, MONEY), b") (factor ", (0, 10_000), b"))"),
    "index": (b"(index ", AREAS, b" ", INDEX, b" ", (1, 1_000_000), b")"),
    "claims": (b"(claims ", (0, MONEY), b")"),
    "lossc": (b"(lossc ", (0, MONEY), b")"),
    "stated": (b"(stated ", (0, MONEY), b")"),
    "equity": (b"(equity ", (-MONEY, MONEY), b")"),
    "aoci": (b"(aoci ", (-MONEY, MONEY), b")"),
    "b": (b"(b ", (0, MONEY), b")"),
    "c": (b"(c ", (0, MONEY), b")"),
    "mark": (b"(mark ", NAME, b")"),
    "back": (b"(back ", NAME, b")"),
}
ODD_BYTES = b" \t\r\n\0()-+0129azAZ|.\x7f\x80\xa0\xff"
ODD_NUMBERS = (
    b"", b"00", b"01", b"-0", b"-1", b"--1", b"- 1", b"+1", b"1-", b"0x1", b"1.0", b"1e3", b" 1", b"1 ", b"none", b"D",
    b"1,000", b"9" * 14, b"1" + b"0" * 14, b"9" * 15, b"-" + b"9" * 14, b"-1" + b"0" * 14, b"0" * 14, b"9" * 20,
    b"18446744073709551617", b"\xb2", b"\xd9\xa3",
)
# Months and other numbers at each end of a range of months and beside it: before and after a year, of other lengths.
MONTHS = (
    189912, 189913, 190000, 190001, 190012, 190013, 200412, 200413, 200500, 200501, 200512, 200513, 201500, 201501, 201511, 201512,
    201513, 201599, 201601, 209900, 209912, 209913, 210000, 210001, 210012, 1, 12, 101, 2015, 20151, 99912, 1000001, 2015012, 2015120,
    19_000_001, 20_050_100, 10**9 + 201512, 2**32 + 201512, 99_999_999_999_912, 10**13 + 201512,
)
ODD_MONTHS = (b"0201512", b"00201512", b"020151", b"2015-12", b"2015 12", b"201512.", b"201512 ", b"-201512", b"+201512", b"YYYYMM")
ODD_AREAS = (
    b"gatineau", b"ottawa", b"ottawa-gatineau", b"ottawa gatineau", b"ottawagatineaus", "montr\u00e9al".encode(), "qu\u00e9bec".encode(), b"composite",
    b"canada", b"none", b"others", b"othe", b"otherother", b"11", b"calgary other",
)
# Names of marks at both ends of their lengths and of the letters; the same letters in other orders, and names that begin alike.
NAMES = (
    b"west", b"a", b"z", b"ab", b"ba", b"az", b"za", b"zz", b"aa", b"abc", b"aab", b"ad", b"bc", b"mark", b"back", b"none", b"abcdefghijkl", b"lkjihgfedcba",
    b"mnopqrstuvwx", b"yzyzyzyzyzyz", b"a" * 12, b"z" * 12, b"z" * 11, b"a" * 11 + b"b", b"b" + b"a" * 11,
)
ODD_NAMES = (
    b"", b"a" * 13, b"z" * 13, b"a" * 14, LETTERS, b"a" * 100, b"A", b"Z", b"West", b"wesT", b"WEST", b"1", b"0", b"a1", b"1a", b"west2", b"a b", b" a", b"a ", b"a-b", b"a_b", b"a.b",
    b"a,b", b"a|b", b"a/b", b"'a'", b'"a"', b"(a)", b"a)", b"(a", b"`", b"{", b"a`", b"z{", b"`a", b"{z", b"@", b"[", b"a@", b"a[", b"\xe1", b"a\xe1", "\u00e9".encode(), b"a\0", b"\0a",
    b"a\t", b"NAME", b"D", b"a" * 6 + b" " + b"a" * 5, b"a" * 11 + b"A", b"a" * 11 + b"1", b"A" + b"a" * 11, b"a" * 12 + b" ", b"a" * 12 + b"1",
)


def number_of(name):
    """A name as a number, in base 26 with the digits a = 1 to z = 26: no two names have the same."""
    number = 0
    for letter in name:
        number = 26 * number + LETTERS.index(letter) + 1
    return number


def name_of(number):
    """The name that has this number."""
    name = b""
    while number:
        number, last = divmod(number - 1, 26)
        name = LETTERS[last : last + 1] + name
    return name


def _signed(x):
    return max(x, 0), max(-x, 0)


def numbers_of(form):
    """The kind and the nine numbers of an accepted line; a word is its place among its choices, the name of a mark its number."""
    v = form.values
    if form.kind in ("loan", "loan_unscored"):
        score = v[4:6] if form.kind == "loan" else (0, 0)
        found = v[:4] + score + v[-3:-1] + (AREAS.index(v[-1]),)
    elif form.kind == "index":
        found = (AREAS.index(v[0]),) + v[1:]
    elif form.kind in ("mark", "back"):
        found = (number_of(v[0]),)
    elif form.kind == "policy":
        found = (CLASSES.index(v[0]),) + v[1:]
    elif form.kind == "deriv":
        found = (DERIVATIVES.index(v[0]),) + _signed(v[1]) + v[2:]
    elif form.kind in AMOUNTS:
        found = (AMOUNTS.index(form.kind),) + _signed(v[0])
    else:
        found = v
    return (KINDS.get(form.kind, 6),) + found + (0,) * (NUMBERS - len(found))


def case(line):
    feeding, opening = forms.read_feeding(line), forms.read_opening(line)
    numbers = (0,) * (1 + NUMBERS)
    answers = []
    for answer in (feeding, opening):
        if isinstance(answer, Form):
            numbers = numbers_of(answer)
            answers.append(0)
        else:
            answers.append(answer)
    return b" ".join(b"%d" % n for n in (len(line), *answers, *numbers)) + b" " + line + b"\n"


def _choices(field):
    """The texts that a field is tried with, the first an ordinary one."""
    if isinstance(field, bytes):
        return [field]
    if isinstance(field[0], bytes):
        return list(field)
    if isinstance(field, Letters):
        return list(NAMES)
    low, high = field
    if isinstance(field, Months):
        values = [201512, low, high, *MONTHS]
    else:
        middle = max(low, min(high, 720 if high == 900 else 7))
        values = [middle, low, high, high + 1, low + 1, high - 1] + ([low - 1] if low else [])
    return [b"%d" % x for x in dict.fromkeys(values)]


def _odd_texts(field):
    """What is tried in a field besides, most of it no number and no word of it."""
    if isinstance(field, Letters):
        return ODD_NAMES
    if not isinstance(field[0], bytes):
        return ODD_NUMBERS + (ODD_MONTHS if isinstance(field, Months) else ())
    near = [
        text
        for word in field
        for text in (word.upper(), word.capitalize(), word + b"s", word[:-1], word[1:], word[:-1] + bytes((word[-1] ^ 1,)), word[:1] + word)
    ]
    return [b"", b"gold", b"0", field[0] + field[1], b"|".join(field[:2]), *near, *(ODD_AREAS if field is AREAS else ())]


def _with(fields, i, text):
    return b"".join(text if j == i else _choices(f)[0] for j, f in enumerate(fields))


def _ordinary(fields):
    return _with(fields, -1, b"")


def _ranges():
    """Every number at both ends of its range and beyond, every word, numbers of other shapes; every pair of ends."""
    for fields in FIELDS.values():
        variable = [i for i, f in enumerate(fields) if not isinstance(f, bytes)]
        for i in variable:
            for text in (*_choices(fields[i]), *_odd_texts(fields[i])):
                yield _with(fields, i, text)
        for end in (1, 2):
            yield b"".join(_choices(f)[min(end, len(_choices(f)) - 1)] for f in fields)


def _longest_text(field):
    if isinstance(field, bytes):
        return field
    if isinstance(field, Letters):
        return b"z" * field.most
    return max(field, key=len) if isinstance(field[0], bytes) else b"9" * 14


def longest(fields):
    """A form with 14 digits for every number and its longest words."""
    return b"".join(map(_longest_text, fields))


def _index_lines():
    """Every area at both ends of the months and of the values, which keep their order; loans of each area at the index's ends."""
    ordinary = _ordinary(FIELDS["loan"])
    for area in AREAS:
        for month in (200500, 200501, 201512, 201513):
            for value in (0, 1, 1_000_000, 1_000_001):
                yield b"(index %s %d %d)" % (area, month, value)
        yield b"(index %s 201512)" % area
        yield b"(index 201512 %s 7)" % area
        yield b"(index %s 7 201512)" % area
        for month in (200412, 200501, 201511, 201512):
            yield ordinary.replace(b"(from 201512) (area calgary)", b"(from %d) (area %s)" % (month, area))


def _mark_lines():
    """Names of every length, with the last letter at every place, and of every single byte; numbers around what 32 and 56 bits hold; other words and shapes."""
    names = [b"a" * i + b"z" + b"a" * (length - i - 1) for length in range(NAME.least, NAME.most + 2) for i in range(length)]
    names += [bytes((b,)) for b in range(256)] + [b"a" * 11 + bytes((b,)) for b in range(96, 124)] + [bytes((b,)) + b"z" * 11 for b in range(96, 124)]
    names += [name_of(base + n) for base in (26, 702, 2**16, 2**32, 2**53, 2**56) for n in (-1, 0, 1, 2)]
    for name in names:
        yield b"(mark %s)" % name
        yield b"(back %s)" % name
    for line in (
        b"(mark)", b"(back)", b"(mark )", b"(back )", b"(mark west east)", b"(back west east)", b"(mark west)(back west)", b"(mark (west))", b"(mark (name west))", b"(mark west", b"mark west)",
        b"(back west", b"(marks west)", b"(mar west)", b"(markwest)", b"(backwest)", b"(bac west)", b"(backs west)", b"(Mark west)", b"(mask west)", b"(return west)", b"(mark 1)", b"(back 1)", b"(west)",
        b"(mark west 1)", b"(mark west) ", b"(bark west)", b"(mack west)",
    ):
        yield line


def _header(loans, unscored, fresh, held=0):
    return b"(book (loans %d) (unscored %d) (fresh %d) (held %d))" % (loans, unscored, fresh, held)


def _headers():
    """Loans, unscored and fresh around each other: refusals 3 and 4 in order. Neither unscored nor fresh has a range of its own."""
    most, digits = 10**6, 10**14 - 1
    for loans in (0, 1, 5, 20, most - 1, most, most + 1):
        for unscored in (0, 1, loans // 2, loans - 1, loans, loans + 1, digits - loans, digits):
            for fresh in (0, 1, loans - unscored - 1, loans - unscored, loans - unscored + 1, loans, loans + 1, digits - unscored, digits):
                if unscored >= 0 and fresh >= 0:
                    yield from (_header(loans, unscored, fresh, held) for held in (0, 10**13, 10**13 + 1))
    # Around 90%, and numbers that are small again in 32 or 64 bits.
    for loans, least in ((0, 0), (1, 1), (2, 2), (9, 9), (10, 9), (11, 10), (99, 90), (100, 90), (999_999, 900_000), (most, 900_000)):
        yield from (_header(loans, 0, fresh) for fresh in (least - 1, least, least + 1) if fresh >= 0)
    for high in (2**32, 2**33, 2**45):
        yield from (_header(10, *counts) for counts in ((high, 9), (1, high + 9), (high // 2, high // 2), (high - 1, 1), (1, high - 1)))


def _header_shapes():
    """Headers of other forms: the old one, with the field for fresh in other words, in other orders, left out, doubled, and with numbers that are none."""
    parts = [b"(loans 10)", b"(unscored 1)", b"(fresh 9)", b"(held 7)"]
    for order in itertools.permutations(parts):
        yield b"(book " + b" ".join(order) + b")"
    for i in range(len(parts)):
        yield b"(book " + b" ".join(parts[:i] + parts[i + 1 :]) + b")"
        yield b"(book " + b" ".join(parts[: i + 1] + parts[i:]) + b")"
    others = (
        b"(scores fresh)", b"(scores aged)", b"(scores 9)", b"(scores fresh|aged)", b"(fresh)", b"(fresh )", b"(fresh none)", b"(fresh fresh)",
        b"(fresh aged)", b"(fresh 09)", b"(fresh 9 9)", b"(fresh -9)", b"(fresh 9%)", b"(freshs 9)", b"(fres 9)", b"(Fresh 9)", b"(aged 1)", b"fresh 9",
        b"(scores fresh) (fresh 9)", b"(fresh 9) (scores fresh)", b"(scores (fresh 9))", b"(fresh (9))", b"9",
    )
    for text in others:
        yield b"(book (loans 10) (unscored 1) %s (held 7))" % text


def _bytes(source):
    """Every byte of a line of each form replaced, dropped, doubled, and a byte put before it."""
    for fields in FIELDS.values():
        line = _ordinary(fields)
        for i in range(len(line)):
            others = [bytes((b,)) for b in ODD_BYTES if b != line[i]]
            for new in source.sample(others, 2) + [bytes((line[i] ^ 0x20,))]:
                yield line[:i] + new + line[i + 1 :]
            yield line[:i] + line[i + 1 :]
            yield line[:i] + line[i : i + 1] + line[i:]
            if source.randrange(3) == 0:
                yield line[:i] + source.choice(others) + line[i:]


def _shapes():
    """Other orders, missing and further fields, other surroundings, other lengths."""
    loan = _ordinary(FIELDS["loan"])
    parts = [b"(bal 7)", b"(val 7)", b"(amort 7)", b"(term 7)", b"(score 720 7)", b"(sup 1)", b"(from 201512)", b"(area other)"]
    for order in itertools.islice(itertools.permutations(parts), 0, None, 1601):
        yield b"(loan " + b" ".join(order) + b")"
    # A field left out, doubled, exchanged with the next, and a loan that ends before it, as once with sup.
    for i in range(len(parts)):
        for fields in (parts[:i] + parts[i + 1 :], parts[: i + 1] + parts[i:], parts[:i] + parts[i : i + 2][::-1] + parts[i + 2 :], parts[:i]):
            yield b"(loan " + b" ".join(fields) + b")"
    for name, fields in FIELDS.items():
        line = _ordinary(fields)
        for before in (b" ", b"\t", b"\0", b"(", b"0", b"\xef\xbb\xbf"):
            yield before + line
        for after in (b" ", b"\t", b"\r", b"\n", b"\0", b")", b"0", b" " + line, line):
            yield line + after
        yield line.upper()
        yield line.replace(b" ", b"  ")
        yield line.replace(b" ", b"\t")
        yield line.replace(b") (", b")(")
        yield line.replace(b"(", b"[").replace(b")", b"]")
        yield line[1:-1]
        yield longest(fields)
        yield b"(" + name.encode() + b")"
        yield b"(" + name.encode() + b" )"
        for length in (239, 240, 241, 242):
            yield line + b" " * (length - len(line))
            yield line[:-1] + b"0" * (length - len(line)) + b")"
    for length in range(len(loan)):
        yield loan[:length]
    for length in (0, 1, 2, 239, 240, 241, 255, 256, 257, 1000, 4096):
        for b in (b" ", b"(", b"0", b"\0", b"\xff"):
            yield b * length
    for b in range(256):
        yield bytes((b,))
        yield b"(c %c)" % b


def random_inside(source, field):
    """A number of a range, or a month of a range of months."""
    low, high = field
    if isinstance(field, Months):
        return source.randrange(low // 100, high // 100 + 1) * 100 + source.randrange(1, 13)
    return source.randrange(low, high + 1)


def random_name(source, most=NAME.most):
    """A name of a mark; some have letters of the ends of the alphabet alone."""
    letters = source.choice((LETTERS, LETTERS, b"az", b"ab"))
    return bytes(source.choices(letters, k=source.randrange(NAME.least, most + 1)))


def random_line(source):
    """A line of some form with numbers of any size, sometimes damaged in up to three places."""
    fields = source.choice(list(FIELDS.values()))
    out = []
    for field in fields:
        if isinstance(field, bytes):
            out.append(field)
        elif isinstance(field, Letters):
            out.append(random_name(source, source.choice((field.most, field.most, field.most + 1))))
        elif isinstance(field[0], bytes):
            out.append(source.choice(field))
        else:
            low, high = field
            inside, any_size = random_inside(source, field), source.randrange(10 ** source.randrange(1, 15))
            out.append(b"%d" % source.choice((low, high, high + 1, low - 1, inside, inside, any_size)))
    line = b"".join(out)
    for _ in range(source.choice((0, 0, 0, 1, 2, 3))):
        i = source.randrange(len(line) + 1)
        line = line[:i] + source.choice((b"", bytes((source.choice(ODD_BYTES),)))) + line[i + source.randrange(2) :]
    return line


def stored_files():
    source = random.Random(240)
    random_lines = (random_line(source) for _ in range(1200))
    lines = itertools.chain(_ranges(), _headers(), _header_shapes(), _index_lines(), _mark_lines(), _shapes(), _bytes(source), random_lines)
    return stored.case_files(case(line) for line in dict.fromkeys(lines))


def further(program, seed, count):
    source = random.Random(seed)
    return stored.run(program, (case(random_line(source)) for _ in range(count)))


if __name__ == "__main__":
    stored.main("try_lines", __doc__, stored_files, further)
