"""Sheets of credit factors for the tests: some that keep the rules of request L3, some that break one, and how they are written."""
from reference.sheet import AGES, BANDS, BUILT_IN, GREATEST, LEAST, LENGTH, broken

# No two numbers are equal, so that a factor tells its place.
DISTINCT = tuple(36 + 24 * (BANDS - 1 - band) + 4 * age for band in range(BANDS) for age in range(AGES))
EQUAL = (100,) * LENGTH  # every neighbour equal


def changed(sheet, place, number):
    return (*sheet[:place], number, *sheet[place + 1 :])


def rising(band, age):
    """A sheet whose only fault is that it rises from a band to the next at one age."""
    sheet = tuple(100 if a <= age else 200 for _ in range(BANDS) for a in range(AGES))
    return changed(sheet, (band + 1) * AGES + age, 101)


def falling(band, age):
    """A sheet whose only fault is that it falls from an age to the next in one band."""
    sheet = tuple(200 if b < band else 150 if b == band else 100 for b in range(BANDS) for _ in range(AGES))
    return changed(sheet, band * AGES + age, 151)


RISING = {(band, age): rising(band, age) for band in range(BANDS - 1) for age in range(AGES)}
FALLING = {(band, age): falling(band, age) for band in range(BANDS) for age in range(AGES - 1)}
# Out of range: every number; the one that is least or greatest, so that the order is kept; the first and the last place.
OUTSIDE = (
    (LEAST - 1,) * LENGTH,
    (GREATEST + 1,) * LENGTH,
    changed((LEAST,) * LENGTH, LENGTH - AGES, LEAST - 1),
    changed((GREATEST,) * LENGTH, AGES - 1, GREATEST + 1),
    *(changed(EQUAL, place, number) for place in (0, LENGTH - 1) for number in (LEAST - 1, GREATEST + 1, 10**14 - 1)),
)
LENGTHS = tuple((100,) * count for count in (0, 1, LENGTH - 1, LENGTH + 1, 2 * LENGTH))


def kept(source):
    """A random sheet that keeps the rules: sorting the columns of a table leaves its sorted rows sorted."""
    least = source.randrange(LEAST, GREATEST + 1)
    greatest = source.choice((least, min(least + 3, GREATEST), source.randrange(least, GREATEST + 1), GREATEST))
    rows = [sorted(source.randint(least, greatest) for _ in range(AGES)) for _ in range(BANDS)]
    columns = [sorted(column, reverse=True) for column in zip(*rows)]
    return tuple(number for row in zip(*columns) for number in row)


def not_kept(source):
    """A random sheet that breaks a rule, most often by one number of a sheet that keeps them all."""
    if source.randrange(8) == 0:
        return (source.randint(LEAST, GREATEST),) * source.choice((0, LENGTH - 1, LENGTH + 1, source.randrange(LENGTH)))
    while True:
        sheet = kept(source)
        place = source.randrange(LENGTH)
        number = source.choice((LEAST - 1, GREATEST + 1, sheet[place] - 1, sheet[place] + 1, source.randint(LEAST, GREATEST)))
        sheet = changed(sheet, place, max(number, 0))
        if broken(sheet):
            return sheet


def text(sheet, layout=0):
    """A sheet as a file: in eleven lines, in one line without a newline, or a number a line."""
    numbers = [b"%d" % number for number in sheet]
    if layout == 0:
        return b"".join(b" ".join(numbers[i : i + AGES]) + b"\n" for i in range(0, len(numbers), AGES))
    return b" ".join(numbers) if layout == 1 else b"".join(number + b"\n" for number in numbers)


LAYOUTS = 3
assert BUILT_IN != DISTINCT and not any(map(broken, (BUILT_IN, DISTINCT, EQUAL)))
