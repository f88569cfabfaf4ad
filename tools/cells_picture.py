#!/usr/bin/env python3
"""Draws the table of a book's loans by credit score and loan-to-value.

  ./capital --cells FILE | python3 tools/cells_picture.py [NAME] > OUT.html

Standard input is what the launcher prints with --cells, the report and 60 cells; standard output a page that needs nothing
besides itself. NAME is shown as the book's. The printed numbers are added and compared, in whole cents, and nothing else is computed.
Nothing is written where the input is anything else (exit status 2), or where the cells do not add up to the report (1).
"""
import html
import re
import sys
from typing import NamedTuple

D = "(?:0|[1-9][0-9]{0,19})"
S = "(?:0|-?[1-9][0-9]{0,19})"
REPORT = {
    "loans": D, "total": S, "supplement": S, "home": D, "moved": D,
    "rest": D, "oper": D, "required": D, "capital": S, "ratio": f"(?:none|{S})",
}
BANDS = ("below 600", *(f"{low}–{low + 19}" for low in range(600, 780, 20)), "780 and above", "no score")
COLUMNS = ("up to 65%", "65% to 80%", "80% to 90%", "90% to 95%", "above 95%")
SHADES = 8
NO_LOAN = "–"


class Cell(NamedTuple):
    count: int
    balance: int
    charge: int


class Refused(Exception):
    """Why no page is written, and the exit status."""

    def __init__(self, status, sentence):
        super().__init__(sentence)
        self.status = status


# ---- what is read


def line_forms():
    """Each line of the input: how it is written, and its pattern with the numbers that are wanted as groups."""
    for name, number in REPORT.items():
        yield f"({name} ..)", rf"\({name} ({number})\)"
    for band in range(1, len(BANDS) + 1):
        for column in range(1, len(COLUMNS) + 1):
            yield f"(cell {band} {column} ..)", rf"\(cell {band} {column} ({D}) ({D}) ({S})\)"


def read(data):
    """The report's loans and total, and the cells: a list of columns for each band."""
    *lines, last = data.decode("ascii", "replace").split("\n")
    forms = list(line_forms())
    if len(lines) > len(forms) or last:
        raise Refused(2, f"the input is not {len(forms)} lines, each with its end, as ./capital --cells prints them")
    numbers = []
    for at, (shown, pattern) in enumerate(forms):
        found = re.fullmatch(pattern, lines[at]) if at < len(lines) else None
        if found is None:
            raise Refused(2, f"line {at + 1} of the input is not {shown}, as ./capital --cells prints it")
        numbers.append(found.groups())
    cells = [Cell(*map(int, row)) for row in numbers[len(REPORT) :]]
    width = len(COLUMNS)
    return int(numbers[0][0]), int(numbers[1][0]), [cells[i : i + width] for i in range(0, len(cells), width)]


def together(cells):
    """The sums of several cells."""
    return Cell(*map(sum, zip(*cells)))


def compare(loans, total, whole):
    """Refuses a table that does not add up to its report."""
    for name, told, found in (("loans", loans, whole.count), ("total", total, whole.charge)):
        if told != found:
            raise Refused(1, f"THE CELLS DO NOT AGREE WITH THE REPORT: its {name} is {told}, and they add up to {found}. No picture is drawn")


# ---- what is written


def dollars(cents):
    """Cents as dollars: thousands apart, and a minus sign that is no hyphen."""
    return f"{'−' if cents < 0 else ''}{abs(cents) // 100:,}.{abs(cents) % 100:02}"


def shade(cell, largest):
    """How dark a cell is: 0 without a balance, then in equal steps up to the largest balance of a cell."""
    return -(-SHADES * cell.balance // largest) if cell.balance else 0


FIGURES = (("loans", lambda cell: f"{cell.count:,}"), ("balance $", lambda cell: dollars(cell.balance)), ("charge $", lambda cell: dollars(cell.charge)))


def row_group(title, cells, largest, kind):
    """The three rows of a band: its cells, and their sums. The first row names the columns for screens on which they stand below each other."""
    out = [f'<tbody class="{kind}">']
    for at, (name, figure) in enumerate(FIGURES):
        out.append("<tr>")
        if at == 0:
            out.append(f'<th scope="rowgroup" rowspan="{len(FIGURES)}">{title}</th>')
        out.append(f'<th scope="row">{name}</th>')
        for column, cell in zip((*COLUMNS, "all"), (*cells, together(cells))):
            label = f' data-column="{column}"' if at == 0 else ""
            tone = "sum" if column == "all" or kind == "sums" else f"s{shade(cell, largest)}"
            out.append(f'<td class="{tone}"{label}>{figure(cell) if cell.count else NO_LOAN}</td>')
        out.append("</tr>")
    out.append("</tbody>")
    return "\n".join(out)


def grid(rows, largest):
    columns = [together(column) for column in zip(*rows)]
    heads = "".join(f'<th scope="col">{column}</th>' for column in COLUMNS)
    groups = [row_group(title, cells, largest, "band") for title, cells in zip(BANDS, rows)]
    groups.append(row_group("all scores", columns, largest, "sums"))
    return f"""<table class="grid">
<caption>Loans, balance and charge by credit score (rows) and loan-to-value (columns)</caption>
<colgroup span="2"></colgroup><colgroup span="{len(COLUMNS)}"></colgroup><colgroup span="1"></colgroup>
<thead>
<tr><th scope="col" rowspan="2">Credit score</th><td rowspan="2"></td><th scope="colgroup" colspan="{len(COLUMNS)}">Loan-to-value</th><th scope="col" rowspan="2">all</th></tr>
<tr>{heads}</tr>
</thead>
{chr(10).join(groups)}
</table>"""


def legend(largest):
    steps = "".join(f'<span class="step s{i}"></span>' for i in range(SHADES + 1))
    top = f"the largest balance of a cell, ${dollars(largest)}" if largest else "no cell has a balance"
    return f'<p class="legend"><span>no balance</span><span class="steps" aria-hidden="true">{steps}</span><span>{top}</span></p>'


def agreement(loans, total, whole):
    rows = (("loans", f"{loans:,}", f"{whole.count:,}"), ("total: charge of all home loans, $", dollars(total), dollars(whole.charge)))
    body = "\n".join(f'<tr><th scope="row">{name}</th><td>{told}</td><td>{found}</td><td>equal</td></tr>' for name, told, found in rows)
    return f"""<table class="agreement">
<caption>The cells add up to the capital return</caption>
<thead><tr><th scope="col">line of the report</th><th scope="col">report</th><th scope="col">sum of the cells</th><th scope="col">compared</th></tr></thead>
<tbody>
{body}
</tbody>
</table>"""


STYLE = """
:root { color-scheme: light; }
* { box-sizing: border-box; }
body { margin: 0; color: #1b1f24; background: #fff; font: 15px/1.5 system-ui, "Segoe UI", Roboto, Helvetica, Arial, sans-serif; }
main { max-width: 80rem; margin: 0 auto; padding: 2rem 1.5rem 3rem; }
h1 { margin: 0 0 .25rem; font-size: 1.6rem; line-height: 1.25; font-weight: 600; }
.book { margin: 0 0 1rem; color: #4b535c; overflow-wrap: anywhere; }
.about { max-width: 46rem; }
.about p { margin: .5rem 0; }
table { border-collapse: collapse; font-variant-numeric: tabular-nums; }
caption { text-align: left; font-weight: 600; padding: 0 0 .5rem; }
.wide { overflow-x: auto; margin: 1.75rem 0 .75rem; }
.grid { width: 100%; font-size: .8125rem; line-height: 1.4; }
.grid th, .grid td { padding: .1rem .6rem; white-space: nowrap; }
.grid td { text-align: right; }
.grid thead th, .grid thead td { padding-top: .3rem; padding-bottom: .3rem; text-align: right; vertical-align: bottom; border-bottom: 1px solid #8a939c; }
.grid thead tr:first-child th:first-child { text-align: left; }
.grid thead th[colspan] { text-align: center; border-bottom: 0; }
.grid tbody { border-bottom: 1px solid #c9d0d7; }
.grid tbody tr:first-child > * { padding-top: .35rem; }
.grid tbody tr:last-child > * { padding-bottom: .35rem; }
.grid tbody th { text-align: left; vertical-align: top; }
.grid th[scope=row] { font-weight: 400; color: #4b535c; }
.grid tr:first-child td { font-weight: 600; }
.grid tr:first-child td.s0 { font-weight: 400; }
.grid td.sum { border-left: 1px solid #8a939c; }
.grid .sums { border-top: 2px solid #4b535c; border-bottom: 2px solid #4b535c; }
.grid .sums td:not(:last-child) { border-left: 0; }
.legend { display: flex; flex-wrap: wrap; align-items: center; gap: .25rem .75rem; margin: 0 0 2rem; font-size: .8125rem; color: #4b535c; }
.steps { display: inline-flex; border: 1px solid #8a939c; }
.step { width: 1.6rem; height: .9rem; }
.agreement { font-size: .875rem; }
.agreement th, .agreement td { padding: .25rem 1.25rem .25rem 0; text-align: right; border-bottom: 1px solid #c9d0d7; }
.agreement th:first-child { text-align: left; font-weight: 400; }
.agreement thead th, .agreement thead th:first-child { font-weight: 600; vertical-align: bottom; }
SHADES
.step, .grid td { print-color-adjust: exact; -webkit-print-color-adjust: exact; }
@media screen and (max-width: 60rem) {
  main { padding: 1.25rem 1rem 2rem; }
  .grid, .grid caption { display: block; }
  .grid thead { position: absolute; width: 1px; height: 1px; overflow: hidden; clip-path: inset(50%); }
  .grid tbody { display: grid; grid-template-columns: 1fr auto auto; grid-template-rows: repeat(8, auto); grid-auto-flow: column; margin-bottom: 1.25rem; border-bottom-width: 2px; }
  .grid tr { display: contents; }
  .grid tbody tr:nth-child(n) > * { padding: .2rem .4rem; }
  .grid tbody tr:nth-child(n) > th[scope=rowgroup] { grid-column: 1 / -1; grid-row: 1; font-size: 1rem; padding-left: 0; }
  .grid tbody th[scope=row] { grid-row: 2; text-align: right; border-bottom: 1px solid #8a939c; }
  .grid tr:first-child td { display: flex; justify-content: space-between; gap: .5rem; }
  .grid td[data-column]::before { content: attr(data-column); font-weight: 400; }
  .grid td.sum { border-left: 0; }
  .grid td:last-child { border-top: 1px solid #8a939c; }
}
@media print {
  @page { margin: 11mm; }
  body { font-size: 8.5pt; line-height: 1.35; }
  main { max-width: none; padding: 0; }
  h1 { font-size: 14pt; }
  .about { max-width: none; }
  .wide { overflow: visible; margin: 3mm 0 2mm; }
  .grid, .legend, .agreement { font-size: 7pt; line-height: 1.2; }
  .grid th, .grid td { padding-left: 1mm; padding-right: 1mm; }
  .grid tbody, .agreement { break-inside: avoid; }
  .grid tbody tr:first-child > * { padding-top: .6mm; }
  .grid tbody tr:last-child > * { padding-bottom: .6mm; }
  .grid tbody th, .grid td { padding-top: 0; padding-bottom: 0; }
  .legend { margin-bottom: 3mm; }
}
"""


def style():
    shades = [".s0 { background: #fff; }", *(f".s{i} {{ background: hsl(209, 55%, {98 - 3 * i}%); }}" for i in range(1, SHADES + 1))]
    return STYLE.replace("SHADES", "\n".join(shades))


def page(loans, total, rows, name):
    whole = together(map(together, rows))
    compare(loans, total, whole)
    largest = max(cell.balance for cells in rows for cell in cells)
    book = f'<p class="book">Book: {html.escape(name)}</p>\n' if name else ""
    return f"""<!DOCTYPE html>
<html lang="en">
<head>
<meta charset="utf-8">
<meta name="viewport" content="width=device-width, initial-scale=1">
<title>Home loans by credit score and loan-to-value</title>
<style>{style()}</style>
</head>
<body>
<main>
<h1>Home loans by credit score and loan-to-value</h1>
{book}<div class="about">
<p>Every home loan of the book stands in one of 60 cells: the row is its credit score, the column its loan-to-value, which is the
outstanding balance over the property value. A cell shows how many loans it has, the sum of their balances and the sum of
their charges, in dollars.</p>
<p>A limit belongs to the column that it ends: 80% exactly is in “65% to 80%”. A balance above the property value is in the last column.
The charge of a loan is its base requirement and supplement, before any liability held is taken off; it can be negative where a loan is nearly
paid off. The darker a cell, the larger its balance; “{NO_LOAN}” is a cell without a loan.</p>
</div>
<div class="wide">
{grid(rows, largest)}
</div>
{legend(largest)}
{agreement(loans, total, whole)}
</main>
</body>
</html>
"""


def main():
    name = sys.argv[1] if len(sys.argv) > 1 else ""
    try:
        drawn = page(*read(sys.stdin.buffer.read()), name).encode("utf-8", "replace")
        with open(1, "wb", closefd=False) as out:
            out.write(drawn)
    except Refused as refused:
        print(f"cells_picture: {refused}", file=sys.stderr)
        sys.exit(refused.status)
    except OSError as failed:
        print(f"cells_picture: the page is not, or not wholly, written: {failed.strerror}", file=sys.stderr)
        sys.exit(2)


if __name__ == "__main__":
    main()
