#!/usr/bin/env python3
"""Counts the instructions that the program takes for a loan, and fails where they are more than LIMIT.

A step of the gate: the compiler's inlining is brittle, and time on a shared machine says little. Counted by callgrind on two books of loans; the
difference is taken, so that the start of the process and the lines of the house price index do not count. A machine without valgrind says so and counts nothing. The last line is
'N passed, M failed'.
"""
import shutil
import subprocess
import sys
import tempfile
from pathlib import Path

import make_book
from processes import PROGRAM

LIMIT = 1610
FEW, MANY = 1_000, 3_000
SEED = 1


def available():
    return shutil.which("valgrind") is not None


def of_run(path, out=None):
    """The instructions of one run of the program on the book of a file; callgrind's own file goes to `out`."""
    with tempfile.TemporaryDirectory() as folder, open(path, "rb") as book:
        out = out or Path(folder) / "callgrind.out"
        subprocess.run(
            ["valgrind", "--tool=callgrind", f"--callgrind-out-file={out}", str(PROGRAM)],
            stdin=book, stdout=subprocess.DEVNULL, stderr=subprocess.DEVNULL, check=True,
        )
        found = [line.split()[1] for line in out.read_text(errors="replace").splitlines() if line.startswith(("summary:", "totals:"))]
    if not found:
        raise SystemExit("callgrind counted nothing")
    return int(found[0])


def write_book(path, loans, others, change=None):
    """A book in a file; `change` takes a line to another of the same kind."""
    with open(path, "wb") as out:
        for line in make_book.lines(SEED, loans, others):
            out.write((change(line) if change else line) + b"\n")


def a_loan():
    """The instructions of a loan of the spread of make_book.py."""
    with tempfile.TemporaryDirectory() as folder:
        book = Path(folder) / "book"
        counted = []
        for loans in (FEW, MANY):
            write_book(book, loans, 0)
            counted.append(of_run(book))
    return (counted[1] - counted[0]) / (MANY - FEW)


def main():
    if not available():
        print("no valgrind here: the instructions of a loan are not counted\n0 passed, 0 failed")
        return
    if not PROGRAM.is_file():
        sys.exit("no crates/capital/out/capital: `rt run` in crates/capital proves and builds it")
    found = a_loan()
    well = found <= LIMIT
    print(f"{found:.0f} instructions a loan, at most {LIMIT}")
    print("1 passed, 0 failed" if well else "0 passed, 1 failed")
    sys.exit(0 if well else 1)


if __name__ == "__main__":
    main()
