"""Writing the stored inputs and outputs of the test programs, or checking that they are what is written."""
import argparse
import subprocess
import sys
from pathlib import Path

ROOT = Path(__file__).resolve().parent.parent
BLOCK = 65_536  # the test programs read blocks of so many bytes, each of whole cases


def tally(count):
    """The only output of a test program for which every case came out as it should."""
    return b"%d within, 0 outside\n" % count


def in_blocks(cases):
    """The cases as one input. A case begins with a number: zeros before the last one of a block fill it."""
    out, size = [], 0
    for case in cases:
        if size + len(case) > BLOCK:
            out[-1] = b"0" * (BLOCK - size) + out[-1]
            size = 0
        out.append(case)
        size += len(case)
    return b"".join(out)


def run(program, cases):
    """Runs a built test program over any number of cases; whether none is outside."""
    cases = list(cases)
    done = subprocess.run([program], input=in_blocks(cases), capture_output=True, check=True)
    sys.stdout.write(done.stdout[-2000:].decode("ascii", "replace"))
    return done.stdout == tally(len(cases))


def keep(crate, files, check):
    """Writes the files (name: bytes) of a crate or, to check, compares them; whether they are as they should be."""
    different = []
    for name, data in files.items():
        path = ROOT / "crates" / crate / name
        if not check:
            path.parent.mkdir(parents=True, exist_ok=True)
            path.write_bytes(data)
        elif not path.is_file() or path.read_bytes() != data:
            different.append(str(path.relative_to(ROOT)))
    for name in different:
        print(f"{name}: not what tests/ writes")
    if not different:
        size = sum(map(len, files.values()))
        print(f"{crate}: {' and '.join(files)}, {size} bytes, {'as stored' if check else 'written'}")
    return not different


def case_files(cases):
    """The stored files of a program that tells how many of its cases came out as they should."""
    cases = list(cases)
    return {"stdin": in_blocks(cases), "stdout": tally(len(cases))}


def main(crate, description, files, further=None):
    """files(): the stored files; further(program, seed, count): runs a built program over more, and tells whether all is well."""
    parser = argparse.ArgumentParser(description=description)
    parser.add_argument("--check", action="store_true", help="compare with the stored files and write nothing")
    if further:
        parser.add_argument("--run", metavar="PROGRAM", help="run this built program over further cases and write nothing")
        parser.add_argument("--count", type=int, default=10_000, help="how many further cases (with --run)")
        parser.add_argument("--seed", type=int, default=1, help="the seed of the further cases (with --run)")
    options = parser.parse_args()
    if further and options.run:
        well = further(options.run, options.seed, options.count)
    else:
        well = keep(crate, files(), options.check)
    sys.exit(0 if well else 1)
