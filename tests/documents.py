#!/usr/bin/env python3
"""Checks what the pages name in backquotes: that the files are there, that the names are, and that each stands in the file it is said to be in.

Pages are README.md, all of docs/, and the README.md of other folders; but for docs/PORT*.md and docs/DESIGN-PASS.md, which have names of before
beside those of today. What is checked:

- a file: `crates/..`, `tests/..` and so on, or CRATE/must-fail/LABEL. NAME stands for any crate.
- a name: a word, or several joined by `.` or `::`, as `Closes.answers` or `figures::add`. Each part must be a name in crates/ (source,
  definitions or proofs, comments left out), in a script or a book of this repository, or one of KNOWN below.
- a name in a file: of "`a`, `b` in `crates/..`" and of "`crates/..`: `a`, `b`" both a and b must stand in that file.
- README.md names each crate of crates.txt, and in its picture of the layers a crate stands above all that it is built on.
- docs/PROOFS.md, "A reading order": each file's number of lines, each step's sum and the sum of all; the lines of code and of proofs.
- crates/promises/specs/Promises.antt: each field is of a record, of this file or of the one that it is taken from, and what is taken is used. Each
  record Calls.. of crates/histories/specs is promised there, and so is what a page calls a "statement `a`" or "statements `a`, `b` and `c`".

The last line is 'N passed, M failed'.
"""
import re
import sys
from pathlib import Path

ROOT = Path(__file__).resolve().parent.parent
TOP = ("crates", "tests", "tools", "bench", "docs", "examples", ".ci")
PARTS = ("must-fail", "specs", "proofs", "src")
# Names from outside the repository, and words that stand for others.
KNOWN = {"NAME", "LABEL", "FILE", "refusedN", "lem", "ac"}
# Its texts have names that are no more.
RESPELL = ROOT / "tools" / "respell.py"
WORD = r"[A-Za-z_][A-Za-z0-9_]*(?:['-][A-Za-z0-9_]+)*'*"
LISTED = rf"`{WORD}(?:(?:\.|::){WORD})*(?:\(\))?`"
GROUP = rf"{LISTED}(?:(?:, | and |, and ){LISTED})*"
PROMISES = ROOT / "crates" / "promises" / "specs" / "Promises.antt"


def code_of(path):
    """A source without its comments."""
    text = path.read_text(encoding="utf-8")
    return re.sub(r"//.*" if path.suffix == ".rt" else r"(?m)^\s*--.*|\s--\s.*", "", text)


def words_of(text):
    """Its words, whole and, where hyphens join them, in parts."""
    found = set(re.findall(WORD, text))
    return found | {part for word in found for part in word.split("-")}


def kept(pattern):
    """The files of a pattern but for what is made, in folders named out."""
    return [path for path in ROOT.glob(pattern) if "out" not in path.relative_to(ROOT).parts]


def names():
    """Every name of the repository."""
    found = set(KNOWN)
    for path in kept("crates/*/**/*"):
        if path.suffix in (".rt", ".antt"):
            found |= words_of(code_of(path))
        if path.suffix in (".rt", ".antt", ".edit"):
            found |= {path.stem, path.name}
    for folder in ("tests", "tools", "bench", "examples", ".ci"):
        for path in kept(f"{folder}/**/*"):
            if path.is_file() and path.suffix not in (".md", ".pyc", ".report", ".cells") and path not in (Path(__file__).resolve(), RESPELL):
                found |= words_of(path.read_text(encoding="utf-8", errors="replace")) | {path.stem, path.name}
    found |= words_of((ROOT / "capital").read_text(encoding="utf-8"))
    return found | {path.name for path in ROOT.rglob("*.md")} | {path.name for path in ROOT.glob("crates/*")} | set(PARTS)


def places(name):
    """Where a file may stand; none if it names no file of the repository."""
    first, *others = name.split("/")
    if "NAME" in others:
        return []
    if first == "crates" and len(others) == 3 and others[1] == "out":  # what rt and the launcher make of a program
        return [ROOT / "crates" / others[0] / "src" / "main.rt"]
    if first in TOP and others:
        return list(ROOT.glob(name)) if "*" in name else [ROOT / name]
    if others and others[0] in PARTS and (ROOT / "crates" / first).is_dir():
        return [ROOT / "crates" / name, ROOT / "crates" / (name + ".edit")]
    return []


def parts(name):
    """The parts of a name, or none if it is no plain name."""
    plain = re.sub(r"\(\)$", "", name)
    if not re.fullmatch(rf"{WORD}(?:(?:\.|::){WORD})*", plain) or re.fullmatch(r"[A-Z]?[0-9]+", plain):
        return []
    return re.split(r"\.|::", plain)


def page_problems(page, known):
    """How many names of a page are right, and what is wrong with the others."""
    text = page.read_text(encoding="utf-8")
    text = re.sub(r"(?ms)^    [^\n]*$|```.*?```", "", text)
    right, wrong = 0, []

    def count(well, what):
        nonlocal right
        right += well
        if not well:
            wrong.append(what)

    for name in re.findall(r"`([^`\n]+)`", text):
        where = places(name.rstrip("/")) if re.fullmatch(r"[A-Za-z0-9_.+/*-]+", name) else []
        if where:
            count(any(place.exists() for place in where), f"there is no {name}")
        elif name in known:
            right += 1
        else:
            for part in parts(name):
                count(part in known, f"no {part}, as in `{name}`")
    file = r"`(crates/[A-Za-z0-9_./-]+\.(?:rt|antt))`"
    said = [(name, these) for these, name in re.findall(rf"({GROUP}) (?:in|of) {file}", text)] + re.findall(rf"{file}: ({GROUP})", text)
    for name, these in said:
        there = words_of(code_of(ROOT / name)) if (ROOT / name).is_file() else set()
        for word in re.findall(WORD, " ".join(re.findall(r"`(.*?)`", these))):
            count(word in there, f"{name} has no {word}")
    return right, wrong


def crates():
    """Each crate of crates.txt, with the crates that it is built on."""
    listed = re.sub(r"#.*", "", (ROOT / "crates.txt").read_text(encoding="utf-8"))
    needs = {name: rest.split() for name, rest in re.findall(r"(?m)^(\w+):(.*)$", listed)}
    return {name: [below for below in rest if below in needs] for name, rest in needs.items()}


def readme_problems():
    """What is wrong with what README.md says of the crates, and how much is right."""
    text = (ROOT / "README.md").read_text(encoding="utf-8")
    needs = crates()
    said = {f"README.md: says nothing of the crate {name}": f"`{name}`" in text for name in needs}
    rows = [line.split("|")[0].split() for line in re.search(r"```\n(.*?)```", text, re.S)[1].splitlines()]
    height = {name: -i for i, row in enumerate(rows) for name in row}
    of_program, more = set(), ["capital"]
    while more:
        name = more.pop()
        of_program.add(name)
        more += [below for below in needs[name] if below not in of_program]
    said |= {f"README.md: the layers have no {name}": name in height for name in of_program}
    said |= {f"README.md: {name} is no crate": name in needs for name in height}
    for name in of_program & set(height):
        for below in set(needs[name]) & set(height):
            said[f"README.md: {name} does not stand above {below}"] = height[name] > height[below]
    return sum(said.values()), [what for what, well in said.items() if not well]


def reading_order_problems():
    """The reading order's numbers of lines that are not those of the files: as (right, wrong)."""
    text = (ROOT / "docs" / "PROOFS.md").read_text(encoding="utf-8")
    right, wrong, together = 0, [], 0

    def hold(what, said, found):
        nonlocal right
        if int(said.replace(",", "")) == found:
            right += 1
        else:
            wrong.append(f"docs/PROOFS.md: {what} has {found} lines and is said to have {said}")

    for step, read, total in re.findall(r"(?m)^\| (\d+) \| (.*) \| ([\d,]+) \|$", text):
        folder = re.search(r" in `(crates/[^`]*)`", read)
        lines = 0
        for name, said in re.findall(r"`([^`]*)` \((\d+)\)", read):
            path = ROOT / name if name.startswith("crates/") else ROOT / folder[1] / name
            found = len(path.read_text(encoding="utf-8").splitlines())
            hold(name, said, found)
            lines += found
        hold(f"step {step}", total, lines)
        together += lines
    hold("the reading order", re.search(r"Together ([\d,]+) lines", text)[1], together)
    code, proofs = re.search(r"The code has ([\d,]+) lines, the proofs ([\d,]+)", text).groups()
    for what, said, files in (("all code", code, "src/**/*.rt"), ("all proof", proofs, "proofs/**/*.antt")):
        hold(what, said, sum(len(path.read_text(encoding="utf-8").splitlines()) for path in ROOT.glob(f"crates/*/{files}")))
    return right, wrong


def records_of(path):
    """The records that a file of definitions declares."""
    return set(re.findall(rf"(?m)^pub record ({WORD})", code_of(path))) if path.is_file() else set()


def promises_problems(pages):
    """What is promised and no record, taken and not used, or left out of what is promised: as (right, wrong)."""
    code = code_of(PROMISES)
    files = {}  # where what is taken from another file stands: a name, or a module
    for crate, inside, module, these in re.findall(rf"(?m)^use Rattle\.(\w+)\.(specs\.\w+)(?: as ({WORD})|\.\{{(.*)\}})$", code):
        files |= dict.fromkeys([module] if module else these.split(", "), ROOT / "crates" / crate / (inside.replace(".", "/") + ".antt"))
    fields = re.findall(rf"(?m)^  pub {WORD} : (.*)$", code)
    promised = {}  # each record by its whole name, after the arguments for which it holds
    for field in fields:
        name = re.split("→ ", field)[-1].split()[0]
        promised[name] = files.get(name.split(".")[0], PROMISES)
    said = {f"{PROMISES.name}: {name} is no record": name.split(".")[-1] in records_of(path) for name, path in promised.items()}
    used = set(re.findall(r"[^\s(){},.:]+", " ".join(fields)))
    said |= {f"{PROMISES.name}: {name} is taken and not used": name in used for name in files}
    of_calls = {name for path in ROOT.glob("crates/histories/specs/*.antt") for name in records_of(path) if name.startswith("Calls")}
    said |= {f"{PROMISES.name}: {name} is not promised": name in promised for name in of_calls}
    for page in pages:
        for these in re.findall(rf"\bstatements? ({GROUP})", page.read_text(encoding="utf-8")):
            for name in re.findall(r"`(.*?)`", these):
                said[f"{page.relative_to(ROOT)}: {PROMISES.name} does not promise {name}"] = name in promised
    return sum(said.values()), [what for what, well in said.items() if not well]


def main():
    known = names()
    passed = failed = 0
    pages = [ROOT / "README.md", *sorted((ROOT / "docs").rglob("*.md")), *sorted(ROOT.glob("*/README.md"))]
    pages = [page for page in pages if not page.name.startswith(("PORT", "DESIGN-PASS"))]
    for page in pages:
        right, wrong = page_problems(page, known)
        passed += right
        failed += len(wrong)
        for what in wrong:
            print(f"{page.relative_to(ROOT)}: {what}")
    for right, wrong in (readme_problems(), reading_order_problems(), promises_problems(pages)):
        passed += right
        failed += len(wrong)
        print("".join(what + "\n" for what in sorted(wrong)), end="")
    print(f"{passed} passed, {failed} failed")
    sys.exit(1 if failed or not passed else 0)


if __name__ == "__main__":
    main()
