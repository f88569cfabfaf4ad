#!/usr/bin/env python3
"""Brings the repository's own names in specs/, proofs/, clauses and must-fail edits to the spelling of today's Rattle, once.

usage: python3 tools/respell.py [--list]     at the top of the repository; --list prints the names and changes nothing

A definition, lemma, field or constructor in camel case gets snake case, and a dash in a field, a constructor or a
definition of specs/ becomes an underscore. A dash stays where it joins two names in a lemma. Names of src/, of types and
of facts, texts in quotes and what Rattle makes keep their spelling. A definition whose new name a function of src/ has gets the
ending _lem. Any other new name that is in use stops the script, but for those in OTHER, which get the name that stands there.
"""
import collections
import glob
import re
import sys

# Names whose plain respelling is in use already by another definition, lemma or field.
OTHER = {
    "curveAOf": "curve_a_of",
    "curveBOf": "curve_b_of",
    "goesOn": "joins_on",
    "in-range": "within_range",
    "noCells": "empty_cells",
    "noIndex": "empty_index",
    "noRow": "empty_row",
    "notOpened": "opened_refused",
    "of-loan": "of_loan",
    "ofLoan": "loan_or",
    "rowNamed": "place_named",
    "tooFew": "lacks_lines",
    # fields that state a law of the definition of this name
    "cells-size": "cells_size_law",
    "closing-cells": "closing_cells_law",
    "exact-moved": "exact_moved_law",
    "exact-rest": "exact_rest_law",
    "headers-at-ends": "headers_at_ends_law",
    "headers-beyond": "headers_beyond_law",
    "index-line": "index_line_law",
    "lines-beyond": "lines_beyond_law",
    # fields beside a crate or a function of this name, which no text names bare
    "line-reading": "line_reading",
    "loan-charge": "loan_charge",
    "over-counted": "over_counted",
    "rate-b": "rate_b",
    "rate-c": "rate_c",
    "same-factors": "same_factors",
    # functions of this name stand in programs of the tests alone
    "chargeOf": "charge_of",
    "itemNumber": "item_number",
    "numbersOf": "numbers_of",
}

# Names in camel case that stand inside a proof alone.
INSIDE = {"indexContent": "index_content", "openedWith": "history_opened"}

WORD = re.compile(r"[^\s(){}\[\].,;:=\"`⟨⟩∥⌜⌝λ]+")
TOP = re.compile(r"^((?:(?:abbrev|unfoldable|pub) )*)([^\s:(){}]+)(?: [({][^:]*: .*)? : ")
INNER = re.compile(r"^\s+(?:(?:abbrev|unfoldable|pub) )*([^\s:(){}]+)(?: [({][^:]*: .*)? : ")
BLOCK = re.compile(r"^(?:(?:pub|abbrev|unfoldable) )*(record|data|module|mutual)\b")


def antt_files():
    return sorted(glob.glob("crates/*/specs/**/*.antt", recursive=True) + glob.glob("crates/*/proofs/**/*.antt", recursive=True))


def declared():
    """The names that the repository declares: name -> set of kinds (top of specs, top of proofs, field, inner lemma)."""
    names = collections.defaultdict(set)
    for path in antt_files():
        where = "specs" if "/specs/" in path else "proofs"
        block = None
        for line in open(path, encoding="utf-8"):
            if line[:1].strip():
                m = BLOCK.match(line)
                block = m.group(1) if m else None
                m = TOP.match(line)
                if m and not line.startswith("--"):
                    names[m.group(2)].add(where)
            elif block:
                m = INNER.match(line)
                if m:
                    names[m.group(1)].add("field" if block in ("record", "data") else where)
    return names


def snake(name):
    name = re.sub(r"(?<=[a-z0-9'])(?=[A-Z])", "_", name)
    name = re.sub(r"(?<=[A-Za-z])(?=[0-9])", "_", name)
    name = re.sub(r"(?<=[0-9])_(?=[A-Z](?![a-z]))", "", name)
    return name.lower()


def new_name(name, kinds):
    if name in OTHER:
        return OTHER[name]
    if not re.match(r"[a-z]", name):
        return name
    parts = name.split("-")
    parts = [snake(p) if re.match(r"[a-z]", p) and re.search("[A-Z]", p) else p for p in parts]
    return ("_" if kinds & {"field", "specs"} else "-").join(parts)


def pieces(line, comment):
    """The line as (text, kind) with kind code, quote or comment."""
    at = 0
    out = []
    for m in re.finditer(r'"(?:[^"\\]|\\.)*"|' + re.escape(comment) + ".*", line):
        out += [(line[at:m.start()], "code"), (m.group(), "quote" if m.group()[0] == '"' else "comment")]
        at = m.end()
    return out + [(line[at:], "code")]


def turned(line, names, comment):
    out = []
    for text, kind in pieces(line, comment):
        if kind == "quote":
            out.append(text)
        elif kind == "comment":
            out.append(WORD.sub(lambda m: names[m.group()] if m.group() in names and re.search("[A-Z]", m.group()) else m.group(), text))
        else:
            out.append(WORD.sub(lambda m: names.get(m.group(), m.group()), text))
    return "".join(out)


def main():
    kinds = declared()
    names = {n: new_name(n, k) for n, k in kinds.items()}
    names = {n: t for n, t in names.items() if n != t} | INSIDE
    sources = antt_files() + sorted(glob.glob("crates/*/src/**/*.rt", recursive=True))
    used = collections.defaultdict(set)
    for path in sources:
        comment = "//" if path.endswith(".rt") else "--"
        for line in open(path, encoding="utf-8"):
            for text, kind in pieces(line.rstrip("\n"), comment):
                if kind == "code":
                    for w in WORD.findall(text):
                        used[w].add(path)
    for n, t in names.items():
        if n not in OTHER and any("/src/" in p for p in used.get(t, ())):
            names[n] = t + "_lem"
    clash = 0
    became = collections.defaultdict(list)
    for n, t in sorted(names.items()):
        became[t].append(n)
        if "--list" in sys.argv:
            print(n, "->", t, ",".join(sorted(kinds.get(n, ["proofs"]))))
    for t, olds in sorted(became.items()):
        if len(olds) > 1 or t in used and olds[0] not in OTHER:
            print("in use:", " ".join(olds), "->", t, sorted(used.get(t, ()))[:4])
            clash += 1
    if clash or "--list" in sys.argv:
        print(len(names), "names,", clash, "in use")
        return 1 if clash else 0
    for path in sources + sorted(glob.glob("crates/*/must-fail/*.edit")):
        text = open(path, encoding="utf-8").read()
        comment = "--" if path.endswith(".antt") else "//"
        new = "".join(turned(line, names, comment) for line in text.splitlines(keepends=True))
        if new != text:
            open(path, "w", encoding="utf-8").write(new)
    print(len(names), "names respelled")
    return 0


sys.exit(main())
