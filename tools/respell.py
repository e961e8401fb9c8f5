#!/usr/bin/env python3
"""Respells the repository's own definitions and lemmas: types and facts in upper camel case, all other names in snake case.

usage: python3 tools/respell.py [-v]       at the top of a checkout that /opt/rattle/port/port.py has just turned

A dash stays in the name of a lemma where what stands before it is the name of a definition, as in run-append: there it joins two names.
Names of src/, strings, comments and names of the library stay. It prints the names that would fall together with another, and leaves those.
"""

import os
import re
import sys

KEYWORDS = {"pub", "abbrev", "unfoldable", "record", "data", "axiom"}
NOT_NAMES = {"use", "module", "let", "in", "where", "infix", "infixl", "infixr", "elim", "rw", "--", "λ", "unfolding", "and"}
DECLARED = re.compile(r"^(\s*)((?:(?:pub|abbrev|unfoldable|record|data|axiom)\s+)*)([^\s(){}:;,.=|]+(?:\s+[^\s(){}:;,.=|]+)*)\s*(?:[({][^=]*)?:(?:\s|$)")
GENERATED = re.compile(r":\s*(goal|given)\.")
TOKEN = re.compile(r"[^\s(){}\[\].,;«»⟦⟧\"]+")
BY_HAND = {
    "getD-first": "get_or-first",
    "getD-second": "get_or-second",
    "getD-run": "get_or-run",
    "getD-turns": "get_or-turns",
    "stands-getD": "stands-get_or",
    # where the plain spelling would stand for two things in one file
    "amount-word": "amount_written",
    "of-bytes": "bytes_written",
    "branch-word": "branch_word-branch_of",
    "bus-word": "bus_word-payload_of",
    "end-word": "end_word-is",
}
# Names that are also those of a function of src/, of a module or of something in another crate: no file has both in scope.
APART = set(
    """Row-sizes amountOf amountWord branch-name branch-prices branchRow branchRun branchWord bus-prices bus-row bus-worth busRow curved-row
    curved-rows curvedRow dispatchOf floor-stands hand-over headCount mayStand points-of price-at price-beyond recordOf residue-beyond
    rounded-up rows-provided same-calls slotIn stepped-row stepped-rows steppedRow total-cost wordOf busWord balance-is-nodal case-exact
    read-exact refusals-alter-nothing""".split()
)


def files(kinds):
    for folder, dirs, names in os.walk("crates"):
        dirs[:] = sorted(d for d in dirs if d != "out")
        for name in sorted(names):
            if name.endswith(kinds):
                yield os.path.join(folder, name)


def read(path):
    with open(path, encoding="utf-8") as f:
        return f.read()


def declared():
    """The names that .antt files declare: definitions and fields, lemmas, and of the definitions the functions."""
    words, lemmas, functions = set(), set(), set()
    for path in files(".antt"):
        for line in read(path).split("\n"):
            m = DECLARED.match(line)
            if not m or GENERATED.search(line):
                continue
            names = m.group(3).split()
            if names[0] in NOT_NAMES:
                continue
            marked = set(m.group(2).split()) & {"abbrev", "unfoldable", "record", "data"}
            for n in names:
                if n not in KEYWORDS:
                    (words if marked or m.group(1) or "/specs/" in path else lemmas).add(n)
                    if marked & {"abbrev", "unfoldable"} and n[0].islower():
                        functions.add(n)
    return words, lemmas - words, functions


def imported():
    """The names that files take from the library."""
    found = set()
    for path in files((".antt", ".rt")):
        for m in re.finditer(r"use (?:Rattle\.std|Prim|denote|lib|sem|specs)\b[^\n{]*\{([^}]*)\}", read(path)):
            for n in m.group(1).split(","):
                found.add(n.split(" as ")[0].strip())
    return found


def humps(name):
    return re.sub(r"(?<=[a-z0-9])([A-Z])", lambda m: "_" + m.group(1).lower(), name)


def respelt(name, functions, lemma):
    if name in BY_HAND:
        return BY_HAND[name]
    if not re.match(r"^[A-Za-z]", name) or re.search(r"[^A-Za-z0-9_'₀-₉⊕ᶠ→≡-]", name):
        return name
    if name[0].isupper():
        parts = name.split("-")
        return parts[0] + "".join(p[:1].upper() + p[1:] for p in parts[1:])
    parts = name.split("-")
    joined = 0
    if lemma:
        for n in range(len(parts) - 1, 0, -1):
            if "-".join(parts[:n]) in functions:
                joined = n
                break
    front = "_".join(humps(p) for p in parts[:joined])
    rest = "_".join(humps(p) for p in parts[joined:])
    return front + "-" + rest if joined else rest


def code_and_comment(line, mark):
    at = line.find(mark)
    while at > 0 and mark == "--" and line[at - 1] not in " \t":
        at = line.find(mark, at + 2)
    return (line, "") if at < 0 else (line[:at], line[at:])


def turn(path, names):
    old = read(path)
    mark = "--" if path.endswith(".antt") else "//"
    out = []
    for line in old.split("\n"):
        code, comment = code_and_comment(line, mark)
        out.append(TOKEN.sub(lambda m: names.get(m.group(0), m.group(0)), code) + comment)
    new = "\n".join(out)
    if new != old:
        with open(path, "w", encoding="utf-8") as f:
            f.write(new)


def main():
    words, lemmas, functions = declared()
    library = imported()
    tokens = set()
    for path in files((".antt", ".rt")):
        tokens.update(TOKEN.findall(read(path)))
    names = {}
    for n in sorted((words | lemmas) - set(BY_HAND.values())):
        to = respelt(n, functions, n in lemmas)
        if to == n:
            continue
        if n in library:
            print("left, a name of the library:", n)
        elif n not in APART and n not in BY_HAND and (to in tokens or to in library or to in names.values()):
            print("left, would fall together:", n, "->", to)
        else:
            names[n] = to
    for path in files((".antt", ".rt", ".edit")):
        turn(path, names)
    if "-v" in sys.argv:
        for n in sorted(names):
            print(n, "->", names[n])


if __name__ == "__main__":
    main()
