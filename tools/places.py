#!/usr/bin/env python3
"""Lists the places of each point of docs/DESIGN-PASS.md in crates/*/src, and counts the answers and lemmas of proofs/.

    python3 tools/places.py [-v] [TOP]

A pattern finds candidates; the page says what became of each.
"""
import collections
import glob
import os
import re
import sys

verbose = "-v" in sys.argv
tops = [a for a in sys.argv[1:] if a != "-v"]
os.chdir(tops[0] if tops else ".")

# By point: what is looked for, and the pattern of its line.
PATTERNS = [
    ("1 own enums", r"^(pub |pub\(crate\) )?enum "),
    ("1 answers of a number for nothing", r"^pub fn \w+(<.*>)?\(\) -> u8"),
    ("1 numbers of kinds and refusals", r"fn (number|rank)\("),
    ("1 a number that stands for none", r"\bfirst: 0,|, or 0\.$|0 and 0 where|[^=]=> None,|, expected: .*, 0, 0\)"),
    ("3 while", r"^\s*while "),
    ("3 for over a range of numbers", r"^\s*for [a-z_]+ in .*\.\."),
    ("3 for with enumerate", r"^\s*for \(.*\) in .*\.enumerate\(\)"),
    ("4 casts", r" as (u8|u16|u32|u64|usize|i64|i128)\b"),
    ("4 conversions and equality by hand", r"fn (is_same|of|bus|branch|kind_of|number|name_fault|new|get)\("),
    ("4 printing by hand", r"fn (refused|answer)\("),
    ("6 a length beside", r"^\s*(pub |pub\(crate\) )?(count|len|n|nb|nl): (u8|usize),"),
    ("6 parallel arrays", r"^\s*(pub |pub\(crate\) )?places: "),
    ("7 types whose one method is called", r"^impl.* (Limit|Column) for "),
]

# Twins, found by reading: each is a group of functions or types, by the pattern of their lines.
TWINS = r"(struct (PowerColumn|AngleColumn|AnglePriceColumn|Ratings|Differences|Outflows|Charges|BusWorths|PriceSizes|BusPrices|BranchPrices|Rated|Weights|Residues)\b|fn (is_rising|is_never_falling|rises|keeps|first_out_of_range|first_crossed|check_machines|check_branches|fill_buses|fill_places|fill_branches|branch_name|rounded_up|rounded_down|cost_up|margin_down|rows_used|first_rows|used|read_demand_change|read_mark_change|is_name|is_byte|standing|around|judged|floored|floored_without|refused|answer|allows)\b|is_byte\(p / 65536\)|const (NO_STEPPED|NO_CURVED|POWER|PRICE)\b)"


def sources():
    return sorted(glob.glob("crates/*/src/**/*.rt", recursive=True))


def show(what, found):
    print(f"{len(found):5} {what}")
    if verbose:
        for place in found:
            print("        " + place)


def lines_of(pattern):
    return [
        f"{path}:{n}: {line.strip()[:90]}"
        for path in sources()
        for n, line in enumerate(open(path), 1)
        if re.search(pattern, line)
    ]


def heads(text):
    """Each function: its name, its parameters, and what stands before its body."""
    for found in re.finditer(r"fn (\w+)(?:<[^>(]*>)?\(([^)]*)\)", text):
        rest = text[found.end() :]
        end = re.search(r"^ *\{$|^ *\{\}$|;\n", rest, re.M)
        yield found.group(1), found.group(2), rest[: end.start() if end else 0]


def facts():
    """Facts that the requires of three functions or more have."""
    where = collections.defaultdict(set)
    for path in sources():
        for name, _, head in heads(open(path).read()):
            for clause in re.findall(r"requires(?: \w+)? \{ (.*) \}$", head, re.M):
                for fact in clause.split(" × "):
                    where[re.sub(r"[()]", "", fact)].add(f"{path}:{name}")
    return [f"{fact}: {len(at)} functions" for fact, at in sorted(where.items()) if len(at) >= 3]


def travellers():
    """The longest runs of three parameters or more that two functions or more have."""
    where = collections.defaultdict(set)
    for path in sources():
        for name, params, _ in heads(open(path).read()):
            ps = [re.sub(r"'\w+ |\bmut ", "", p.strip()) for p in params.split(",") if p.strip() and "self" not in p]
            for i in range(len(ps)):
                for j in range(i + 3, len(ps) + 1):
                    where[tuple(ps[i:j])].add(f"{path}:{name}")
    runs = {run: at for run, at in where.items() if len(at) >= 2}
    longest = [
        run
        for run in runs
        if not any(run != other and runs[run] <= runs[other] and ", ".join(run) in ", ".join(other) for other in runs)
    ]
    return [f"{', '.join(run)}: {len(runs[run])} functions" for run in sorted(longest)]


for what, pattern in PATTERNS[:4]:
    show(what, lines_of(pattern))
show("2 twins", lines_of(TWINS))
for what, pattern in PATTERNS[4:10]:
    show(what, lines_of(pattern))
show("5 facts in three contracts", facts())
show("5 parameters that travel together", travellers())
for what, pattern in PATTERNS[10:]:
    show(what, lines_of(pattern))
answers = lemmas = 0
for path in glob.glob("crates/*/proofs/**/*.antt", recursive=True):
    text = open(path).read()
    if path.endswith("/Answers.antt"):
        answers += len(re.findall(r"^(?:pub )?\S+ : goal\.", text, re.M))
    elif not path.endswith("/Invariants.antt"):
        lemmas += len(re.findall(r"^(?:pub )?\S+ : ", text, re.M))
print(f"{answers:5} 8 answers in proofs/\n{lemmas:5} 8 lemmas in files of their own")
