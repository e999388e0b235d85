#!/usr/bin/env python3
"""Counts the places of older forms in crates/*/src (docs/DESIGN-PASS.md). `tools/places.py` prints the counts, `-v` the places too."""
import collections
import glob
import os
import re
import sys

ROOT = os.path.dirname(os.path.dirname(os.path.abspath(__file__)))
FILES = sorted(glob.glob(os.path.join(ROOT, "crates/*/src/*.rt")))

# point, what, pattern of a line of code
LINES = [
    ("1", "an answer that is an own enum of Result's or Option's shape", r"\b(Checked|Answer|Way|Made)::(Good|Refused|Found|Image|Growing|Timed)\b|\bRecord::End\b"),
    ("1", "a number for a refusal", r"\bRefused\((\d+|rule)\b|\b(rule|culprit): u32\b"),
    ("1", "a number or a flag that says that there is nothing", r"\bLOST\b|\bsome: |\.some\b|count: 0, gain: 0|(ring|shown)\.count > 0|last >= l\b|long < l\b|\bNONE\b|let mut last = l;|(phase|synchronizer|arc|unordered) < image\."),
    ("1", "a number for a kind or a state", r"\bkind == |\blatch(: &?(mut )?\[u8|\[[^]]*\] [!=]= 1| = \[0u8)|\bstage\b|\b(seen|marks)(: &?(mut )?\[u8| = \[0u8|\[[^]]*\] == 1)"),
    ("3", "a loop", r"^ *while "),
    ("4", "a conversion, a comparison or printing by hand", r"\bfn (from_little|greater|lesser|wide|index|narrow|counted|word|is_digit|digit_of|write_digits|write_signed|size|say_number|say_time|check_answer|timing_answer|path_answer|text_answer|put|before|rank_of)\b"),
    ("6", "a buffer with its length or place beside it", r"\bat: usize, text: &mut|\b(depth|count): usize,|\broom: &mut \[u8"),
    ("7", "a switch on which step to run", r"\bmatch (rule|table) \{|\bRule::(Phases|Synchronizers|Arcs|Order)\b|\bTable::(Phases|Synchronizers|Arcs)\b"),
]

# point 2: names of functions that stand more than once, or beside a twin
TWINS = [
    ("Phase::read", "Synchronizer::read", "Arc::read"),
    ("Synchronizer::of", "Arc::of"),
    ("Phase::at", "Synchronizer::at", "Arc::at"),
    ("Synchronizer::whole", "Arc::whole"),
    ("time_or_mark", "hold_or_mark", "setup_or_mark"),
    ("hold_missed", "setup_missed"),
    ("hold_slack", "setup_slack"),
    ("greater", "lesser", "choose"),
    ("bring", "laden"),
    ("write_time", "write_number", "write_gain"),
    ("say_arcs", "say_results"),
]

# names that stand in two crates and have no more in common
NAMESAKES = "word field lowest write_six tell put step ask sweep time run size".split()


def code(path):
    with open(path, encoding="utf-8") as f:
        return f.read().split("\n")


def functions(path):
    """Name, type of the impl that it stands in, parameters."""
    text = "\n".join(line for line in code(path) if not line.lstrip().startswith("//"))
    owner = ""
    for m in re.finditer(r"^impl(?:<[^>]*>)? (?:\w+(?:<[^>]*>)? for )?(\w+)|^(\})$|^( *)(?:pub(?:\(crate\))? )?(?:unsafe )?(?:extern \"C\" )?(?:final )?fn (\w+)(?:<[^(]*>)?\(([^)]*)\)", text, re.M):
        if m.group(1):
            owner = m.group(1)
        elif m.group(2):
            owner = ""
        elif m.group(4):
            parts = [p for p in re.split(r",\s*(?![^\[]*\])(?![^<(]*[>)])", m.group(5).strip()) if p.strip()]
            yield m.group(4), owner if m.group(3) else "", parts


def main():
    shown = "-v" in sys.argv[1:]
    total = collections.Counter()
    for point, what, pattern in LINES:
        found = []
        for path in FILES:
            for n, line in enumerate(code(path), 1):
                if line.lstrip().startswith(("//", "ghost", "requires", "ensures")):
                    continue
                for _ in re.finditer(pattern, line):
                    found.append((path, n, line.strip()))
        total[point] += len(found)
        print(f"{point}  {len(found):4}  {what}")
        if shown:
            for path, n, line in found:
                print(f"         {os.path.relpath(path, ROOT)}:{n}: {line}")
    names = collections.defaultdict(list)
    wide = []
    free = collections.defaultdict(list)
    for path in FILES:
        for name, owner, parts in functions(path):
            names[f"{owner}::{name}" if owner else name].append(path)
            if len(parts) >= 7:
                wide.append((path, name, len(parts)))
            free[(name, owner)].append(path)
    twins = [(t, [x for x in t if names[x]]) for t in TWINS]
    twins = [(t, here) for t, here in twins if len(here) > 1]
    again = [(k, v) for k, v in free.items() if len(set(v)) > 1 and k[0] not in ("main", "new") and k[0] not in NAMESAKES]
    n = sum(len(here) for _, here in twins) + sum(len(v) for _, v in again)
    total["2"] += n
    print(f"2  {n:4}  a function that has a twin")
    if shown:
        for _, here in twins:
            print("         " + ", ".join(here))
        for (name, owner), paths in again:
            print(f"         {name}: " + ", ".join(os.path.relpath(p, ROOT) for p in paths))
    total["5"] += len(wide)
    print(f"5  {len(wide):4}  a function with seven parameters or more")
    if shown:
        for path, name, k in wide:
            print(f"         {os.path.relpath(path, ROOT)}: {name} has {k}")
    facts = collections.defaultdict(set)
    for path in FILES:
        for k, line in enumerate(code(path)):
            m = re.match(r" *requires(?: \w+)? \{(.*)\}$", line)
            if m:
                facts[(os.path.dirname(path), m.group(1).strip())].add((path, k))
    often = {f: places for f, places in facts.items() if len(places) >= 3}
    n = sum(len(p) for p in often.values())
    total["5"] += n
    print(f"5  {n:4}  a requires that stands the same in three contracts of a crate or more ({len(often)} facts)")
    if shown:
        for (where, fact), places in often.items():
            print(f"         {len(places)} times in {os.path.relpath(where, ROOT)}: {fact}")
    lines = 0
    for path in glob.glob(os.path.join(ROOT, "crates/*/proofs/**/*.antt"), recursive=True):
        lines += len(code(path)) - 1
    print(f"8  {lines:4}  lines of proofs")
    print("points: " + ", ".join(f"{p}: {total[p]}" for p in sorted(total)))


main()
