#!/usr/bin/env python3
"""What a reader must believe leans on nothing else.

`python3 tests/believed.py` ends with status 1 where a file of crates/*/specs names a module of specs/Inside or of proofs/, or where the
table "What to read, in order" of docs/ARCHITECTURE.md lists other files than there are. Otherwise it prints how many there are.
"""
import re
import sys

from stored import ROOT

# They show the definitions at work: no promise names them.
SHOWN = {"circuit/Changes"} | {"known/" + name for name in ("Answers", "Circuits", "Holds", "Layout", "Written")}


def files():
    """The specs by crate and name, without the lists of modules."""
    for path in sorted(ROOT.glob("crates/*/specs/*.antt")):
        if path.stem not in ("Lib", "Inside"):
            yield path.parts[-3] + "/" + path.stem, path


def listed():
    """The files that docs/ARCHITECTURE.md lists."""
    text = (ROOT / "docs" / "ARCHITECTURE.md").read_text()
    table = text.split("## What to read, in order")[1].split("\n## ")[0]
    for row in re.findall(r"^\| ([^|]*)/specs: ([^|]*) \|", table, flags=re.M):
        for part in re.split(r"; (?=\w+/specs: )", row[0] + "/specs: " + row[1]):
            crate, names = part.split("/specs: ")
            for name in re.split(r"[,;] ", names):
                yield crate + "/" + name.strip()


def main():
    faults = []
    for name, path in files():
        for line in path.read_text().splitlines():
            if re.match(r"(pub )?use Rattle\.\w+\.(specs\.Inside|proofs)\b", line):
                faults.append("%s leans on what is inside: %s" % (path.relative_to(ROOT), line))
    there = {name for name, _ in files()} - SHOWN
    said = list(listed())
    faults += ["docs/ARCHITECTURE.md does not list " + name for name in sorted(there - set(said))]
    faults += ["docs/ARCHITECTURE.md lists %s, which is not there" % name for name in sorted(set(said) - there)]
    for fault in faults:
        print(fault)
    lines = sum(len(path.read_text().splitlines()) for name, path in files() if name in there)
    print("%d files of specs are to be believed, %d lines" % (len(there), lines))
    sys.exit(1 if faults else 0)


main()
