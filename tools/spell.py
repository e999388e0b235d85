#!/usr/bin/env python3
"""Respells the definitions and lemmas of this repository, once, right after the toolchain's port.py ran over it.

usage: python3 tools/spell.py            at the top of the repository: rewrites the files in place, and says what falls together
       python3 tools/spell.py --names    prints each old name with its new one, and changes nothing

The rules are those of the toolchain's guides: words are in snake case, a dash joins two names of definitions, a plain word hangs on by `_`,
types and modules begin with a capital. Exported names, functions of src/, strings, inputs and outputs keep their names.
Names that Rattle makes (the goals and steps in proofs/F/) are not touched.
"""

import os
import re
import sys

# a name in antt: all but white space, brackets, marks of the grammar and text
NAME = re.compile(r"[^\s(){}\[\];,.\"`]+")
HEAD = re.compile(r"^\s*(?:let\s+)?(?:(?:pattern|unfoldable|abbrev|pub|axiom)\s+)*([^\s:(){}\[\];,.]+(?:\s+[^\s:(){}\[\];,.]+)*)(?:\s+[({][^:]*:.*)?\s*:\s")
RULESET = re.compile(r"^\s*(?:pub\s+)?ruleset\s+(\S+)")
LET = re.compile(r"\blet\s+([^\s:(){}\[\];,.=]+)\s*[:=]")
# names that join two definitions keep their dash
JOINED = {"lower-le", "lower-lt", "lower-max", "lower-min", "lower-minus", "le-lower", "lt-lower", "length-six", "length-results", "delay-le", "weight-le", "<ℤ-≤ℤ"}
# where two names would fall together: a lemma named as its definition ends in _lem; a number of a synchronizer in the result buffer ends in _at
APART = {
    "bad-counts": "bad_counts_lem",
    "bad-cycle": "bad_cycle_lem",
    "behind-words": "behind_words_lem",
    "stored-all": "stored_all_lem",
    "most-phases": "most_phases_lem",
    "fields-of": "fields_of_lem",
    # lemmas that port.py had turned already
    "in_place": "in_place_lem",
    "most_bytes": "most_bytes_lem",
    "no_number": "no_number_lem",
    "earlyDeparture": "early_departure_at",
    "lateDeparture": "late_departure_at",
    "earlyArrival": "early_arrival_at",
    "lateArrival": "late_arrival_at",
}
# these stand in crates/circuit too, and are named apart in the module of the result buffer alone
IN_BUFFERS = {"holdSlack": "hold_slack_at", "setupSlack": "setup_slack_at"}
# a part that is an operator keeps the dash before it
OPERATORS = {"≤ℤ", "<ℤ"}
WORDS = {"mod", "use", "record", "data", "where", "field", "module", "open", "as", "unfolding"}


def files(root, *ends):
    for folder, dirs, names in os.walk(os.path.join(root, "crates")):
        dirs[:] = sorted(d for d in dirs if d != "out")
        for n in sorted(names):
            if n.endswith(ends):
                yield os.path.join(folder, n)


def text(path):
    with open(path, encoding="utf-8") as f:
        return f.read()


def ours(path):
    """A file of specs/ or of lemmas, and not one of a function's folder."""
    folder = os.path.dirname(path)
    return "/specs" in path or os.path.basename(folder) == "proofs"


def declared(path):
    """The names that a file declares."""
    for line in text(path).split("\n"):
        if line.lstrip().startswith("--"):
            continue
        m = HEAD.match(line)
        names = m.group(1).split() if m else []
        names += RULESET.findall(line) + LET.findall(line)
        if not any(w in WORDS for w in names):
            yield from names


def snake(word):
    word = word.replace("′", "'")
    if not re.search(r"[a-z]", word):
        return word
    if word[0].isupper():
        return word
    word = re.sub(r"([a-z0-9])([A-Z])", lambda m: m.group(1) + "_" + m.group(2).lower(), word)
    return re.sub(r"([a-z0-9])([ℤℕ])", r"\1_\2", word)


def new_name(name):
    if name in JOINED:
        return name
    if name in APART:
        return APART[name]
    parts = name.split("-")
    if "" in parts or len(parts) == 1:
        return snake(name)
    new = snake(parts[0])
    for a, b in zip(parts, parts[1:]):
        # a type at the head of a name, and an operator, are joined by a dash
        dash = b in OPERATORS or (a is parts[0] and re.match(r"[A-Z][a-z]", a))
        new += ("-" if dash else "_") + snake(b)
    return new


def table(root):
    old = set()
    for p in files(root, ".antt"):
        if ours(p):
            old |= set(declared(p))
    turned = {n: new_name(n) for n in old if re.match(r"[a-zA-Zℤ≤<]", n)}
    return {n: m for n, m in turned.items() if m != n}


IMPORTED = re.compile(r"^\s*(?:ghost |pub )?use [^{\n]*\{([^}]*)\}", re.M)


def turn(path, names):
    """A file of definitions or lemmas: each name. In a function's folder Rattle made the other names: what is imported, and fields of our own."""
    t = text(path)
    imported = set()
    for m in IMPORTED.finditer(t):
        for part in m.group(1).split(","):
            imported.update(part.split())

    def one(m):
        w = m.group(0)
        if w not in names:
            return w
        if path.endswith("demands/specs/Buffers.antt") and w in IN_BUFFERS and t[: m.start()][-6:] != "times.":
            return IN_BUFFERS[w]
        if "-" not in w and names[w].endswith("_lem") and t[m.start() - 1] == ".":
            # a part of a path
            return w
        if ours(path):
            return names[w]
        if m.start() > 0 and t[m.start() - 1] == ".":
            return names[w] if w in FIELDS else w
        return names[w] if w in imported else w

    return NAME.sub(one, t)


def tight(line):
    """The spelling of a line of an edit: `f .x` is `f.x`, `_+_` is `◌+◌`, a prime is an apostrophe."""
    line = re.sub(r"(?<=[\w)'′]) \.(?=[a-z])", ".", line)
    line = re.sub(r"(?<=[{, ])_([^\s\w,{}]+[ℤℕ]?)_(?=[,}])", r"◌\1◌", line)
    return line.replace("′", "'").replace("ltZ", "lt_z").replace("leZ", "le_z")


FIELDS = set()


def fields(root):
    """Fields of records of our own: they stand after a dot."""
    for p in files(root, ".antt"):
        inside = False
        for line in text(p).split("\n"):
            if re.match(r"^(pub )?record\b", line):
                inside = True
            elif line and not line[0].isspace():
                inside = False
            elif inside:
                m = HEAD.match(line)
                if m:
                    FIELDS.update(m.group(1).split())


def main():
    root = os.getcwd()
    names = table(root)
    fields(root)
    if "--names" in sys.argv:
        for n in sorted(names):
            print(n, names[n])
        return
    by_new = {}
    for n, m in names.items():
        by_new.setdefault(m, []).append(n)
    for m, olds in sorted(by_new.items()):
        if len(olds) > 1:
            print("fall together:", m, "from", " ".join(sorted(olds)))
    for p in files(root, ".antt"):
        t = text(p)
        before = set(NAME.findall(t))
        for n in sorted(before & set(names)):
            if names[n] in before:
                print(f"look: {os.path.relpath(p, root)}: {n} becomes {names[n]}, which stands there already")
        new = turn(p, names).replace("specs.inside", "specs.Inside")
        if re.search(r"/specs/Lib\.antt$", p):
            new = new.replace("pub mod inside", "pub mod Inside")
        if new != t:
            with open(p, "w", encoding="utf-8") as f:
                f.write(new)
    # in code only clauses and imports have such names, and those in camel case
    for p in files(root, ".rt"):
        t = text(p)
        new = re.sub(r"[\wℤℕ'-]+", lambda m: names.get(m.group(0), m.group(0)) if ("-" in m.group(0) or re.search(r"[a-z][A-Zℤ]", m.group(0))) else m.group(0), t)
        new = new.replace("specs.inside", "specs.Inside")
        if new != t:
            with open(p, "w", encoding="utf-8") as f:
                f.write(new)
    # an edit: its names, and the spelling that port.py gives other files
    for p in files(root, ".edit"):
        out, at = [], ""
        for line in text(p).split("\n"):
            m = re.match(r"(old|new): (.*)$", line)
            if line.startswith("file: "):
                line = line.replace("specs/inside/", "specs/Inside/")
                at = line[6:]
            elif m and at.startswith("src/"):
                line = m.group(1) + ": " + re.sub(r"\w+", lambda w: names.get(w.group(0), w.group(0)) if re.search(r"[a-z][A-Z]", w.group(0)) else w.group(0), m.group(2))
            elif m:
                apart = IN_BUFFERS if at == "specs/Buffers.antt" else {}
                line = m.group(1) + ": " + NAME.sub(lambda w: apart.get(w.group(0)) or names.get(w.group(0), w.group(0)), tight(m.group(2)))
            out.append(line)
        new = "\n".join(out)
        if new != text(p):
            with open(p, "w", encoding="utf-8") as f:
                f.write(new)
    # the folder that only proofs lean on is a module, and begins with a capital
    for c in sorted(os.listdir(os.path.join(root, "crates"))):
        for a, b in (("inside", "Inside"), ("inside.antt", "Inside.antt")):
            old = os.path.join(root, "crates", c, "specs", a)
            if os.path.exists(old):
                os.rename(old, os.path.join(root, "crates", c, "specs", b))


if __name__ == "__main__":
    main()
