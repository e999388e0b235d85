#!/usr/bin/env python3
"""Tries must-fail edits of a crate in seconds, and shows why each is refused: for choosing edits. The verdict is `rt ci`'s.

`python3 tests/try_edit.py CRATE` tries all edits of the crate, `python3 tests/try_edit.py CRATE LABEL...` the named ones.

A whole check of a crate for each edit takes minutes. Here the edit is put into a copy outside the checkout, and `rt check` checks there
only what the edit changed. An edit is worth something where a fact no longer holds: read the errors. Where the first one says
that a name cannot be found, or is a bound, the edit shows nothing. The exit status is 1 where an edit was not refused.
"""
import pathlib
import shutil
import subprocess
import sys
import tempfile
import time

ROOT = pathlib.Path(__file__).resolve().parent.parent
COPY = pathlib.Path(tempfile.mkdtemp(prefix="try-edit-"))
PARTS = ("src", "specs", "proofs")


def lay(crate):
    """The repository in the copy at first, and the crate anew each time. What is built there stays."""
    if not (COPY / "crates").is_dir():
        shutil.copytree(ROOT / "crates", COPY / "crates")
        shutil.copy(ROOT / "crates.txt", COPY)
    for part in PARTS:
        shutil.rmtree(COPY / "crates" / crate / part, ignore_errors=True)
        if (ROOT / "crates" / crate / part).is_dir():
            shutil.copytree(ROOT / "crates" / crate / part, COPY / "crates" / crate / part)


def apply(crate, edit):
    """Puts the edit's replacements into the copy, as `rt must-fail` does: each old text stands there once."""
    file, old = None, ""
    for line in edit.read_text().splitlines():
        if line.startswith("file: "):
            file = COPY / "crates" / crate / line[len("file: "):]
        elif line.startswith("old: "):
            old = line[len("old: "):]
        elif line.startswith("new:"):
            text = file.read_text()
            if text.count(old) != 1:
                sys.exit("%s: %r stands %d times in %s" % (edit.name, old, text.count(old), file.name))
            file.write_text(text.replace(old, line[len("new:"):].removeprefix(" ")))


def check(crate):
    """Whether the crate is proved, and what was printed."""
    ran = subprocess.run(["rt", "check"], cwd=COPY / "crates" / crate, capture_output=True, text=True)
    return ran.returncode == 0, ran.stdout + ran.stderr


def main():
    if len(sys.argv) < 2:
        sys.exit(__doc__)
    crate = sys.argv[1]
    folder = ROOT / "crates" / crate / "must-fail"
    labels = sys.argv[2:] or sorted(edit.stem for edit in folder.glob("*.edit"))
    lay(crate)
    proved, said = check(crate)
    if not proved:
        sys.exit("%s\nthe crate is not proved as it stands" % said[-2000:])
    survived = 0
    for label in labels:
        since = time.time()
        apply(crate, folder / (label + ".edit"))
        proved, said = check(crate)
        lay(crate)
        survived += proved
        print("%s: %s (%.0f s)" % (label, "NOT REFUSED" if proved else "refused", time.time() - since))
        errors = [line for line in said.splitlines() if ": error" in line or line.startswith("note: proofs")]
        for line in errors[:3]:
            print("    " + line[:400])
        sys.stdout.flush()
    sys.exit(1 if survived else 0)


if __name__ == "__main__":
    try:
        main()
    finally:
        shutil.rmtree(COPY, ignore_errors=True)
