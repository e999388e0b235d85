"""Files that a script makes and the repository keeps: written, or held against what the script makes now."""
import pathlib
import sys

ROOT = pathlib.Path(__file__).resolve().parent.parent


def store(wanted, made):
    """Writes the files and prints what was made. With `--check` it only compares, and ends with status 1 where one differs."""
    script = pathlib.Path(sys.argv[0]).name
    if sys.argv[1:] == ["--check"]:
        stale = [path for path, text in wanted.items() if not path.exists() or path.read_bytes() != text]
        for path in stale:
            print("%s differs from what tests/%s makes" % (path.relative_to(ROOT), script))
        sys.exit(1 if stale else 0)
    if sys.argv[1:]:
        sys.exit("usage: %s [--check]" % script)
    for path, text in wanted.items():
        path.write_bytes(text)
    print(made)
