#!/usr/bin/env python3
"""Counts lines for each crate of crates.txt, and prints the table that docs/ARCHITECTURE.md shows.

    python3 tools/lines.py [--write]      --write puts it there

A line counts if it is not blank. Code is src/ with its contracts, that of `by_example` tests; specs and proofs are what these folders hold; of edits, which
are the files of must-fail/, the files are counted.
"""
import os
import re
import sys

ROOT = os.path.join(os.path.dirname(os.path.abspath(__file__)), "..")
COLUMNS = ("code", "tests", "specs", "proofs", "edits")
# the crate that holds tests alone
TESTS = "by_example"


def crates():
    """The crates of crates.txt, lowest first."""
    with open(os.path.join(ROOT, "crates.txt"), encoding="utf-8") as file:
        lines = [line.split("#")[0].strip() for line in file]
    return [line.split(":")[0] for line in lines if line]


def files(folder, suffix):
    """All files below a folder that end so."""
    for directory, _, names in os.walk(folder):
        for name in names:
            if name.endswith(suffix):
                yield os.path.join(directory, name)


def lines(path):
    with open(path, encoding="utf-8") as file:
        return sum(1 for line in file if line.strip())


def count(crate):
    base = os.path.join(ROOT, "crates", crate)
    sources = list(files(os.path.join(base, "src"), ".rt"))
    tests = sources if crate == TESTS else []
    return {
        "code": sum(lines(path) for path in sources if path not in tests),
        "tests": sum(lines(path) for path in tests),
        "specs": sum(lines(path) for path in files(os.path.join(base, "specs"), ".antt")),
        "proofs": sum(lines(path) for path in files(os.path.join(base, "proofs"), ".antt")),
        "edits": sum(1 for _ in files(os.path.join(base, "must-fail"), ".edit")),
    }


def row(name, counted):
    return f"| {name} | " + " | ".join(f"{counted[column]:,}" for column in COLUMNS) + " |"


def table():
    counts = {crate: count(crate) for crate in crates()}
    total = {column: sum(counted[column] for counted in counts.values()) for column in COLUMNS}
    head = ["| crate | " + " | ".join(COLUMNS) + " |", "|---" * (len(COLUMNS) + 1) + "|"]
    return head + [row(f"`{crate}`", counted) for crate, counted in counts.items()] + [row("all", total)]


def write(lines):
    """Puts the table in the place of the one in docs/ARCHITECTURE.md."""
    path = os.path.join(ROOT, "docs", "ARCHITECTURE.md")
    with open(path, encoding="utf-8") as file:
        text = file.read()
    old = re.search(r"\| crate \| code \|.*?\n\| all \|[^\n]*\n", text, re.S)
    if old is None:
        sys.exit(f"{path}: no table of lines")
    with open(path, "w", encoding="utf-8") as file:
        file.write(text[: old.start()] + "\n".join(lines) + "\n" + text[old.end() :])


def main():
    if sys.argv[1:] not in ([], ["--write"]):
        sys.exit("usage: lines.py [--write]")
    lines = table()
    print("\n".join(lines))
    if sys.argv[1:] == ["--write"]:
        write(lines)


main()
