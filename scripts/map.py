#!/usr/bin/env python3
"""Says whether each crate of crates.txt has its row in docs/MAP.md and in docs/PROMISES.md, and each row its crate.

A row is a line of a table that begins with the names of its crates, each between backticks. In PROMISES.md the rows below
'Crate by crate' count; crates of tests alone, whose names end in `_tests`, have one row for all of them there. Prints what is
missing, what has no crate, and what comes twice; the status is 1 where there is any of it.

usage: scripts/map.py
"""
import collections
import pathlib
import re
import sys

TOP = pathlib.Path(__file__).resolve().parent.parent
NAME = re.compile(r"`([a-z][a-z0-9_]*)`")


def crates():
    """The names of the crates, as crates.txt lists them."""
    lines = (line.split("#")[0] for line in (TOP / "crates.txt").read_text().splitlines())
    return [line.split(":")[0].split()[0] for line in lines if ":" in line]


def rows(page, heading=None):
    """The names in the first cell of each row, below a heading if one is given."""
    text = (TOP / page).read_text()
    if heading:
        text = text.split(f"\n{heading}\n", 1)[1]
    cells = [line.split("|")[1] for line in text.splitlines() if line.startswith("| `")]
    return [name for cell in cells for name in NAME.findall(cell)]


def faults(page, wanted, found):
    """What is wrong with the rows of a page, a line each."""
    counts = collections.Counter(found)
    yield from (f"{page}: {name} has no row" for name in wanted if not counts[name])
    yield from (f"{page}: {name} is no crate" for name in counts if name not in wanted)
    yield from (f"{page}: {name} has {count} rows" for name, count in counts.items() if count > 1)


def main():
    names = crates()
    promising = [name for name in names if not name.endswith("_tests")]
    found = [
        *faults("docs/MAP.md", names, rows("docs/MAP.md")),
        *faults("docs/PROMISES.md", promising, rows("docs/PROMISES.md", "## Crate by crate")),
    ]
    print("\n".join(found) or f"{len(names)} crates, each with its rows")
    return 1 if found else 0


if __name__ == "__main__":
    sys.exit(main())
