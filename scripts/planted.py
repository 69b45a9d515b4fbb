#!/usr/bin/env python3
"""The planted bugs: edits planted/CRATE/NAME.edit of bodies, each of which the prover has to refuse (docs/PLANTED.md).

Without an option, says which edits don't apply to the sources as they stand, and whether docs/PLANTED.md lists just these files.
With --write, writes that list. With --try, tries the edits of the crates named, or else all, in a copy of the checkout in a temporary
folder (some gigabytes, below TMPDIR), where they stand as the must-fail edits of their crates. It tells each edit that was let
through, doesn't apply, can't be read, wasn't tried, or was refused only since a proof names what it took away, and then the counts.
The status is 1 where there is any of it.

usage: scripts/planted.py [--write | --try [CRATE ..]]
"""
import collections
import os
import pathlib
import re
import shutil
import subprocess
import sys
import tempfile

TOP = pathlib.Path(__file__).resolve().parent.parent
PAGE = TOP / "docs/PLANTED.md"
HEADING = "## The edits\n"
NAMED = re.compile(r"`((?:sc|th)_\w+/\w+)`")
SAID = re.compile(r"rt: must-fail (\S+)/(\S+\.edit): (.*)")
# What rt says of an edit, by how it begins, and what that means; the first that fits counts.
MEANINGS = (
    ("refused, as it must be (only because a proof file names", "refused only since a proof names what it took away"),
    ("refused, as it must be", "refused"),
    ("NOT REFUSED", "let through"),
    ("BAD EDIT", "can't be read"),
)


def planted():
    """The edits of each crate that has some, by names, both in order."""
    found = collections.defaultdict(list)
    for edit in sorted(TOP.glob("planted/*/*.edit")):
        found[edit.parent.name].append(edit)
    return found


def fault(edit):
    """What keeps an edit from being one of the sources as they stand, or None."""
    text, old, source = None, None, None
    for line in edit.read_text().splitlines():
        word, _, rest = line.partition(": ")
        if word == "file" and text is None:
            source = TOP / "crates" / edit.parent.name / rest
            if not rest.startswith("src/") or not source.is_file():
                return f"there is no file {rest}"
            text = was = source.read_text()
        elif word == "old" and text is not None:
            old = rest
            if text.count(old) != 1:
                return f"an old text stands {text.count(old)} times in {source.relative_to(TOP)}"
        elif word.rstrip(":") == "new" and old:
            text, old = text.replace(old, rest), None
        else:
            return f"a line of another form: {line}"
    return None if text is not None and text != was and old is None else "it changes nothing"


def rows():
    """The list of all edits, a row for each crate."""
    lines = ["| Crate | Edits |", "|---|---|"]
    lines += [f"| `{name}` | {', '.join(f'`{it.stem}`' for it in edits)} |" for name, edits in planted().items()]
    return "\n".join(lines) + "\n"


def listed():
    """Tells what is wrong with the edits and the list of them."""
    edits = [it for some in planted().values() for it in some]
    told = [f"{it.relative_to(TOP)}: {fault(it)}" for it in edits if fault(it)]
    front, _, rest = PAGE.read_text().partition(HEADING)
    told += [f"docs/PLANTED.md: there is no edit {it}" for it in NAMED.findall(front) if not (TOP / f"planted/{it}.edit").is_file()]
    if rest.strip() != rows().strip():
        told.append("docs/PLANTED.md: the list isn't that of the files: scripts/planted.py --write writes it")
    print("\n".join(told) or f"{len(edits)} edits of {len(planted())} crates, each applies and is listed")
    return 1 if told else 0


def write():
    """Writes the list into the page."""
    front = PAGE.read_text().partition(HEADING)[0]
    PAGE.write_text(f"{front}{HEADING}\n{rows()}")
    return 0


def copied(room):
    """Lays a copy of the sources into a folder, without what was made of them and without the gate's own edits."""
    for name in ("crates.txt", "HANDLES"):
        shutil.copy2(TOP / name, room)
    shutil.copytree(TOP / "crates", f"{room}/crates", ignore=shutil.ignore_patterns("out", "must-fail"))


def run(words, folder):
    """What a command in a folder says, and its status."""
    ran = subprocess.run(words, cwd=folder, stdout=subprocess.PIPE, stderr=subprocess.STDOUT, text=True, errors="replace")
    return ran.returncode, ran.stdout


def meaning(said):
    """What is known of an edit by what rt says of it."""
    return next((known for begin, known in MEANINGS if said.startswith(begin)), "not tried")


def crate_tried(name, edits, room):
    """What became of each edit of a crate, by names, and what was said of it."""
    crate = f"{room}/crates/{name}"
    os.mkdir(f"{crate}/must-fail")
    for edit in edits:
        shutil.copy2(edit, f"{crate}/must-fail")
    status, text = run(["rt", "check"], crate)
    if status:
        return {it.name: ("not tried", f"the crate isn't proved as it stands: {' '.join(text.split())[-300:]}") for it in edits}
    _, text = run(["rt", "must-fail", name], room)
    said = {edit: words for crate, edit, words in SAID.findall(text) if crate == name}
    return {it.name: (meaning(said.get(it.name, "")), said.get(it.name, "rt said nothing of it")) for it in edits}


def tried(names):
    """Tries the edits of these crates, and tells what became of them."""
    every = planted()
    counts = collections.Counter()
    with tempfile.TemporaryDirectory(prefix="planted-") as room:
        copied(room)
        for name in names or every:
            found = crate_tried(name, every[name], room)
            counts.update(known for known, _ in found.values())
            for edit, (known, said) in found.items():
                if known != "refused":
                    print(f"planted/{name}/{edit}: {known} ({said})", flush=True)
    print(f"{counts.total()} edits: {', '.join(f'{count} {known}' for known, count in counts.most_common())}")
    return 0 if set(counts) == {"refused"} else 1


def main(words):
    if not words:
        return listed()
    if words == ["--write"]:
        return write()
    if words[0] == "--try" and all(it in planted() for it in words[1:]):
        return tried(words[1:])
    print(__doc__.rpartition("\n\n")[2].strip() + f"\ncrates: {' '.join(planted())}", file=sys.stderr)
    return 2


if __name__ == "__main__":
    sys.exit(main(sys.argv[1:]))
