"""The lines of the proved program, read back: one type a form of line, each with the line itself."""

from __future__ import annotations

import re
from dataclasses import dataclass
from typing import Optional

from vutselqi.escapes import unescaped

PATH = r"[A-Za-z_]\w*(?:::[A-Za-z_]\w*)*"
UID = rf'{PATH}::"(?:[^"\\]|\\.)*"'
KIND = (
    rf"(?P<kind>env (?P<principal>{PATH}) (?P<action>{UID}) (?P<resource>{PATH})"
    rf"(?P<link>(?: link)?(?: \?(?:principal|resource) (?:{UID}|{PATH}))*))"
)
WORLD = r"(?P<world>\{.*\})"
VERDICT = re.compile(KIND + r": (?:holds|over limit|unknown after (?P<units>\d+) units|counterexample " + WORLD + ")")
FATES = {
    "dropped": re.compile(r"policy(?P<number>\d+) dropped"),
    "kept": re.compile(rf"policy(?P<number>\d+) kept {KIND} {WORLD}"),
    "unproved": re.compile(rf"policy(?P<number>\d+) unproved {KIND} after (?P<units>\d+) units"),
    "over limit": re.compile(rf"policy(?P<number>\d+) over limit {KIND}"),
}
STANDING = re.compile(r"policy(?P<number>\d+) (?P<says>satisfied|not satisfied|errs (?P<error>\w+))")
HOLDS, COUNTEREXAMPLE, UNKNOWN, OVER_LIMIT = "holds", "counterexample", "unknown", "over limit"


@dataclass(frozen=True)
class Kind:
    """A kind of request: the principal's type, the action, the resource's type, and a template's link, as printed."""

    principal: str
    action: str
    resource: str
    link: str = ""

    @property
    def text(self) -> str:
        """The kind as the program prints it behind `env`."""
        return f"{self.principal} {self.action} {self.resource}{self.link}"

    @property
    def action_id(self) -> str:
        """The action's id."""
        return unescaped(self.action[self.action.index('::"') + 3 : -1])


@dataclass(frozen=True)
class Verdict:
    """What is said of a kind of request: `says` is one of `holds`, `counterexample`, `unknown` and `over limit`."""

    kind: Kind
    says: str
    world: str
    units: int
    line: str

    @property
    def is_open(self) -> bool:
        """Whether the question is left open."""
        return self.says in (UNKNOWN, OVER_LIMIT)


@dataclass(frozen=True)
class Standing:
    """How a policy, by its number from 0, stands in a world: `satisfied`, `not satisfied`, or `errs` with an error."""

    number: int
    says: str
    error: str
    line: str


@dataclass(frozen=True)
class Replay:
    """What keeps a world from being well-formed, '' where nothing does, how each policy stands, and the decision."""

    fault: str
    standings: tuple[Standing, ...]
    decision: str
    lines: tuple[str, ...]


@dataclass(frozen=True)
class Fate:
    """What is said of a policy, by its number from 0, when a set is reduced: `says` is a word of FATES."""

    number: int
    says: str
    kind: Optional[Kind]
    world: str
    line: str


class Unread(ValueError):
    """A line of none of the forms that are known here."""


def kind_of(found: re.Match[str]) -> Kind:
    """The kind of request of a line that was matched."""
    return Kind(found["principal"], found["action"], found["resource"], found["link"])


def read_verdict(line: str) -> Verdict:
    """Reads a line of `analyse`."""
    found = VERDICT.fullmatch(line)
    if not found:
        raise Unread(line)
    units, world = int(found["units"] or 0), found["world"] or ""
    says = COUNTEREXAMPLE if world else UNKNOWN if found["units"] else line[found.end("kind") + 2 :]
    return Verdict(kind_of(found), says, world, units, line)


def read_replay(lines: list[str]) -> Replay:
    """Reads the lines of `replay`."""
    if len(lines) < 2 or not lines[0].startswith("world ") or not lines[-1].startswith("decision "):
        raise Unread(lines[0] if lines else "")
    first = lines[0]
    fault = "" if first == "world well-formed" else first.partition(": ")[2]
    standings = tuple(read_standing(line) for line in lines[1:-1])
    return Replay(fault, standings, lines[-1].partition(" ")[2], tuple(lines))


def read_standing(line: str) -> Standing:
    """Reads a line on a policy in a replayed world."""
    found = STANDING.fullmatch(line)
    if not found:
        raise Unread(line)
    says = "errs" if found["error"] else found["says"]
    return Standing(int(found["number"]), says, found["error"] or "", line)


def read_fate(line: str) -> Fate:
    """Reads a line of `reduce`."""
    for says, form in FATES.items():
        found = form.fullmatch(line)
        if found:
            groups = found.groupdict()
            kind = kind_of(found) if groups.get("kind") else None
            return Fate(int(found["number"]), says, kind, groups.get("world") or "", line)
    raise Unread(line)
