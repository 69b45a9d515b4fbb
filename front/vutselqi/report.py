"""What a command has found, in one form for all forms of output."""

from __future__ import annotations

from dataclasses import dataclass, field
from typing import Optional

from vutselqi.lines import Kind
from vutselqi.places import Place
from vutselqi.trouble import Trouble
from vutselqi.worlds import World

ERROR, WARNING, NOTE = "error", "warning", "note"
CODES = {
    "wider": "The new policies allow a request that the old ones don't",
    "narrower": "The old policies allow a request that the new ones don't",
    "undecided": "The budget didn't suffice, or the question is too large",
    "may-err": "A rule can err",
    "nothing-allowed": "Nothing allows any request of a kind",
    "everything-allowed": "Every request of a kind is allowed",
    "does-nothing": "A rule does nothing",
    "world": "What the rules do in a world",
    "trouble": "The question couldn't be asked",
}


@dataclass(frozen=True)
class RuleAnswer:
    """A rule that a sentence speaks of: its file, its number from 1, its `@id`, its effect and its place.

    `says` is how it stands in the world, and `words` are those that it writes.
    """

    file: str
    number: int
    identity: Optional[str]
    effect: str
    place: Optional[Place]
    says: str = ""
    words: frozenset[str] = frozenset()


@dataclass
class Finding:
    """A sentence, and all that it stands on: the world, and the lines of the program. `code` is a word of CODES."""

    code: str
    level: str
    sentence: str
    kind: Optional[Kind] = None
    details: list[str] = field(default_factory=list)
    place: Optional[Place] = None
    rules: list[RuleAnswer] = field(default_factory=list)
    world: Optional[World] = None
    lines: list[str] = field(default_factory=list)


@dataclass
class Row:
    """A kind of request, what is said of it in a word or two, and what was found there."""

    kind: Kind
    verdict: str
    findings: list[Finding] = field(default_factory=list)
    lines: list[str] = field(default_factory=list)


@dataclass
class Report:
    """What a command has found: by kinds of request, further findings, a summary, remarks, and its status."""

    command: str
    title: str
    rows: list[Row] = field(default_factory=list)
    others: list[Finding] = field(default_factory=list)
    summary: str = ""
    notes: list[str] = field(default_factory=list)
    status: int = 0
    trouble: Optional[Trouble] = None

    @property
    def findings(self) -> list[Finding]:
        """All findings, in order."""
        return [*(finding for row in self.rows for finding in row.findings), *self.others]


def of_trouble(command: str, trouble: Trouble) -> Report:
    """A report that says only what went wrong."""
    return Report(command, f"vutselqi {command}", summary=trouble.sentence, status=2, trouble=trouble)
