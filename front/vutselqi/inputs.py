"""Files that the user gives: each is read once and kept in a folder, so that all questions are about the same bytes."""

from __future__ import annotations

import os
import re
import tempfile
from dataclasses import dataclass
from functools import cached_property
from pathlib import Path

from vutselqi.escapes import plain
from vutselqi.rules import Rule, rules_of

LINE = re.compile(rb'\A\s*(?:env|policy\d+ kept env) [^\n]*? (\{"entities".*\})\s*\Z', re.S)


@dataclass(frozen=True)
class Input:
    """A file by the name that the user gave, where it is kept, what it holds, and why it couldn't be read, if so.

    `translator` is the command that wrote what it holds out of another notation.
    """

    shown: str
    path: Path
    content: bytes = b""
    fault: str = ""
    translator: str = ""

    @property
    def name(self) -> str:
        """The user's name for the file, on one line."""
        return plain(self.shown)

    @property
    def source(self) -> str:
        """Where places in the text are: in the user's file, or in its translation."""
        return f"{self.name} (as {self.translator} gives it)" if self.translator else self.name

    @cached_property
    def text(self) -> str:
        """What the file holds, as text."""
        return self.content.decode("utf-8", "replace")

    @cached_property
    def rules(self) -> list[Rule]:
        """The rules of a file of policies, in order."""
        return rules_of(self.text)

    @cached_property
    def words(self) -> frozenset[str]:
        """The names and texts that a file of policies writes."""
        return frozenset().union(*(rule.words for rule in self.rules))


class Workspace:
    """A folder that goes when the work is done."""

    def __init__(self) -> None:
        self.folder = tempfile.TemporaryDirectory(prefix="vutselqi-")
        self.path = Path(self.folder.name)

    def __enter__(self) -> "Workspace":
        return self

    def __exit__(self, *_: object) -> None:
        self.folder.cleanup()

    def take(self, given: str, name: str) -> Input:
        """Reads a file, and keeps it by a plain name. One that can't be read isn't kept: the program says so then."""
        shown, path = os.fsencode(given).decode("utf-8", "replace"), self.path / name
        try:
            with open(given, "rb") as file:
                content = file.read()
        except (OSError, ValueError) as error:
            return Input(shown, path, fault=getattr(error, "strerror", None) or str(error))
        return self.keep(shown, name, content)

    def keep(self, shown: str, name: str, content: bytes, translator: str = "") -> Input:
        """Keeps what is given."""
        path = self.path / name
        path.write_bytes(content)
        return Input(shown, path, content, translator=translator)

    def take_world(self, given: str, name: str) -> Input:
        """Reads a world, or a line of the program with one in it."""
        taken = self.take(given, name)
        found = LINE.match(taken.content)
        return self.keep(taken.shown, name, found.group(1)) if found else taken
