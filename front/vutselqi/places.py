"""Places in files: lines and columns, counted from 1, and the line with a caret under the place."""

from __future__ import annotations

import re
import unicodedata
from bisect import bisect_right
from dataclasses import dataclass, replace
from functools import lru_cache

from vutselqi.escapes import plain

ROOM = 100  # characters of a source line that are shown
LINES = 8  # lines of a rule that are shown


@dataclass(frozen=True)
class Place:
    """A place in a file of the user's name; `excerpt` is what stands there: a line with a caret below it, or a rule."""

    file: str
    line: int
    column: int
    excerpt: tuple[str, ...] = ()

    @property
    def text(self) -> str:
        """`FILE:LINE:COLUMN`, as editors and compilers write it."""
        return f"{self.file}:{self.line}:{self.column}"


def at_byte(file: str, source: bytes, offset: int) -> Place:
    """The place of a byte, counted from 0."""
    return at_character(file, source.decode("utf-8", "replace"), len(source[:offset].decode("utf-8", "replace")))


@lru_cache(maxsize=8)
def line_ends(text: str) -> list[int]:
    """Where lines end: the characters behind the ends of lines."""
    return [found.end() for found in re.finditer(r"\r\n|\r|\n", text)]


def at_character(file: str, source: str, offset: int) -> Place:
    """The place of a character, counted from 0."""
    ends = line_ends(source)
    lines_before = bisect_right(ends, offset)
    start = ends[lines_before - 1] if lines_before else 0
    end = ends[lines_before] if lines_before < len(ends) else len(source)
    return Place(file, lines_before + 1, offset - start + 1, excerpt(source[start:end].rstrip("\r\n"), offset - start))


def at_rule(file: str, source: str, offset: int, end: int) -> Place:
    """The place of a rule, from one character up to another, with its text."""
    place = at_character(file, source, offset)
    lines = [
        shown(line if len(line) <= ROOM else line[: ROOM - 1] + "…")
        for line in re.split(r"\r\n|\r|\n", source[offset:end] + ";")
    ]
    return replace(place, excerpt=tuple(lines if len(lines) <= LINES else [*lines[: LINES - 1], "…"]))


def excerpt(line: str, at: int) -> tuple[str, ...]:
    """The line, cut on both sides where it is long, and a caret under the character at a place."""
    first = max(0, at - ROOM * 2 // 3)
    front = shown(line[first:at])
    rest = shown(line[at : first + ROOM])
    mark, more = ("…" if first else ""), ("…" if first + ROOM < len(line) else "")
    return (mark + front + rest + more, " " * width(mark + front) + "^")


def shown(text: str) -> str:
    """A part of a line as it is shown, tabs as four blanks."""
    return plain(text.replace("\t", "    "))


def width(text: str) -> int:
    """How many columns of a terminal a text takes."""
    return sum(0 if unicodedata.combining(c) else 2 if unicodedata.east_asian_width(c) in "WF" else 1 for c in text)
