"""Where in a JSON text a JSON pointer (RFC 6901) points."""

from __future__ import annotations

import json
from typing import Optional

BLANKS = " \t\n\r"
DECODER = json.JSONDecoder()


def steps_of(pointer: str) -> list[str]:
    """The keys and places that a pointer goes through."""
    return [step.replace("~1", "/").replace("~0", "~") for step in pointer.split("/")[1:]]


def offset_of(text: str, pointer: str) -> Optional[int]:
    """The character at which the value that the pointer leads to stands, or its key; None where there is none."""
    try:
        at = shown_at = after_blanks(text, 0)
        for step in steps_of(pointer):
            shown_at, at = member(text, at, step) if text[at] == "{" else element(text, at, step)
        return shown_at
    except (ValueError, IndexError, RecursionError):
        return None


def after_blanks(text: str, at: int) -> int:
    """The first place from `at` on that isn't white space."""
    while at < len(text) and text[at] in BLANKS:
        at += 1
    return at


def member(text: str, at: int, name: str) -> tuple[int, int]:
    """Of the object at `at`, where the member's key and its value stand; ValueError where there is no such member."""
    at = after_blanks(text, at + 1)
    while text[at] == '"':
        key_at = at
        key, at = DECODER.raw_decode(text, at)
        at = after_blanks(text, after_blanks(text, at) + 1)
        if key == name:
            return key_at, at
        at = after_comma(text, at)
    raise ValueError(name)


def element(text: str, at: int, place: str) -> tuple[int, int]:
    """Of the array at `at`, where the element at a place stands, twice."""
    if text[at] != "[":
        raise ValueError(place)
    at = after_blanks(text, at + 1)
    for _ in range(int(place)):
        at = after_comma(text, at)
    return at, at


def after_comma(text: str, at: int) -> int:
    """Where the next member or element stands after the value at `at`."""
    _, at = DECODER.raw_decode(text, at)
    return after_blanks(text, after_blanks(text, at) + 1)
