"""Texts that others wrote, as they can be shown: nothing in them acts on a terminal."""

from __future__ import annotations

import json
import re
import shlex

LETTERS = {"n": "\n", "r": "\r", "t": "\t", "0": "\0", "\\": "\\", '"': '"', "'": "'", "*": "*"}
ESCAPE = re.compile(r"\\(?:x([0-9a-fA-F]{2})|u\{([0-9a-fA-F]{1,6})\}|(.))", re.S)


def plain(text: str) -> str:
    """The text with each character escaped that isn't seen as itself: controls, turns of direction, ends of lines."""
    return "".join(c if c.isprintable() else f"\\u{{{ord(c):x}}}" for c in text)


def quoted(text: str) -> str:
    """The text between double quotes, as JSON writes it."""
    return json.dumps(text, ensure_ascii=False)


def shell_word(text: str) -> str:
    """A word for a shell, in one line: with bash's `$'..'` where a character in it isn't seen as itself."""
    if text.isprintable():
        return shlex.quote(text)
    seen = "".join(c if c.isprintable() and c not in "\\'" else escaped_bytes(c) for c in text)
    return f"$'{seen}'"


def escaped_bytes(text: str) -> str:
    """The bytes of a text, as `$'..'` has them."""
    return "".join(f"\\x{byte:02x}" for byte in text.encode("utf-8", "surrogateescape"))


def unescaped(text: str) -> str:
    """What a text stands for that is escaped as Cedar escapes strings, and as the program escapes names and paths."""

    def letter(found: re.Match[str]) -> str:
        code = found.group(1) or found.group(2)
        if code is None:
            return LETTERS.get(found.group(3), found.group(0))
        number = int(code, 16)
        return chr(number) if number <= 0x10FFFF else found.group(0)

    return ESCAPE.sub(letter, text)
