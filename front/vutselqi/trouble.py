"""What keeps a question from being answered, as a sentence."""

from __future__ import annotations

from dataclasses import dataclass
from typing import Optional

from vutselqi.places import Place


@dataclass
class Trouble(Exception):
    """A sentence on what went wrong, where in a file, what to do about it, and the line of the program that says so."""

    sentence: str
    place: Optional[Place] = None
    advice: str = ""
    line: str = ""

    def __str__(self) -> str:
        return self.sentence
