"""How far the work is: a line for each kind of request that is answered, where somebody looks on."""

from __future__ import annotations

from typing import TextIO

from vutselqi.escapes import plain


class Progress:
    """Tells which task has begun, and how many kinds of request are answered."""

    def __init__(self, stream: TextIO, is_told: bool) -> None:
        self.stream = stream
        self.is_told = is_told
        self.task = ""
        self.done = 0

    def begin(self, task: str) -> None:
        """Begins with a task, in a few words."""
        self.task, self.done = task, 0
        self.put(task)

    def answered(self, kind: str, says: str) -> None:
        """Tells that a kind of request is answered."""
        self.done += 1
        self.put(f"{self.task}: {self.done}. {kind}: {says}")

    def put(self, line: str) -> None:
        """Writes a line."""
        if self.is_told:
            print(plain(line), file=self.stream, flush=True)
