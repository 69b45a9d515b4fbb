"""A report as text, with colours on a terminal."""

from __future__ import annotations

from typing import TextIO

from vutselqi.escapes import plain
from vutselqi.places import Place
from vutselqi.report import ERROR, NOTE, WARNING, Finding, Report
from vutselqi.trouble import Trouble

BOLD, RED, YELLOW, GREEN, BLUE = "1", "31", "33", "32", "36"
COLOURS = {ERROR: RED, WARNING: YELLOW, NOTE: BLUE}
QUIET = {"same", "depends"}


class TextForm:
    """Writes text. `is_raw` shows the lines of the program below each sentence; on a terminal these are escaped too."""

    def __init__(self, out: TextIO, is_coloured: bool, is_raw: bool, is_terminal: bool) -> None:
        self.out = out
        self.is_coloured = is_coloured
        self.is_raw = is_raw
        self.is_terminal = is_terminal

    def painted(self, text: str, colour: str) -> str:
        """The text in a colour, where there are colours."""
        return f"\033[{colour}m{plain(text)}\033[0m" if self.is_coloured else plain(text)

    def put(self, text: str = "", front: str = "") -> None:
        """Writes a line that is already safe to be shown."""
        self.out.write(f"{front}{text}\n")

    def write(self, report: Report) -> None:
        """Writes a report."""
        if report.trouble:
            self.trouble(report.command, report.trouble)
            return
        for row in report.rows:
            colour = GREEN if row.verdict in QUIET else YELLOW
            self.put(f"{self.painted(row.kind.text, BOLD)}: {self.painted(row.verdict, colour)}")
            for finding in row.findings:
                self.finding(finding)
            if self.is_raw and not row.findings:
                self.lines(row.lines)
        for finding in report.others:
            self.finding(finding)
        for note in report.notes:
            self.put(self.painted(note, BLUE))
        self.put(self.painted(report.summary, BOLD))

    def finding(self, finding: Finding) -> None:
        """Writes a sentence, and what belongs to it."""
        self.put(self.painted(finding.sentence, COLOURS[finding.level]), "    ")
        for detail in finding.details:
            self.put(plain(detail), "        ")
        if finding.place:
            self.place(finding.place, "      ")
        if self.is_raw:
            self.lines(finding.lines)

    def place(self, place: Place, front: str) -> None:
        """Writes where something is."""
        self.put(plain(place.text), front)
        for line in place.excerpt:
            self.put(line, front + "  ")

    def lines(self, lines: list[str]) -> None:
        """Writes lines of the program as they are."""
        for line in lines:
            self.put(plain(line) if self.is_terminal else line, "    | ")

    def trouble(self, command: str, trouble: Trouble) -> None:
        """Writes what went wrong, and where."""
        where = f"{plain(trouble.place.text)}: " if trouble.place else ""
        self.put(f"{self.painted('vutselqi ' + command, BOLD)}: {where}{self.painted(trouble.sentence, RED)}")
        for line in trouble.place.excerpt if trouble.place else ():
            self.put(line, "    ")
        if trouble.advice:
            self.put(f"What to do: {plain(trouble.advice)}")
        if trouble.line and self.is_raw:
            self.lines([trouble.line])
