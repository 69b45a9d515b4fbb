"""A report as annotations of GitHub's workflow commands."""

from __future__ import annotations

from typing import Optional

from vutselqi.escapes import plain
from vutselqi.places import Place
from vutselqi.report import CODES, ERROR, NOTE, WARNING, Report

WORDS = {ERROR: "error", WARNING: "warning", NOTE: "notice"}


def text_of(report: Report) -> str:
    """The report, an annotation a line, and the summary as plain text."""
    lines = []
    for finding in report.findings:
        front = f"{finding.kind.text}: " if finding.kind else ""
        message = "\n".join([front + finding.sentence, *finding.details])
        lines.append(annotation(finding.level, CODES[finding.code], message, finding.place))
    lines += [annotation(NOTE, "vutselqi", note, None) for note in report.notes]
    if report.trouble:
        advice = f"\nWhat to do: {report.trouble.advice}" if report.trouble.advice else ""
        message = report.trouble.sentence + advice
        lines.append(annotation(ERROR, CODES["trouble"], message, report.trouble.place))
    else:
        lines.append(plain(report.summary))
    return "\n".join(lines) + "\n"


def annotation(level: str, title: str, message: str, place: Optional[Place]) -> str:
    """One annotation."""
    properties = {"title": title}
    if place:
        properties = {"file": place.file, "line": str(place.line), "col": str(place.column), **properties}
    told = ",".join(f"{name}={property_text(value)}" for name, value in properties.items())
    return f"::{WORDS[level]} {told}::{message_text(message)}"


def message_text(text: str) -> str:
    """A message, whose ends of lines are escaped, with what else acts on a terminal."""
    shown = "\n".join(plain(line) for line in text.split("\n"))
    return shown.replace("%", "%25").replace("\r", "%0D").replace("\n", "%0A")


def property_text(text: str) -> str:
    """A property's value."""
    return plain(text).replace("%", "%25").replace(":", "%3A").replace(",", "%2C")
