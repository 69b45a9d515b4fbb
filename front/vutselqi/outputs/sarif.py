"""A report in SARIF 2.1.0, as tools that gather findings read it."""

from __future__ import annotations

import json
from typing import Any, Optional
from urllib.parse import quote

import vutselqi
from vutselqi.places import Place
from vutselqi.report import CODES, ERROR, Finding, Report

SCHEMA = "https://json.schemastore.org/sarif-2.1.0.json"


def text_of(report: Report) -> str:
    """The report as a SARIF text."""
    codes = list(CODES)
    results = [result(finding, codes) for finding in report.findings]
    if report.trouble:
        trouble = report.trouble
        advice = f". What to do: {trouble.advice}" if trouble.advice else ""
        results.append(result_of("trouble", ERROR, f"{trouble.sentence}{advice}.", trouble.place, codes))
    driver = {
        "name": "vutselqi",
        "version": vutselqi.__version__,
        "rules": [{"id": code, "shortDescription": {"text": text}} for code, text in CODES.items()],
    }
    run = {
        "tool": {"driver": driver},
        "columnKind": "unicodeCodePoints",
        "invocations": [{"executionSuccessful": report.trouble is None, "exitCode": report.status}],
        "results": results,
    }
    return json.dumps({"$schema": SCHEMA, "version": "2.1.0", "runs": [run]}, indent=2) + "\n"


def result(finding: Finding, codes: list[str]) -> dict[str, Any]:
    """A finding."""
    message = f"{finding.kind.text}: {finding.sentence}" if finding.kind else finding.sentence
    return result_of(finding.code, finding.level, "\n".join([message, *finding.details]), finding.place, codes)


def result_of(code: str, level: str, message: str, place: Optional[Place], codes: list[str]) -> dict[str, Any]:
    """A result with where it is, if it is anywhere."""
    found: dict[str, Any] = {
        "ruleId": code,
        "ruleIndex": codes.index(code),
        "level": level,
        "message": {"text": message},
    }
    if place:
        region = {"startLine": place.line, "startColumn": place.column}
        uri = ("file://" if place.file.startswith("/") else "") + quote(place.file)
        found["locations"] = [{"physicalLocation": {"artifactLocation": {"uri": uri}, "region": region}}]
    return found
