"""A report as JSON."""

from __future__ import annotations

import json
from typing import Any, Optional

from vutselqi.lines import Kind
from vutselqi.places import Place
from vutselqi.report import Finding, Report, Row


def text_of(report: Report) -> str:
    """The report as a JSON text."""
    return json.dumps(tree_of(report), indent=2) + "\n"


def tree_of(report: Report) -> dict[str, Any]:
    """The report as a tree."""
    tree = {
        "command": report.command,
        "status": report.status,
        "summary": report.summary,
        "kinds": [row_tree(row) for row in report.rows],
        "findings": [finding_tree(finding) for finding in report.others],
        "notes": report.notes,
    }
    if report.trouble:
        trouble = report.trouble
        tree["trouble"] = {
            "sentence": trouble.sentence,
            "advice": trouble.advice,
            "place": place_tree(trouble.place),
            "line": trouble.line,
        }
    return tree


def row_tree(row: Row) -> dict[str, Any]:
    """A kind of request."""
    return {
        "kind": kind_tree(row.kind),
        "verdict": row.verdict,
        "findings": [finding_tree(finding) for finding in row.findings],
        "lines": row.lines,
    }


def kind_tree(kind: Optional[Kind]) -> Optional[dict[str, str]]:
    """What a kind of request is of."""
    if kind is None:
        return None
    tree = {"principal": kind.principal, "action": kind.action, "resource": kind.resource}
    return {**tree, "link": kind.link.strip()} if kind.link else tree


def finding_tree(finding: Finding) -> dict[str, Any]:
    """A sentence, and all that it stands on."""
    rules = [
        {
            "file": rule.file,
            "number": rule.number,
            "id": rule.identity,
            "effect": rule.effect,
            "place": place_tree(rule.place),
            "says": rule.says,
        }
        for rule in finding.rules
    ]
    return {
        "code": finding.code,
        "level": finding.level,
        "sentence": finding.sentence,
        "details": finding.details,
        "kind": kind_tree(finding.kind),
        "place": place_tree(finding.place),
        "rules": rules,
        "world": json.loads(finding.world.text) if finding.world else None,
        "lines": finding.lines,
    }


def place_tree(place: Optional[Place]) -> Optional[dict[str, Any]]:
    """A place in a file."""
    return {"file": place.file, "line": place.line, "column": place.column} if place else None
