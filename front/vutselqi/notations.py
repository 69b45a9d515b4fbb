"""Schemas in Cedar's own notation and policies in JSON, which the program `cedar` translates where it is installed."""

from __future__ import annotations

import re
import shutil
import subprocess

from vutselqi.inputs import Input, Workspace
from vutselqi.places import Place
from vutselqi.trouble import Trouble

CEDAR_SCHEMA = re.compile(r"\s*(?:[A-Za-z@]|//)")
JSON_POLICIES = re.compile(r"\s*[{\[]")


def schema_in_json(workspace: Workspace, schema: Input) -> Input:
    """The schema, translated if it is in Cedar's own notation."""
    if not CEDAR_SCHEMA.match(schema.text):
        return schema
    words = ["cedar", "translate-schema", "--direction", "cedar-to-json", "--schema", str(schema.path)]
    return translated(workspace, schema, words, "the schema is in Cedar's own notation")


def policies_in_cedar(workspace: Workspace, policies: Input) -> Input:
    """The policies, translated if they are in JSON."""
    if not JSON_POLICIES.match(policies.text):
        return policies
    words = ["cedar", "translate-policy", "--direction", "json-to-cedar", "--policies", str(policies.path)]
    return translated(workspace, policies, words, "the policies are in JSON")


def translated(workspace: Workspace, file: Input, words: list[str], what: str) -> Input:
    """What `cedar` writes for a file."""
    command = f"`{words[0]} {words[1]}`"
    if not shutil.which("cedar"):
        raise Trouble(
            f"{file.name}: {what}, which {command} translates, and the command `cedar` isn't installed",
            advice="install cedar-policy-cli, or translate the file elsewhere",
        )
    run = subprocess.run(words, stdin=subprocess.DEVNULL, capture_output=True, check=False)
    if run.returncode:
        said = run.stderr.decode("utf-8", "replace").strip() or f"status {run.returncode}"
        place = Place(file.name, 1, 1) if file.content else None
        raise Trouble(f"{file.name}: {what}, and {command} refuses it: {said}", place, "mend the file")
    return workspace.keep(file.shown, file.path.name, run.stdout, command)
