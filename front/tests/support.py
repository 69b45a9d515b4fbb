"""What the tests share: the program, runs of `vutselqi`, expected texts, and answers that were recorded."""

from __future__ import annotations

import io
import json
import os
import re
import shlex
import subprocess
import sys
import tempfile
import unittest
from contextlib import redirect_stderr, redirect_stdout
from dataclasses import dataclass
from pathlib import Path
from typing import Any, Optional
from unittest import mock

from vutselqi.commands import main
from vutselqi.program import find
from vutselqi.trouble import Trouble

FRONT = Path(__file__).resolve().parents[1]
TOP = FRONT.parent
EXAMPLES = TOP / "examples"
EXPECTED = FRONT / "tests" / "expected"
RECORDED = FRONT / "tests" / "recorded"
SCRIPTED = FRONT / "tests" / "scripted.py"
SETS = ("codeforge", "newsroom", "rolelabels", "taxdesk", "teamtodo")
BLOCK = re.compile(r"^```(\w+) ([\w.-]+)\n(.*?)^```", re.S | re.M)


def real_program() -> Optional[Path]:
    """The proved program, None where there is none."""
    try:
        return find(None)
    except Trouble:
        return None


PROGRAM = real_program()
needs_program = unittest.skipUnless(PROGRAM, "the proved program isn't here: set CEDAR_SYMCC, or run `rt ci`")


@dataclass
class Run:
    """A run of `vutselqi`."""

    status: int
    out: str
    err: str


class FrontTest(unittest.TestCase):
    """A test with a folder of its own, in which `vutselqi` runs."""

    maxDiff = None

    def setUp(self) -> None:
        folder = tempfile.TemporaryDirectory(prefix="vutselqi test ")
        self.addCleanup(folder.cleanup)
        self.folder = Path(folder.name)

    def file(self, name: str, text: str) -> str:
        """Writes a file into the folder."""
        (self.folder / name).write_text(text, encoding="utf-8")
        return name

    def vutselqi(self, *words: str, at: Optional[Path] = None, program: Optional[Path] = None, **more: str) -> Run:
        """Runs `vutselqi` in the test's folder or at another place; `more` are further variables that it sees."""
        out, err = io.TextIOWrapper(io.BytesIO(), "utf-8"), io.TextIOWrapper(io.BytesIO(), "utf-8")
        before = os.getcwd()
        os.chdir(at or self.folder)
        try:
            with mock.patch.dict(os.environ, surroundings(program, more)), redirect_stdout(out), redirect_stderr(err):
                try:
                    status = main(words)
                except SystemExit as end:
                    status = int(end.code or 0)
        finally:
            os.chdir(before)
        return Run(status, text_in(out), text_in(err))

    def process(self, *words: str, program: Optional[Path] = None, **more: str) -> Run:
        """Runs `vutselqi` as a process of its own."""
        command = [sys.executable, "-m", "vutselqi", *words]
        run = subprocess.run(
            command,
            cwd=self.folder,
            env={**os.environ, **surroundings(program, more)},
            capture_output=True,
            check=False,
        )
        return Run(run.returncode, run.stdout.decode(), run.stderr.decode())

    def scripted(self, answers: list[dict[str, Any]], *words: str, **more: str) -> Run:
        """Runs `vutselqi` over a program that gives these answers, and else those of the proved program."""
        self.file("answers.json", json.dumps(answers))
        return self.over(self.folder / "answers.json", self.folder, *words, **more)

    def recorded(self, name: str, *words: str) -> Run:
        """Runs `vutselqi` at a policy set over answers that were recorded, so that the worlds are always the same."""
        return self.over(RECORDED / f"{name}.json", EXAMPLES / name if name in SETS else self.folder, *words)

    def over(self, answers: Path, at: Path, *words: str, **more: str) -> Run:
        """Runs `vutselqi` over a program that gives the answers of a file."""
        program = self.folder / "scripted program"
        program.write_text(
            f'#!/bin/sh\nexec {shlex.quote(sys.executable)} -ES {shlex.quote(str(SCRIPTED))} "$@"\n', encoding="utf-8"
        )
        program.chmod(0o755)
        more = {"SCRIPTED": str(answers), "SCRIPTED_REAL": str(PROGRAM or ""), **more}
        return self.vutselqi(*words, at=at, program=program, **more)

    def expect(self, name: str, text: str) -> None:
        """Compares a text with the expected one, which it becomes where the variable WRITE_EXPECTED is set."""
        path = EXPECTED / name
        if os.environ.get("WRITE_EXPECTED"):
            path.write_text(text, encoding="utf-8")
        self.assertEqual(path.read_text(encoding="utf-8"), text)


def surroundings(program: Optional[Path], more: dict[str, str]) -> dict[str, str]:
    """The variables that a run sees."""
    fixed = {
        "PYTHONPATH": str(FRONT),
        "PYTHONDONTWRITEBYTECODE": "1",
        "NO_COLOR": "1",
        "CEDAR_SYMCC": str(program or PROGRAM or ""),
    }
    return {**fixed, **more}


def text_in(stream: io.TextIOWrapper) -> str:
    """What was written to a stream in memory."""
    stream.flush()
    return stream.buffer.getvalue().decode()  # type: ignore[attr-defined]


def write_blocks(folder: Path) -> None:
    """Writes the files of the README's examples into a folder."""
    for _, name, text in BLOCK.findall((TOP / "README.md").read_text(encoding="utf-8")):
        (folder / name).write_text(text, encoding="utf-8")


def answer(words: str, status: int, *lines: str) -> dict[str, Any]:
    """An answer of a scripted program."""
    return {"words": words.split(), "status": status, "lines": list(lines)}
