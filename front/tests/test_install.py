"""The package as it is installed, and the action of `front/README.md` as it is written."""

from __future__ import annotations

import os
import re
import shutil
import subprocess
import sys
import tarfile
import textwrap
import unittest
from importlib.util import find_spec
from pathlib import Path

import packing
from tests.support import FRONT, PROGRAM, TOP, FrontTest, needs_program, write_blocks

STEP = re.compile(r"^      - name: (.*)\n(?:        if: .*\n)?        run: \|\n((?:          .*\n)+)", re.M)


@needs_program
@unittest.skipUnless(
    find_spec("ensurepip"), "Python's `ensurepip` isn't installed, so there are no virtual environments"
)
@unittest.skipUnless(shutil.which("git"), "`git` isn't installed")
class Install(FrontTest):
    """A fresh virtual environment, without a network."""

    def setUp(self) -> None:
        super().setUp()
        subprocess.run([sys.executable, "-m", "venv", str(self.folder / "fresh")], check=True)
        variables = {name: value for name, value in os.environ.items() if name not in ("PYTHONPATH", "CEDAR_SYMCC")}
        path = f"{self.folder}/fresh/bin{os.pathsep}{os.environ['PATH']}"
        self.variables = {
            **variables,
            "PATH": path,
            "PIP_NO_INDEX": "1",
            "PIP_DISABLE_PIP_VERSION_CHECK": "1",
            "NO_COLOR": "1",
        }
        write_blocks(self.folder)

    def call(self, *words: str, at: Path) -> "subprocess.CompletedProcess[str]":
        """Runs a command in the environment."""
        return subprocess.run(words, cwd=at, env=self.variables, capture_output=True, text=True, check=False)

    def test_install_and_action(self) -> None:
        run = self.call("pip", "install", "./front", at=TOP)
        self.assertEqual(run.returncode, 0, run.stderr)
        run = self.call(
            "vutselqi",
            "compare",
            "--program",
            str(PROGRAM),
            "--schema",
            "schema.json",
            "old.cedar",
            "new.cedar",
            at=self.folder,
        )
        self.assertEqual((run.returncode, run.stdout[:30], run.stderr), (1, 'User Action::"view" Doc: wider', ""))
        self.file("bad.cedar", "permit(")
        run = self.call(
            "vutselqi", "lint", "--program", str(PROGRAM), "--schema", "schema.json", "bad.cedar", at=self.folder
        )
        self.assertIn("UnexpectedEnd: the file ends within a policy", run.stderr)
        self.assertEqual(self.call("pip", "uninstall", "--yes", "vutselqi", at=self.folder).returncode, 0)
        self.action()

    def action(self) -> None:
        """Runs the action in a repository of policies with a change that widens access, and then without."""
        work, kept = self.folder / "policies", self.folder / "kept"
        (work / "tools").mkdir(parents=True)
        kept.mkdir()
        packing.build_wheel(str(work / "tools"))
        shutil.copy(str(PROGRAM), work / "tools" / "cedar_symcc")
        shutil.copy(self.folder / "schema.json", work / "schema.json")
        shutil.copy(self.folder / "old.cedar", work / "policies.cedar")
        self.commit(work)
        self.variables.update(
            RUNNER_TEMP=str(kept), GITHUB_BASE_REF="main", GITHUB_STEP_SUMMARY=str(kept / "summary.md")
        )
        steps = {
            name: textwrap.dedent(text)
            for name, text in STEP.findall((FRONT / "README.md").read_text(encoding="utf-8"))
        }
        self.assertEqual(list(steps), ["Install", "Say what changes", "Say it in the summary"])
        for policies, status, said in (
            ("new", 1, "::error file=policies.cedar,line=1,col=1,"),
            ("old", 0, "1 kind of request: 1 same."),
        ):
            shutil.copy(self.folder / f"{policies}.cedar", work / "policies.cedar")
            for name, script in steps.items():
                run = self.call("bash", "-e", "-c", script, at=work)
                self.assertEqual(run.returncode, status if name == "Say what changes" else 0, run.stdout + run.stderr)
                if name == "Say what changes":
                    self.assertIn(said, run.stdout)
            self.assertIn("<table>", (kept / "access.html").read_text(encoding="utf-8"))
        self.assertIn("User 0 may view Doc 0", (kept / "summary.md").read_text(encoding="utf-8"))

    def commit(self, work: Path) -> None:
        """Makes a repository whose main branch, as its origin has it, is what the folder holds."""
        name = ["-c", "user.name=t", "-c", "user.email=t@t.invalid"]
        for words in (
            ["init", "-q"],
            ["add", "."],
            [*name, "commit", "-q", "-m", "policies"],
            ["update-ref", "refs/remotes/origin/main", "HEAD"],
        ):
            run = self.call("git", *words, at=work)
            self.assertEqual(run.returncode, 0, run.stderr)


class Archives(FrontTest):
    """Archives that `packing` writes."""

    def test_source(self) -> None:
        name = packing.build_sdist(str(self.folder))
        with tarfile.open(self.folder / name) as archive:
            archive.extractall(self.folder, **({"filter": "data"} if hasattr(tarfile, "data_filter") else {}))
        top = self.folder / name[: -len(".tar.gz")]
        words = [sys.executable, "-c", "import packing; print(packing.build_wheel('.'))"]
        run = subprocess.run(words, cwd=top, capture_output=True, text=True, check=False)
        self.assertEqual((run.stdout, run.stderr), ("vutselqi-1.0.0-py3-none-any.whl\n", ""))
        packing.build_wheel(str(self.folder))
        self.assertEqual((top / run.stdout.strip()).read_bytes(), (self.folder / run.stdout.strip()).read_bytes())
