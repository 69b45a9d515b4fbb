"""The policy sets of `examples`, and the examples of the README."""

from __future__ import annotations

import json
import re

from tests.support import EXAMPLES, FRONT, RECORDED, SETS, TOP, FrontTest, needs_program, write_blocks

TRANSCRIPT = re.compile(r"^```console\n(.*?)^```", re.S | re.M)


def answers(name: str, question: str) -> dict[str, str]:
    """By kind of request what `answers.txt` of a set says to a question."""
    text = (EXAMPLES / name / "answers.txt").read_text(encoding="utf-8")
    lines = next(part for part in text.split("question ") if question in part).splitlines()[1:]
    return dict(line.strip()[4:].rsplit(": ", 1) for line in lines if line.strip())


@needs_program
class Words(FrontTest):
    """The words for differences and oddities, over answers that were recorded."""

    def test_compare(self) -> None:
        for name in SETS:
            with self.subTest(name):
                run = self.recorded(name, "compare", "--schema", "schema.json", "v1.cedar", "v3.cedar")
                self.expect(f"compare-{name}.txt", run.out)
                self.assertEqual((run.status, run.err), (1, ""))

    def test_lint(self) -> None:
        for name in SETS:
            with self.subTest(name):
                run = self.recorded(name, "lint", "--schema", "schema.json", "v1.cedar")
                self.expect(f"lint-{name}.txt", run.out)
                self.assertEqual((run.status, run.err), (1 if name == "taxdesk" else 0, ""))

    def test_explain(self) -> None:
        for name in SETS:
            with self.subTest(name):
                run = self.recorded(
                    name, "explain", "--schema", "schema.json", "--policies", "v3.cedar", self.world(name)
                )
                self.expect(f"explain-{name}.txt", run.out)
                self.assertEqual((run.status, run.err), (0, ""))

    def world(self, name: str) -> str:
        """A file with the first line that was recorded with a world."""
        recorded = json.loads((RECORDED / f"{name}.json").read_text(encoding="utf-8"))
        line = next(line for line in recorded[0]["lines"] if "counterexample" in line)
        return str(self.folder / self.file("line.txt", line + "\n"))

    def test_forms(self) -> None:
        write_blocks(self.folder)
        for form in ("json", "sarif", "github", "raw"):
            with self.subTest(form):
                run = self.recorded(
                    "team", "compare", "--schema", "team.json", f"--{form}", "team-old.cedar", "team-new.cedar"
                )
                self.expect(f"compare-team.{form}", run.out)
                self.assertEqual((run.status, run.err), (1, ""))
        for form in ("sarif", "github"):
            with self.subTest(form):
                run = self.recorded("taxdesk", "lint", "--schema", "schema.json", f"--{form}", "v1.cedar")
                self.expect(f"lint-taxdesk.{form}", run.out)
                self.assertEqual((run.status, run.err), (1, ""))


@needs_program
class Answers(FrontTest):
    """What the proved program says today of each kind of request."""

    def test_verdicts(self) -> None:
        for name in SETS:
            with self.subTest(name):
                wider = answers(name, "--query implies --policies v3.cedar --against v1.cedar")
                narrower = answers(name, "--query implies --policies v1.cedar --against v3.cedar")
                run = self.vutselqi(
                    "compare",
                    "--schema",
                    "schema.json",
                    "--json",
                    "--jobs",
                    "2",
                    "v1.cedar",
                    "v3.cedar",
                    at=EXAMPLES / name,
                )
                for row in json.loads(run.out)["kinds"]:
                    kind = " ".join(row["kind"].values())
                    found = [
                        word
                        for word, said in (("wider", wider), ("narrower", narrower))
                        if said[kind] == "counterexample"
                    ]
                    self.assertEqual(row["verdict"], " and ".join(found) or "same", kind)
                    self.assertEqual([finding["code"] for finding in row["findings"]], found, kind)
                    for finding in row["findings"]:
                        self.assertRegex(finding["sentence"], r" (may|may no longer) .*: .*(before|now)")

    def test_lint(self) -> None:
        for name in SETS:
            with self.subTest(name):
                run = self.vutselqi("lint", "--schema", "schema.json", "--json", "v1.cedar", at=EXAMPLES / name)
                status = 1 if '"level": "warning"' in run.out else 2 if '"code": "undecided"' in run.out else 0
                self.assertEqual((run.status, run.err), (status, ""))
                errs, denied = (
                    answers(name, f"--query {query} --policies v1") for query in ("never-errors", "always-denies")
                )
                for row in json.loads(run.out)["kinds"]:
                    kind, codes = " ".join(row["kind"].values()), {finding["code"] for finding in row["findings"]}
                    self.assertEqual("may-err" in codes, errs[kind] == "counterexample", kind)
                    self.assertEqual(row["verdict"] == "never allowed", denied[kind] == "holds", kind)

    def test_the_same(self) -> None:
        for name in SETS:
            with self.subTest(name):
                run = self.vutselqi("compare", "--schema", "schema.json", "v1.cedar", "v2.cedar", at=EXAMPLES / name)
                self.assertEqual((run.status, run.err), (0, ""))
                self.assertRegex(run.out, r"kinds of request: \d+ same\.\n\Z")

    def test_fail_on(self) -> None:
        for only, old, new, status in (
            ("wider", "v1", "v3", 1),
            ("narrower", "v1", "v3", 0),
            ("wider", "v3", "v1", 0),
            ("narrower", "v3", "v1", 1),
        ):
            words = ("--fail-on", only, f"{old}.cedar", f"{new}.cedar")
            run = self.vutselqi("compare", "--schema", "schema.json", *words, at=EXAMPLES / "codeforge")
            self.assertEqual(run.status, status, words)

    def test_transcripts(self) -> None:
        write_blocks(self.folder)
        for page in (TOP / "README.md", FRONT / "README.md"):
            found = 0
            for text in TRANSCRIPT.findall(page.read_text(encoding="utf-8")):
                for part in re.split(r"^\$ ", text, flags=re.M):
                    command, _, wanted = part.partition("\n")
                    if command.startswith("vutselqi "):
                        run = self.vutselqi(*command.split()[1:], PATH="/nowhere")
                        self.assertEqual(run.out + run.err, wanted, command)
                        found += 1
            self.assertGreater(found, 0, page)
