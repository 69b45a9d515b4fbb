"""How questions are run: many processes, many machines, translations, terminals."""

from __future__ import annotations

import os
import pty
import shutil
import subprocess
import sys
import unittest

from tests.support import EXAMPLES, PROGRAM, FrontTest, needs_program, surroundings, write_blocks

needs_parallel = unittest.skipUnless(shutil.which("parallel"), "GNU parallel isn't installed")
CEDAR = """\
#!/bin/sh
case "$1 $2 $3 $4" in
    "translate-policy --direction json-to-cedar --policies") cat "$ANSWER" ;;
    "translate-schema --direction cedar-to-json --schema") cat "$ANSWER" ;;
    *) exit 9 ;;
esac
"""


@needs_program
class Sharing(FrontTest):
    """Kinds of request that are shared among processes and machines."""

    def compare(self, *words: str) -> str:
        """What `compare` writes about a policy set."""
        run = self.vutselqi(
            "compare", "--schema", "schema.json", *words, "v1.cedar", "v3.cedar", at=EXAMPLES / "taxdesk"
        )
        self.assertEqual((run.status, run.err), (1, ""))
        return run.out

    def test_jobs(self) -> None:
        self.assertEqual(self.compare(), self.compare("--jobs", "3"))

    @needs_parallel
    def test_hosts(self) -> None:
        self.file("hosts", "# this machine\n2/:\n")
        self.assertEqual(self.compare(), self.compare("--hosts", str(self.folder / "hosts")))

    @needs_parallel
    def test_hosts_that_are_not_there(self) -> None:
        write_blocks(self.folder)
        self.file("no-ssh", "#!/bin/sh\necho refused >&2\nexit 255\n")
        (self.folder / "no-ssh").chmod(0o755)
        self.file("hosts", "'./no-ssh' nobody@nowhere.invalid\n")
        run = self.vutselqi("lint", "--schema", "schema.json", "--hosts", "hosts", "old.cedar")
        self.assertEqual((run.status, run.out), (2, ""))
        self.assertIn("GNU parallel brought no answer for 1 kind of request: ", run.err)

    def test_no_parallel(self) -> None:
        write_blocks(self.folder)
        run = self.vutselqi("lint", "--schema", "schema.json", "--hosts", "hosts", "old.cedar", PATH="/nowhere")
        self.assertEqual(run.status, 2)
        self.assertIn("--hosts needs GNU parallel, and the command `parallel` isn't installed", run.err)

    @needs_parallel
    def test_no_hosts(self) -> None:
        write_blocks(self.folder)
        run = self.vutselqi("lint", "--schema", "schema.json", "--hosts", "hosts", "old.cedar")
        self.assertEqual(run.status, 2)
        self.assertIn("the file of hosts, hosts, isn't there", run.err)


@needs_program
class Notations(FrontTest):
    """Files in other notations."""

    def setUp(self) -> None:
        super().setUp()
        write_blocks(self.folder)
        (self.folder / "bin").mkdir()
        self.file("bin/cedar", CEDAR)
        (self.folder / "bin" / "cedar").chmod(0o755)
        self.file("old.cedar.json", '{"staticPolicies": {}}')
        self.file("schema.cedarschema", "entity User, Doc;\n")

    def with_cedar(self, translated: str, *words: str):  # type: ignore[no-untyped-def]
        """Runs over a `cedar` that translates everything to a file."""
        path = f"{self.folder}/bin{os.pathsep}{os.environ['PATH']}"
        return self.vutselqi(*words, PATH=path, ANSWER=str(self.folder / translated))

    def test_policies(self) -> None:
        run = self.with_cedar("old.cedar", "compare", "--schema", "schema.json", "old.cedar.json", "new.cedar")
        self.assertEqual((run.status, run.err), (1, ""))
        self.assertIn("new rule 1 (line 1) permits; before, no rule did", run.out)

    def test_schema(self) -> None:
        run = self.with_cedar("schema.json", "compare", "--schema", "schema.cedarschema", "old.cedar", "kept.cedar")
        self.assertEqual((run.status, run.out), (0, 'User Action::"view" Doc: same\n1 kind of request: 1 same.\n'))

    def test_faults_of_a_translation(self) -> None:
        self.file("wrong", "permit(principal, action, resource) when { 1 };")
        run = self.with_cedar("wrong", "lint", "--schema", "schema.json", "old.cedar.json")
        self.assertIn(
            "vutselqi lint: old.cedar.json (as `cedar translate-policy` gives it):1:44: NotBoolean: ", run.err
        )
        run = self.with_cedar("nowhere", "lint", "--schema", "schema.json", "old.cedar.json")
        self.assertEqual(run.status, 2)
        self.assertIn("the policies are in JSON, and `cedar translate-policy` refuses it: cat: ", run.err)

    def test_no_cedar(self) -> None:
        for words, what in (
            (("schema.json", "old.cedar.json"), "policy"),
            (("schema.cedarschema", "old.cedar"), "schema"),
        ):
            run = self.vutselqi("lint", "--schema", *words, PATH="/nowhere")
            self.assertEqual((run.status, run.out), (2, ""))
            self.assertIn(f"`cedar translate-{what}` translates, and the command `cedar` isn't installed", run.err)


@needs_program
class Terminal(FrontTest):
    """What is seen on a terminal, and in pipes."""

    def test_colours_and_progress(self) -> None:
        write_blocks(self.folder)
        leader, follower = pty.openpty()
        words = [sys.executable, "-m", "vutselqi", "compare", "--schema", "schema.json", "old.cedar", "new.cedar"]
        variables = {**os.environ, **surroundings(None, {})}
        del variables["NO_COLOR"]
        with subprocess.Popen(words, cwd=self.folder, env=variables, stdout=follower, stderr=follower) as process:
            os.close(follower)
            seen = b""
            while True:
                try:
                    piece = os.read(leader, 65536)
                except OSError:
                    break
                if not piece:
                    break
                seen += piece
        os.close(leader)
        self.assertEqual(process.returncode, 1)
        shown = seen.decode().replace("\r\n", "\n")
        self.assertIn('asking what gets wider: 1. User Action::"view" Doc: counterexample\n', shown)
        self.assertIn('\x1b[1mUser Action::"view" Doc\x1b[0m: \x1b[33mwider\x1b[0m\n', shown)

    def test_a_pipe_that_closes(self) -> None:
        write_blocks(self.folder)
        command = [
            sys.executable,
            "-m",
            "vutselqi",
            "compare",
            "--schema",
            "schema.json",
            "--raw",
            "old.cedar",
            "new.cedar",
        ]
        variables = {**os.environ, **surroundings(PROGRAM, {})}
        with subprocess.Popen(
            command, cwd=self.folder, env=variables, stdout=subprocess.PIPE, stderr=subprocess.PIPE
        ) as process:
            assert process.stdout and process.stderr
            process.stdout.close()
            said = process.stderr.read()
        self.assertEqual((process.returncode, said), (2, b""))

    def test_a_pipe_to_read_from(self) -> None:
        write_blocks(self.folder)
        reader, writer = os.pipe()
        os.write(writer, b"permit(principal, action, resource) when { context.mfa && context.managed };\n")
        os.close(writer)
        run = self.vutselqi("compare", "--schema", "schema.json", "old.cedar", f"/dev/fd/{reader}")
        os.close(reader)
        self.assertEqual((run.status, run.err), (0, ""))
