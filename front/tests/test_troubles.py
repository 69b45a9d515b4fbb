"""A clear sentence for each trouble: faults in files, a missing program, and each status."""

from __future__ import annotations

import re
import shutil

from tests.support import FRONT, FrontTest, Run, answer, needs_program, write_blocks

FAULTS = {
    "an operator too many": '@id("numbers")\npermit(principal, action, resource)\n\twhen { context.mfa < 1 < 2 };\n',
    "a text that isn't closed": 'permit(principal, action, resource) when { "é };\n',
    "an end too soon": "permit(principal, action, resource) when { context.mfa",
    "no condition": '// first\n@id("typed")\npermit(principal, action, resource) when { context.mfa && 1 };\n',
    "an unknown type": "permit(principal, action, resource);\npermit(principal is Robot, action, resource);\n",
}
SCHEMAS = {
    "a member too many": '{"": {"entityTypes": {"U": {"shape": '
    '{"type": "Record", "attributes": {}, "additionalAttributes": true}}}}}',
    "a choice twice": '{"": {"entityTypes": {"Role": {"enum": [\n  "reader", "admin",\n  "reader"]}}}}',
    "no choices": '{"": {"entityTypes": {"Role": {"enum": []}}}}',
    "a member beside choices": '{"": {"entityTypes": {"Role": {"enum": ["admin"], "memberOfTypes": ["Role"]}}}}',
    "a list that is none": '{"": {"entityTypes": {"Role": {"memberOfTypes": "Role"}}}}',
    "an unknown group": '{"": {\n  "entityTypes": {"User": {"memberOfTypes": ["Team"]}}}}',
    "no JSON": '{"": \n  {"entityTypes": {} "actions": {}}}',
    "a cycle": '{"": {"commonTypes": {"A": {"type": "A"}}}}',
}
STATUSES = {
    "another version": answer("analyse", 10, "error 10 usage"),
    "no such kind": answer("analyse", 16, "error 16 environment 9 of 3"),
    "too many links": answer("analyse", 18, "error 18 links 12000"),
    "a file that can't be read": answer("analyse", 20, "error 20 policies"),
    "no room to write": answer("analyse", 21),
    "a file that is too long": answer("analyse", 22, "error 22 policies"),
    "no memory": answer("analyse", 30, 'env User Action::"view" Doc: holds'),
    "a status of none": answer("analyse", 77),
    "another refusal": answer("analyse", 15, "error 15 policies policy0 like at 3"),
    "a signal": answer("analyse", -9),
    "a line of none": answer("analyse", 0, 'env User Action::"view" Doc: perhaps'),
    "a status that doesn't fit": answer("analyse", 1, 'env User Action::"view" Doc: holds'),
    "no line": answer("analyse", 0),
}


class Troubles(FrontTest):
    """Sentences on what went wrong, all in one expected text."""

    def setUp(self) -> None:
        super().setUp()
        write_blocks(self.folder)
        self.told = ""

    def tell(self, title: str, run: Run) -> None:
        """Adds what a run says to the text."""
        self.assertEqual((run.status, run.out), (2, ""), title)
        self.told += f"== {title}\n{run.err}"

    @needs_program
    def test_files(self) -> None:
        for title, text in FAULTS.items():
            self.file("a file.cedar", text)
            self.tell(title, self.vutselqi("compare", "--schema", "schema.json", "--raw", "old.cedar", "a file.cedar"))
        for title, text in SCHEMAS.items():
            self.file("a schema.json", text)
            self.tell(title, self.vutselqi("lint", "--schema", "a schema.json", "--raw", "old.cedar"))
        self.file("a world.json", '{"entities": [],\n "request": {}}')
        self.tell(
            "no world", self.vutselqi("explain", "--schema", "schema.json", "--policies", "old.cedar", "a world.json")
        )
        for words in (("nowhere.json", "old.cedar"), ("schema.json", "nowhere.cedar"), ("schema.json", ".")):
            self.tell(" ".join(words), self.vutselqi("lint", "--schema", *words))
        self.expect("troubles-files.txt", self.told)

    def test_statuses(self) -> None:
        for title, one in STATUSES.items():
            self.tell(title, self.scripted([one], "lint", "--schema", "schema.json", "old.cedar", SCRIPTED_REAL=""))
        for title, one in (("of many runs", STATUSES["another version"]), ("of many runs", STATUSES["no memory"])):
            one = {**one, "words": ["log"]}
            self.tell(
                title,
                self.scripted([one], "lint", "--schema", "schema.json", "old.cedar", "--jobs", "2", SCRIPTED_REAL=""),
            )
        self.expect("troubles-statuses.txt", self.told)

    def test_programs(self) -> None:
        self.file("empty", "")
        for name in ("nowhere", "empty"):
            self.tell(name, self.vutselqi("lint", "--schema", "schema.json", "--program", name, "old.cedar"))
        self.file("script", "#!/nowhere/sh\n")
        (self.folder / "script").chmod(0o755)
        self.tell("script", self.vutselqi("lint", "--schema", "schema.json", "--program", "./script", "old.cedar"))
        told = self.told.replace(str(self.folder.resolve()), "FOLDER")
        self.expect("troubles-programs.txt", re.sub(r"\(os error.*\)", "", told))

    def test_no_program(self) -> None:
        shutil.copytree(FRONT / "vutselqi", self.folder / "vutselqi")
        run = self.process(
            "lint", "--schema", "schema.json", "old.cedar", CEDAR_SYMCC="", PATH="/nowhere", PYTHONPATH=str(self.folder)
        )
        self.tell("no program", run)
        self.expect("troubles-no-program.txt", self.told)

    @needs_program
    def test_forms(self) -> None:
        self.file("bad.cedar", FAULTS["an operator too many"])
        for form in ("json", "sarif", "github"):
            run = self.vutselqi("compare", "--schema", "schema.json", f"--{form}", "old.cedar", "bad.cedar")
            self.assertEqual((run.status, run.err), (2, ""))
            self.expect(f"trouble.{form}", run.out)
        run = self.vutselqi("compare", "--schema", "schema.json", "--html", "no/page.html", "old.cedar", "new.cedar")
        self.assertEqual((run.status, run.out), (2, ""))
        self.assertIn("no/page.html couldn't be written: No such file or directory", run.err)

    def test_words(self) -> None:
        for words in (
            (),
            ("compare",),
            ("lint", "--schema", "s", "--budget", "0", "p"),
            ("lint", "--schema", "s", "--json", "--sarif", "p"),
        ):
            run = self.vutselqi(*words)
            self.assertEqual((run.status, run.out), (2, ""))
            self.assertIn("usage: vutselqi", run.err)
