"""Rare answers, over a program that gives them: budgets that don't suffice, rules that do nothing, templates."""

from __future__ import annotations

import json

from tests.support import FrontTest, answer, needs_program, write_blocks

ENV = 'env User Action::"view" Doc'
LINKED = f"{ENV} link ?principal User ?resource Doc"
FORWARD, BACK = "--policies=new.cedar --query=implies", "--policies=old.cedar --query=implies"
WORLD = (
    '{"entities":[{"attrs":{},"parents":[],"tags":{},"uid":{"id":"view","type":"Action"}},'
    '{"attrs":{},"parents":[],"tags":{},"uid":{"id":"0","type":"Doc"}},'
    '{"attrs":{},"parents":[],"tags":{},"uid":{"id":"0","type":"User"}}],'
    '%s"request":{"action":{"id":"view","type":"Action"},"context":{"managed":false,"mfa":true},'
    '"principal":{"id":"0","type":"User"},"resource":{"id":"0","type":"Doc"}}}'
)
PLAIN, WITH_LINK = WORLD % "", WORLD % '"link":{"?principal":{"id":"0","type":"User"}},'
OVERFLOW = ["world well-formed", "policy0 errs Overflow", "policy1 not satisfied", "decision Deny"]
NOTHING = answer("reduce", 10, "error 10 usage")


class Scripted(FrontTest):
    """Runs over a program that answers as the test says."""

    def setUp(self) -> None:
        super().setUp()
        write_blocks(self.folder)

    def compare(self, answers: list, *words: str) -> dict:
        """What `compare` says of the first kind of request, with the status."""
        run = self.scripted(
            answers, "compare", "--schema", "schema.json", "--json", *words, "old.cedar", "new.cedar", SCRIPTED_REAL=""
        )
        self.assertEqual(run.err, "")
        tree = json.loads(run.out)
        return {**tree["kinds"][0], "status": run.status, "summary": tree["summary"]}

    def test_budgets_rise(self) -> None:
        answers = [
            answer(f"analyse {FORWARD} --budget=10000", 2, f"{ENV}: unknown after 10000 units"),
            answer(f"log {FORWARD} --budget=100000 --env=0", 2, f"{ENV}: unknown after 100000 units"),
            answer(f"log {FORWARD} --budget=1000000 --env=0", 0, "log 1", "l 7 -3 0 6 7 0"),
            answer(f"analyse {BACK} --budget=10000", 0, f"{ENV}: holds"),
        ]
        for most, status, verdict in (
            ("10000", 2, "undecided"),
            ("500000", 2, "undecided"),
            ("1000000", 0, "same"),
            ("5000000", 0, "same"),
        ):
            answers.append(answer(f"log {FORWARD} --budget=500000 --env=0", 2, f"{ENV}: unknown after 500000 units"))
            found = self.compare(answers, "--budget", most)
            self.assertEqual((found["status"], found["verdict"]), (status, verdict), most)
        found = self.compare(answers, "--budget", "500000")
        self.assertEqual(
            found["findings"][0]["sentence"],
            "Whether requests of this kind get wider is undecided: 500,000 units of work didn't suffice.",
        )
        self.assertIn("--budget 500000 --env 0", found["findings"][0]["lines"][0])

    def test_over_limit(self) -> None:
        answers = [answer(f"analyse {FORWARD}", 0, f"{ENV}: holds"), answer(f"analyse {BACK}", 2, f"{ENV}: over limit")]
        found = self.compare(answers, "--budget", "1000000")
        self.assertEqual((found["status"], found["verdict"]), (2, "undecided"))
        self.assertEqual(
            found["findings"][0]["sentence"],
            "Whether requests of this kind get narrower is undecided: the question is too large.",
        )
        self.assertEqual(self.compare(answers, "--fail-on", "wider")["status"], 0)

    def test_wider_and_open(self) -> None:
        answers = [
            answer(f"analyse {FORWARD}", 1, f"{ENV}: counterexample {WITH_LINK}"),
            answer(f"analyse {BACK}", 2, f"{ENV}: over limit"),
            answer("replay --policies=old.cedar", 0, *OVERFLOW),
            answer(
                "replay --policies=new.cedar",
                0,
                "world well-formed",
                "policy0 satisfied",
                "policy1 not satisfied",
                "decision Allow",
            ),
        ]
        found = self.compare(answers)
        self.assertEqual(
            (found["status"], found["verdict"], found["summary"]), (1, "wider", "1 kind of request: 1 wider.")
        )
        sentence = found["findings"][0]["sentence"]
        self.assertIn(
            "where ?principal stands for User 0: new rule 1 (line 1) permits; "
            "before, no rule did, and old rule 1 (line 1) erred",
            sentence,
        )
        self.assertIn("undecided", found["findings"][1]["sentence"])

    def test_a_world_that_cannot_be_replayed(self) -> None:
        answers = [
            answer(f"analyse {FORWARD}", 0, f"{ENV}: holds"),
            answer(f"analyse {BACK}", 1, f"{ENV}: counterexample {PLAIN}"),
            answer("replay", 17, "error 17 BadWorld at /request/context"),
        ]
        sentence = self.compare(answers)["findings"][0]["sentence"]
        self.assertRegex(sentence, r"^User 0 may no longer view Doc 0, .*\. The world can't be replayed: BadWorld: ")

    def test_a_replay_that_says_otherwise(self) -> None:
        answers = [
            answer(f"analyse {FORWARD}", 1, f"{ENV}: counterexample {PLAIN}"),
            answer(f"analyse {BACK}", 0, f"{ENV}: holds"),
            answer("replay", 0, "world well-formed", "policy0 satisfied", "decision Allow"),
        ]
        run = self.scripted(answers, "compare", "--schema", "schema.json", "old.cedar", "new.cedar", SCRIPTED_REAL="")
        self.assertEqual(run.status, 2)
        self.assertIn("the replay of a printed world doesn't decide as the program says", run.err)

    def test_no_kinds(self) -> None:
        run = self.scripted(
            [answer("analyse", 0, "no environments")], "compare", "--schema", "schema.json", "old.cedar", "new.cedar"
        )
        self.assertEqual((run.status, run.out), (0, "The schema has no kinds of request.\n"))

    def test_links_with_jobs(self) -> None:
        answers = [
            answer("log --env=4294967295", 16, "error 16 environment 4294967295 of 2"),
            answer("analyse --query=always-denies", 0, f"{ENV}: holds"),
            answer(
                "analyse --budget=1",
                2,
                f"{LINKED}: unknown after 1 units",
                f"{ENV} link ?principal User ?resource User: holds",
            ),
            answer("log --env=0", 0, "log 1"),
            answer("log --env=1", 0, "log 1"),
        ]
        run = self.scripted(answers, "compare", "--schema", "schema.json", "--jobs", "2", "old.cedar", "new.cedar")
        front = 'User Action::"view" Doc link ?principal User ?resource'
        self.assertEqual(run.out, f"{front} Doc: same\n{front} User: same\n2 kinds of request: 2 same.\n")

    @needs_program
    def test_reduce(self) -> None:
        self.file(
            "many.cedar",
            '@id("a")\npermit(principal, action, resource) when { context.mfa };\n' * 3
            + "permit(principal, action, resource);\n",
        )
        fates = (
            "policy0 dropped",
            f"policy1 kept {ENV} {PLAIN}",
            f"policy2 unproved {ENV} after 10000 units",
            f"policy3 over limit {ENV}",
        )
        later = (*fates[:2], "policy2 dropped", fates[3])
        answers = [answer("reduce --budget=10000", 2, *fates), answer("reduce --budget=100000", 2, *later)]
        for most, name in (("10000", "lint-reduce-open.txt"), ("100000", "lint-reduce.txt")):
            run = self.scripted(answers, "lint", "--schema", "schema.json", "--budget", most, "many.cedar")
            self.expect(name, run.out)
            self.assertEqual((run.status, run.err), (1, ""))

    @needs_program
    def test_nothing_and_everything(self) -> None:
        for text, name in (
            ("forbid(principal, action, resource);", "nothing"),
            ("permit(principal, action, resource);", "everything"),
        ):
            run = self.scripted([NOTHING], "lint", "--schema", "schema.json", self.file("one.cedar", text))
            self.expect(f"lint-{name}.txt", run.out)
            self.assertEqual((run.status, run.err), (1, ""))

    def test_lint_is_open(self) -> None:
        answers = [
            answer("analyse --query=never-errors", 2, f"{ENV}: over limit"),
            answer("analyse --query=always-denies", 2, f"{ENV}: over limit"),
            answer("analyse --query=always-allows", 1, f"{ENV}: counterexample {PLAIN}"),
            NOTHING,
        ]
        run = self.scripted(answers, "lint", "--schema", "schema.json", "old.cedar", SCRIPTED_REAL="")
        self.expect("lint-open.txt", run.out)
        self.assertEqual((run.status, run.err), (2, ""))

    @needs_program
    def test_worlds_of_lines(self) -> None:
        lines = (f"{LINKED}: counterexample {PLAIN}", f"policy12 kept {ENV} {PLAIN}", f"\n {PLAIN}\n\n")
        for line in lines:
            words = ("--schema", "schema.json", "--policies", "old.cedar", self.file("line", line))
            run = self.vutselqi("explain", *words)
            self.assertEqual((run.status, run.err), (0, ""), line)
            self.assertTrue(
                run.out.startswith("    User 0 asks to view Doc 0: denied, since no rule permits it.\n"), run.out
            )

    def test_worlds_that_are_not_well_formed(self) -> None:
        for fault in ("request", 'entity User::"0"', 'missing Doc::"0"'):
            lines = [f"world not well-formed: {fault}", "policy0 satisfied", "decision Allow"]
            run = self.scripted(
                [answer("replay", 3, *lines)],
                "explain",
                "--schema",
                "schema.json",
                "--policies",
                "old.cedar",
                "world.json",
                SCRIPTED_REAL="",
            )
            self.assertEqual(run.status, 1)
            self.assertIn("The world isn't well-formed: ", run.out)
