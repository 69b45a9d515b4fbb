"""Asks a question of every kind of request: with budgets that rise, by many processes or many machines."""

from __future__ import annotations

import re
from concurrent.futures import ThreadPoolExecutor
from contextlib import contextmanager
from dataclasses import dataclass
from typing import Iterator, Optional

from vutselqi.faults import refusal
from vutselqi.fleet import Fleet
from vutselqi.inputs import Input, Workspace
from vutselqi.lines import COUNTEREXAMPLE, HOLDS, UNKNOWN, Kind, Unread, Verdict, read_verdict
from vutselqi.program import Answer, Option, Program
from vutselqi.progress import Progress
from vutselqi.trouble import Trouble
from vutselqi.words import counted

FIRST_BUDGET = 10_000
BEHIND_ALL = 4_294_967_295  # the largest number of a kind of request
NONE = "no environments"
COUNT = re.compile(rf"error 16 environment {BEHIND_ALL} of (\d+)")


@dataclass(frozen=True)
class Question:
    """A question of the program, over a set of policies, or two, and what it is called in a few words."""

    name: str
    policies: Input
    against: Optional[Input]
    task: str


@dataclass(frozen=True)
class Told:
    """What is said of a kind of request, and the command and the line that say so."""

    verdict: Verdict
    lines: tuple[str, ...]


def budgets_up_to(most: int) -> list[int]:
    """The budgets that are tried: 10,000, ten times as much, .., the most."""
    budgets, budget = [], FIRST_BUDGET
    while budget < most:
        budgets.append(budget)
        budget *= 10
    return [*budgets, most]


class Asker:
    """Asks the program about one schema."""

    def __init__(
        self,
        program: Program,
        workspace: Workspace,
        schema: Input,
        budget: int,
        jobs: int,
        progress: Progress,
        fleet: Optional[Fleet],
    ) -> None:
        self.program = program
        self.workspace = workspace
        self.schema = schema
        self.budgets = budgets_up_to(budget)
        self.jobs = jobs
        self.progress = progress
        self.fleet = fleet

    def ask(self, question: Question) -> list[Told]:
        """What is said of each kind of request, in their order."""
        self.progress.begin(question.task)
        first, *further = self.budgets
        told = self.together(question, first) if self.jobs == 1 and not self.fleet else self.shared(question, first)
        for budget in further:
            places = [place for place, one in enumerate(told) if one.verdict.says == UNKNOWN]
            if places:
                self.progress.begin(f"{question.task}, budget {budget:,}")
                kinds = [one.verdict.kind for one in told]
                for place, one in self.each(question, places, kinds, budget).items():
                    told[place] = one
        return told

    def options(self, question: Question, further: dict[str, Option]) -> dict[str, Option]:
        """The options of a command that asks the question."""
        options: dict[str, Option] = {"schema": self.schema, "policies": question.policies}
        if question.against:
            options["against"] = question.against
        return {**options, "query": question.name, **further}

    def together(self, question: Question, budget: int) -> list[Told]:
        """Asks about all kinds of request in one run."""

        def tell(line: str) -> None:
            if line.startswith("env "):
                self.tell(read_verdict(line))

        options = self.options(question, {"budget": budget})
        with reading():
            answer = self.program.ask("analyse", options, tell)
            if answer.status not in (0, 1, 2):
                raise refusal(answer, files_of(options))
            told = [Told(read_verdict(line), (answer.command, line)) for line in answer.lines if answer.lines != [NONE]]
        if answer.status != status_of(told) or not answer.lines:
            raise odd(answer)
        return told

    def tell(self, verdict: Verdict) -> None:
        """Tells that a kind of request is answered."""
        self.progress.answered(verdict.kind.text, verdict.says)

    def shared(self, question: Question, budget: int) -> list[Told]:
        """Asks about each kind of request in a run of its own."""
        options = self.options(question, {"budget": 1, "env": BEHIND_ALL})
        answer = self.program.ask("log", options)
        found = COUNT.fullmatch(answer.first)
        if answer.status != 16 or not found:
            raise refusal(answer, files_of(options))
        count = int(found.group(1))
        return list(self.each(question, list(range(count)), self.kinds(question, count), budget).values())

    def kinds(self, question: Question, count: int) -> list[Kind]:
        """The kinds of request: those of the schema, or where templates make more of them those of the question."""
        nothing = self.workspace.keep("/dev/null", "nothing.cedar", b"")
        empty = Question("always-denies", nothing, None, question.task)
        for asked in (empty, question):
            answer = self.program.ask("analyse", self.options(asked, {"budget": 1}))
            lines = [line for line in answer.lines if line.startswith("env ")]
            if len(lines) == count:
                with reading():
                    return [read_verdict(line).kind for line in lines]
        raise Trouble(f"the program lists {len(lines)} kinds of request out of {count}", line=answer.command)

    def each(self, question: Question, places: list[int], kinds: list[Kind], budget: int) -> dict[int, Told]:
        """Asks about the kinds of request at some places, each in a run of its own; the answers are in their order."""
        options = self.options(question, {"budget": budget})

        def told(place: int, answer: Answer) -> Told:
            with reading():
                one = told_of(answer, kinds[place], files_of(options))
            self.tell(one.verdict)
            return one

        def asked(place: int) -> Told:
            return told(place, self.program.ask("log", {**options, "env": place}, at_most=1))

        if self.fleet:
            return dict(zip(places, map(told, places, self.fleet.ask(options, places))))
        with ThreadPoolExecutor(self.jobs) as pool:
            return dict(zip(places, pool.map(asked, places)))


def told_of(answer: Answer, kind: Kind, files: dict[str, Input]) -> Told:
    """What a run of `log` says of a kind of request: where a log was written, it is whole, and the property holds."""
    lines = (answer.command, answer.first)
    if answer.status == 0 and answer.first.startswith("log "):
        return Told(Verdict(kind, HOLDS, "", 0, answer.first), lines)
    if answer.status not in (0, 1, 2):
        raise refusal(answer, files)
    told = Told(read_verdict(answer.first), lines)
    if answer.status == 0 or answer.status != status_of([told]) or told.verdict.kind != kind:
        raise odd(answer)
    return told


def status_of(told: list[Told]) -> int:
    """The status that goes with some answers: 1 where one is a counterexample, else 2 where one is open, else 0."""
    says = [one.verdict for one in told]
    return 1 if any(one.says == COUNTEREXAMPLE for one in says) else 2 if any(one.is_open for one in says) else 0


def openness(verdict: Verdict) -> str:
    """Why a question is open."""
    return f"{counted(verdict.units, 'unit')} of work didn't suffice" if verdict.units else "the question is too large"


def by_kind(*answers: list[Told]) -> list[tuple[Told, ...]]:
    """The answers to several questions, by kind of request."""
    if any([told.verdict.kind for told in one] != [told.verdict.kind for told in answers[0]] for one in answers):
        raise Trouble("the program lists other kinds of request for one question than for another")
    return list(zip(*answers))


def odd(answer: Answer) -> Trouble:
    """What to say of lines that don't go with the status, or with one another."""
    return Trouble(
        f"the program's lines don't go with its status {answer.status}: it is another version, or another program",
        line=answer.command,
    )


def files_of(options: dict[str, Option]) -> dict[str, Input]:
    """The files among the options of a command."""
    return {name: value for name, value in options.items() if isinstance(value, Input)}


@contextmanager
def reading() -> Iterator[None]:
    """Around what reads lines of the program: says so where one has a form that isn't known here."""
    try:
        yield
    except Unread as error:
        raise Trouble(
            "the program writes a line that this front can't read: it is another version", line=str(error)
        ) from error
