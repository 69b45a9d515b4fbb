"""`compare`: what a change of policies does to each kind of request."""

from __future__ import annotations

from dataclasses import dataclass

from vutselqi.inputs import Input
from vutselqi.lines import COUNTEREXAMPLE, HOLDS, Verdict
from vutselqi.questions import Asker, Question, Told, by_kind, openness
from vutselqi.replays import Replayed, deciding, replay, rules_text, words_in
from vutselqi.report import ERROR, WARNING, Finding, Report, Row
from vutselqi.trouble import Trouble
from vutselqi.words import Words, counted, fitting, listed
from vutselqi.worlds import read_world

WIDER, NARROWER, SAME, UNDECIDED = "wider", "narrower", "same", "undecided"
DIFFERENT = "different"
ORDER = [SAME, WIDER, NARROWER, "wider and narrower", UNDECIDED]


@dataclass(frozen=True)
class Comparison:
    """Two sets of policies over the asker's schema, and which difference is to fail the run."""

    asker: Asker
    old: Input
    new: Input
    fail_on: str

    def report(self) -> Report:
        """Asks `implies` both ways, and says what that means for each kind of request."""
        wider = self.asker.ask(Question("implies", self.new, self.old, "asking what gets wider"))
        narrower = self.asker.ask(Question("implies", self.old, self.new, "asking what gets narrower"))
        rows = [self.row(*told) for told in by_kind(wider, narrower)]
        title = f"What changes from {self.old.name} to {self.new.name}"
        return Report("compare", title, rows, summary=summary_of(rows), status=self.status(wider, narrower))

    def row(self, wider: Told, narrower: Told) -> Row:
        """What is said of one kind of request."""
        findings = [
            self.finding(told, code)
            for told, code in ((wider, WIDER), (narrower, NARROWER))
            if told.verdict.says != HOLDS
        ]
        return Row(
            wider.verdict.kind, verdict_of(wider.verdict, narrower.verdict), findings, [*wider.lines, *narrower.lines]
        )

    def finding(self, told: Told, code: str) -> Finding:
        """A difference with its example, or what is open."""
        if told.verdict.says == COUNTEREXAMPLE:
            return self.difference(told, code)
        level = ERROR if self.fail_on in (code, DIFFERENT) else WARNING
        sentence = f"Whether requests of this kind get {code} is undecided: {openness(told.verdict)}."
        return Finding(UNDECIDED, level, sentence, told.verdict.kind, lines=list(told.lines))

    def difference(self, told: Told, code: str) -> Finding:
        """A difference with its example in words: the world that the program printed, replayed over both sets."""
        level = ERROR if self.fail_on in (code, DIFFERENT) else WARNING
        world, named = read_world(told.verdict.world), self.old.words | self.new.words
        finding = Finding(code, level, "", told.verdict.kind, world=world, lines=list(told.lines))
        verb = "may" if code == WIDER else "may no longer"
        try:
            old, new = self.replayed(self.old, world.text), self.replayed(self.new, world.text)
        except Trouble as trouble:
            finding.sentence = f"{Words(world, named).request(verb)}. The world can't be replayed: {trouble.sentence}."
            return finding
        if old.is_allowed != (code == NARROWER) or new.is_allowed != (code == WIDER):
            raise Trouble("the replay of a printed world doesn't decide as the program says", line=told.verdict.line)
        finding.rules = [*deciding(new), *deciding(old)]
        words = fitting(world, words_in(finding.rules), named)
        finding.sentence = f"{words.request(verb)}: {widened(old, new) if code == WIDER else narrowed(old, new)}."
        finding.details = words.besides()
        finding.place = next((rule.place for rule in finding.rules if rule.place), None)
        finding.lines += [*old.answer.transcript, *new.answer.transcript]
        return finding

    def replayed(self, policies: Input, world: str) -> Replayed:
        """Replays a printed world over one of the sets."""
        workspace = self.asker.workspace
        kept = workspace.keep("world.json", "world.json", world.encode())
        return replay(self.asker.program, workspace, self.asker.schema, policies, kept)

    def status(self, wider: list[Told], narrower: list[Told]) -> int:
        """As for `diff`: 0 where nothing differs that is looked for, 1 where it does, 2 where that isn't known."""
        looked_for = (wider if self.fail_on != NARROWER else []) + (narrower if self.fail_on != WIDER else [])
        if any(told.verdict.says == COUNTEREXAMPLE for told in looked_for):
            return 1
        return 2 if any(told.verdict.is_open for told in looked_for) else 0


def verdict_of(wider: Verdict, narrower: Verdict) -> str:
    """What both answers mean together."""
    found = [word for word, verdict in ((WIDER, wider), (NARROWER, narrower)) if verdict.says == COUNTEREXAMPLE]
    if found:
        return " and ".join(found)
    return SAME if wider.says == narrower.says == HOLDS else UNDECIDED


def widened(old: Replayed, new: Replayed) -> str:
    """Which rules allow now, and why none did before."""
    forbids, errs = old.rules("satisfied", "forbid"), old.rules("errs")
    before = rules_text(forbids, "old", "forbade it", "forbade it") if forbids else "no rule did"
    before += f", and {rules_text(errs, 'old', 'erred', 'erred')}" if errs else ""
    return f"{rules_text(new.rules('satisfied', 'permit'), 'new', 'permits', 'permit')}; before, {before}"


def narrowed(old: Replayed, new: Replayed) -> str:
    """Which rules allowed before, and why none does now."""
    forbids, errs = new.rules("satisfied", "forbid"), new.rules("errs")
    now = rules_text(forbids, "new", "forbids it", "forbid it") if forbids else "no rule does"
    now += f", and {rules_text(errs, 'new', 'errs', 'err')}" if errs else ""
    return f"before, {rules_text(old.rules('satisfied', 'permit'), 'old', 'permitted', 'permitted')}; now {now}"


def summary_of(rows: list[Row]) -> str:
    """How many kinds of request there are of each verdict."""
    if not rows:
        return "The schema has no kinds of request."
    counts = {verdict: sum(row.verdict == verdict for row in rows) for verdict in ORDER}
    parts = listed(f"{count} {verdict}" for verdict, count in counts.items() if count)
    return f"{counted(len(rows), 'kind')} of request: {parts}."
