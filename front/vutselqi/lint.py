"""`lint`: rules that can err or do nothing, kinds of request that nothing allows or all of which are allowed."""

from __future__ import annotations

from dataclasses import dataclass

from vutselqi.faults import refusal
from vutselqi.inputs import Input
from vutselqi.lines import COUNTEREXAMPLE, HOLDS, Fate, read_fate
from vutselqi.program import Answer, Option
from vutselqi.questions import Asker, Question, Told, by_kind, files_of, odd, openness, reading
from vutselqi.replays import replay, rule_answer, rule_text, rules_text, words_in
from vutselqi.report import NOTE, WARNING, Finding, Report, Row
from vutselqi.trouble import Trouble
from vutselqi.words import Words, counted, fitting
from vutselqi.worlds import read_world

ERRORS = {"Overflow": "a number leaves the 64 bits that it has"}
NOTHING = "without this and all others named so, every request is decided the same"
NO_REDUCE = "This program has no `reduce`: rules that do nothing aren't looked for."


@dataclass(frozen=True)
class Lint:
    """A set of policies over the asker's schema."""

    asker: Asker
    policies: Input

    def report(self) -> Report:
        """Asks all questions, and says what was found."""
        errs = self.ask("never-errors", "asking which rules can err")
        denied = self.ask("always-denies", "asking what nothing allows")
        allowed = self.ask("always-allows", "asking what is always allowed")
        rows = [self.row(*told) for told in by_kind(errs, denied, allowed)]
        report = Report("lint", f"What is odd in {self.policies.name}", rows)
        self.reduce(report)
        warnings = sum(finding.level == WARNING for finding in report.findings)
        open_ones = sum(finding.code == "undecided" for finding in report.findings)
        report.status = 1 if warnings else 2 if open_ones else 0
        looked_at = f"{counted(len(self.policies.rules), 'rule')}, {counted(len(rows), 'kind')} of request"
        found = [counted(warnings, "warning") if warnings else "nothing odd"]
        found += [f"{counted(open_ones, 'question')} undecided"] if open_ones else []
        report.summary = f"{looked_at}: {', '.join(found)}."
        return report

    def ask(self, name: str, task: str) -> list[Told]:
        """Asks one question of all kinds of request."""
        return self.asker.ask(Question(name, self.policies, None, task))

    def row(self, errs: Told, denied: Told, allowed: Told) -> Row:
        """What is said of one kind of request."""
        findings = [self.error(errs)] if errs.verdict.says == COUNTEREXAMPLE else []
        verdict = "undecided" if denied.verdict.is_open or allowed.verdict.is_open else "depends"
        if denied.verdict.says == HOLDS:
            verdict = "never allowed"
            findings.append(of_kind("nothing-allowed", WARNING, "Nothing allows any request of this kind.", denied))
        elif allowed.verdict.says == HOLDS:
            verdict = "always allowed"
            findings.append(of_kind("everything-allowed", WARNING, "Every request of this kind is allowed.", allowed))
        questions = {"a rule can err": errs, "nothing allows it": denied, "all of it is allowed": allowed}
        for what, told in questions.items():
            if told.verdict.is_open:
                sentence = f"Whether {what} is undecided: {openness(told.verdict)}."
                findings.append(of_kind("undecided", NOTE, sentence, told))
        return Row(errs.verdict.kind, verdict, findings, [*errs.lines, *denied.lines, *allowed.lines])

    def error(self, told: Told) -> Finding:
        """A rule that errs, with the world in which it does."""
        world, named, workspace = read_world(told.verdict.world), self.policies.words, self.asker.workspace
        finding = Finding("may-err", WARNING, "", told.verdict.kind, world=world, lines=list(told.lines))
        try:
            kept = workspace.keep("world.json", "world.json", world.text.encode())
            replayed = replay(self.asker.program, workspace, self.asker.schema, self.policies, kept)
        except Trouble as trouble:
            who = Words(world, named).request("asks to")
            finding.sentence = f"A rule errs where {who}. The world can't be replayed: {trouble.sentence}."
            return finding
        finding.rules = replayed.rules("errs")
        if not finding.rules:
            raise Trouble("the replay of a printed world has no rule that errs", line=told.verdict.line)
        words = fitting(world, words_in(finding.rules), named)
        names = {standing.error for standing in replayed.replay.standings if standing.error}
        reason = "; ".join(f"{name}: {ERRORS[name]}" if name in ERRORS else name for name in sorted(names))
        rules = rules_text(finding.rules, "", "errs", "err").capitalize()
        finding.sentence = f"{rules} ({reason}) where {words.request('asks to')}."
        finding.details = words.besides()
        finding.place = next((rule.place for rule in finding.rules if rule.place), None)
        finding.lines += replayed.answer.transcript
        return finding

    def reduce(self, report: Report) -> None:
        """Asks which rules do nothing, where the program can be asked that."""
        answer, fates = self.reduced()
        if answer.status == 10:
            report.notes.append(NO_REDUCE)
        report.others += [self.fate(fate, answer) for fate in fates if fate.says != "kept"]

    def reduced(self) -> tuple[Answer, list[Fate]]:
        """What the program says of each rule, with budgets that rise while some rule is unproved."""
        for budget in self.asker.budgets:
            options: dict[str, Option] = {"schema": self.asker.schema, "policies": self.policies, "budget": budget}
            self.asker.progress.begin(f"asking which rules do nothing, budget {budget:,}")
            answer = self.asker.program.ask("reduce", options)
            if answer.status == 10:
                return answer, []
            if answer.status not in (0, 2):
                raise refusal(answer, files_of(options))
            with reading():
                fates = [read_fate(line) for line in answer.lines]
            if len(fates) != len(self.policies.rules) or (answer.status == 2) != any(map(is_open, fates)):
                raise odd(answer)
            if all(fate.says != "unproved" for fate in fates):
                break
        return answer, fates

    def fate(self, fate: Fate, answer: Answer) -> Finding:
        """What is said of a rule that does nothing, or of which that isn't known."""
        rule = rule_answer(self.policies, fate.number)
        lines = [answer.command, fate.line]
        if fate.says == "dropped":
            sentence = f"Rule {rule_text(rule)} does nothing: {NOTHING}."
            return Finding("does-nothing", WARNING, sentence, place=rule.place, rules=[rule], lines=lines)
        why = "the budget didn't suffice" if fate.says == "unproved" else "the question is too large"
        sentence = f"Whether rule {rule_text(rule)} does anything is undecided: {why}."
        return Finding("undecided", NOTE, sentence, fate.kind, place=rule.place, rules=[rule], lines=lines)


def is_open(fate: Fate) -> bool:
    """Whether it isn't known what a rule does."""
    return fate.says not in ("kept", "dropped")


def of_kind(code: str, level: str, sentence: str, told: Told) -> Finding:
    """What is found of a kind of request as a whole."""
    return Finding(code, level, sentence, told.verdict.kind, lines=list(told.lines))
