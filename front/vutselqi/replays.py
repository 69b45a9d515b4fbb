"""What rules do in one world, as the program replays it, and as it is said in words."""

from __future__ import annotations

from dataclasses import dataclass

from vutselqi.faults import refusal
from vutselqi.inputs import Input, Workspace
from vutselqi.lines import Replay, Standing, read_replay
from vutselqi.program import Answer, Option, Program
from vutselqi.questions import files_of, reading
from vutselqi.report import RuleAnswer
from vutselqi.words import listed


@dataclass(frozen=True)
class Replayed:
    """A replay of a world over a file of policies."""

    file: Input
    replay: Replay
    answer: Answer

    @property
    def is_allowed(self) -> bool:
        """Whether the request is allowed."""
        return self.replay.decision == "Allow"

    def rules(self, says: str, effect: str = "") -> list[RuleAnswer]:
        """The rules that stand so in the world, of one effect if one is given."""
        found = (self.rule(standing) for standing in self.replay.standings if standing.says == says)
        return [rule for rule in found if not effect or rule.effect == effect]

    def rule(self, standing: Standing) -> RuleAnswer:
        """A rule with how it stands."""
        return rule_answer(self.file, standing.number, f"{standing.says} {standing.error}".strip())


def rule_answer(file: Input, number: int, says: str = "") -> RuleAnswer:
    """A rule of a file by its number from 0, with how it stands."""
    if number >= len(file.rules):
        return RuleAnswer(file.name, number + 1, None, "", None, says)
    rule = file.rules[number]
    place = None if file.translator else rule.place(file.name, file.text)
    return RuleAnswer(file.name, number + 1, rule.identity, rule.effect, place, says, rule.words)


def words_in(rules: list[RuleAnswer]) -> frozenset[str]:
    """The words that some rules write."""
    return frozenset().union(*(rule.words for rule in rules))


def replay(program: Program, workspace: Workspace, schema: Input, policies: Input, world: Input) -> Replayed:
    """Replays a world over a file of policies."""
    options: dict[str, Option] = {"schema": schema, "policies": policies, "world": world}
    answer = program.ask("replay", options)
    if answer.status not in (0, 3):
        raise refusal(answer, files_of(options))
    with reading():
        return Replayed(policies, read_replay(answer.lines), answer)


def deciding(replayed: Replayed) -> list[RuleAnswer]:
    """The rules by which a request is decided: those that forbid, else those that permit."""
    return replayed.rules("satisfied", "forbid") or replayed.rules("satisfied", "permit")


def rule_text(rule: RuleAnswer) -> str:
    """`2 (`drafts`, line 14)`."""
    notes = [f"`{rule.identity}`"] if rule.identity is not None else []
    notes += [f"line {rule.place.line}"] if rule.place else []
    return f"{rule.number} ({', '.join(notes)})" if notes else str(rule.number)


def rules_text(rules: list[RuleAnswer], front: str, one: str, many: str) -> str:
    """`new rule 2 (line 14) permits`, `new rules 2 (line 14) and 3 (line 20) permit`."""
    noun = f"{front} rule".strip() + ("s" if len(rules) > 1 else "")
    return f"{noun} {listed(map(rule_text, rules))} {one if len(rules) == 1 else many}"
