"""`explain`: one world, and what the rules do in it."""

from __future__ import annotations

from dataclasses import dataclass

from vutselqi.inputs import Input, Workspace
from vutselqi.program import Program
from vutselqi.replays import Replayed, deciding, replay, rule_text, rules_text, words_in
from vutselqi.report import NOTE, WARNING, Finding, Report
from vutselqi.words import Words
from vutselqi.worlds import World, read_world


@dataclass(frozen=True)
class Explanation:
    """A world over a schema and policies."""

    program: Program
    workspace: Workspace
    schema: Input
    policies: Input
    world: Input

    def report(self) -> Report:
        """Replays the world, and tells all that is in it."""
        replayed = replay(self.program, self.workspace, self.schema, self.policies, self.world)
        world = read_world(self.world.text)
        words = Words(world)
        sentence = f"{Words(world, words_in(deciding(replayed))).request('asks to')}: {decision(replayed)}."
        context = [f"context: {', '.join(words.pairs(world.context))}"] if world.context else []
        details = [*fault_lines(replayed), *told_entities(world, words), *context, *told_rules(replayed)]
        level = WARNING if replayed.replay.fault else NOTE
        rules = [replayed.rule(standing) for standing in replayed.replay.standings]
        finding = Finding(
            "world", level, sentence, None, details, rules=rules, world=world, lines=replayed.answer.transcript
        )
        finding.place = next((rule.place for rule in deciding(replayed) if rule.place), None)
        title = f"What {self.policies.name} does in {self.world.name}"
        summary = f"Decision: {replayed.replay.decision}."
        return Report("explain", title, others=[finding], summary=summary, status=1 if replayed.replay.fault else 0)


def decision(replayed: Replayed) -> str:
    """What is decided, and by which rules."""
    permits, forbids = replayed.rules("satisfied", "permit"), replayed.rules("satisfied", "forbid")
    if forbids:
        return "denied, since " + rules_text(forbids, "", "forbids it", "forbid it")
    if permits:
        return "allowed, since " + rules_text(permits, "", "permits it", "permit it")
    return "denied, since no rule permits it"


def fault_lines(replayed: Replayed) -> list[str]:
    """What keeps the world from being well-formed."""
    fault = replayed.replay.fault
    what, _, uid = fault.partition(" ")
    reasons = {
        "request": "its request is of no kind that the schema lists, names no choice, or has another context",
        "entity": f"entity {uid} isn't as the schema declares it",
        "missing": f"{uid} isn't stored",
    }
    return [f"The world isn't well-formed: {reasons.get(what, fault)}."] if fault else []


def told_entities(world: World, words: Words) -> list[str]:
    """A line on each entity that is no action, with all that it is in, its attributes and tags."""
    uids = [uid for uid in world.entities if not world.is_action(uid)]
    return [": ".join(filter(None, [words.uid(uid), ", ".join(words.facts(uid))])) for uid in uids]


def told_rules(replayed: Replayed) -> list[str]:
    """A line on each rule: whether it applies."""
    applies = {"satisfied": "applies", "not satisfied": "doesn't apply"}
    lines = []
    for standing in replayed.replay.standings:
        rule = replayed.rule(standing)
        does = applies.get(standing.says, f"errs ({standing.error})")
        lines.append(f"Rule {rule_text(rule)}: {rule.effect}, {does}".replace(": ,", ":"))
    return lines
