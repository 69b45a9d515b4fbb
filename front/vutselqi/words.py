"""Worlds in words.

A sentence tells of the attributes that the rules name which decide; what other rules name is told besides, or in the
sentence too if it is little. An attribute that no rule names can't matter to any rule, and isn't told.
"""

from __future__ import annotations

import re
from typing import Collection, Iterable, Mapping, Optional

from vutselqi.escapes import quoted
from vutselqi.worlds import Entity, Extension, Uid, Value, World, uids_in

SIMPLE = re.compile(r"[\w.@/+-]+")
LITTLE = 2  # attributes that are told in a sentence though no deciding rule names them


def listed(words: Iterable[str]) -> str:
    """`a`, `a and b`, `a, b and c`."""
    words = list(words)
    return " and ".join(words) if len(words) < 3 else ", ".join(words[:-1]) + " and " + words[-1]


def counted(number: int, noun: str, plural: str = "") -> str:
    """`1 rule`, `2 rules`."""
    return f"{number:,} {noun if number == 1 else plural or noun + 's'}"


def fitting(world: World, told: Collection[str], known: Collection[str]) -> "Words":
    """Words that tell all that is known where it is little more than what is to be told."""
    words = Words(world, told, known)
    spare = [
        *words.rest(world.context),
        *(name for uid in {world.principal, world.resource} for name in words.rest(world.entity(uid).attrs)),
    ]
    return Words(world, known) if len(spare) <= LITTLE else words


class Words:
    """Words for one world: `told` are the names of what sentences tell, `known` of all that is told; None is all."""

    def __init__(
        self, world: World, told: Optional[Collection[str]] = None, known: Optional[Collection[str]] = None
    ) -> None:
        self.world = world
        self.names = told
        self.known = told if known is None else known
        self.front = shared_front(world)

    def type(self, name: str) -> str:
        """A type, without the namespace that all types of the world share."""
        return name[len(self.front) :] if name.startswith(self.front) else name

    def uid(self, uid: Uid) -> str:
        """`User 0`, `Doc "a b"`."""
        return f"{self.type(uid.type)} {uid.id if SIMPLE.fullmatch(uid.id) else quoted(uid.id)}"

    def value(self, value: Value) -> str:
        """A value, sets in square brackets, records in braces."""
        if isinstance(value, Uid):
            return self.uid(value)
        if isinstance(value, Extension):
            return value.text if SIMPLE.fullmatch(value.text.replace(":", "")) else quoted(value.text)
        if isinstance(value, list):
            return "[" + ", ".join(map(self.value, value)) + "]"
        if isinstance(value, dict):
            return "{" + ", ".join(f"{name_text(name)}: {self.value(held)}" for name, held in value.items()) + "}"
        return quoted(value) if isinstance(value, str) else str(value).lower()

    def pairs(self, attributes: Mapping[str, Value]) -> list[str]:
        """`size 3`, `title "a"`."""
        return [f"{name_text(name)} {self.value(value)}" for name, value in attributes.items()]

    def phrases(self, entity: Entity, pronoun: str) -> list[str]:
        """What is said of an entity behind its name."""
        phrases, attributes = [], named(entity.attrs, self.names)
        if entity.parents:
            phrases.append(f"{pronoun} is in {listed(map(self.uid, entity.parents))}")
        owner, name = attributes.get("owner"), attributes.get("name")
        if isinstance(owner, Uid):
            phrases.append(f"owned by {self.uid(owner)}")
            del attributes["owner"]
        if isinstance(name, str):
            phrases.append(f"named {quoted(name)}")
            del attributes["name"]
        if attributes:
            phrases.append(f"with {listed(self.pairs(attributes))}")
        if entity.tags:
            phrases.append(f"tagged {listed(self.pairs(entity.tags))}")
        return phrases

    def noun(self, uid: Uid, pronoun: str) -> str:
        """An entity with what is said of it, between commas."""
        return ", ".join([self.uid(uid), *self.phrases(self.world.entity(uid), pronoun)])

    def request(self, verb: str) -> str:
        """Who asks for what: `User 0, who .., may view Doc 0, which ..`, with `may` for a verb."""
        world = self.world
        principal = self.noun(world.principal, "who")
        comma = "," if "," in principal else ""
        action = world.action.id if SIMPLE.fullmatch(world.action.id) else quoted(world.action.id)
        resource = "itself" if world.resource == world.principal else self.noun(world.resource, "which")
        sentence = f"{principal}{comma} {verb} {action} {resource}"
        context = named(world.context, self.names)
        sentence += f", in a context with {listed(self.pairs(context))}" if context else ""
        link = [f"{slot} stands for {self.uid(uid)}" for slot, uid in world.link.items()]
        return sentence + (f", where {listed(link)}" if link else "")

    def besides(self) -> list[str]:
        """A line on what no sentence tells: of the request, and of each entity that it leads to, nearest first."""
        world, lines = self.world, []
        ends = dict.fromkeys([world.principal, world.resource])
        for uid in ends:
            lines += self.line(self.uid(uid) + ", besides", self.pairs(self.rest(world.entity(uid).attrs)))
        lines += self.line("context, besides", self.pairs(self.rest(world.context)))
        for uid in self.reached():
            lines += [] if uid in ends else self.line(self.uid(uid), self.facts(uid))
        return lines

    def reached(self) -> list[Uid]:
        """The entities of the request, and those that these lead to, nearest first; actions aren't among them."""
        world, seen = self.world, []
        met = [world.principal, world.resource, *self.around(world.principal), *self.around(world.resource)]
        met += [*uids_in(named(world.context, self.known)), *world.link.values()]
        while met:
            uid = met.pop(0)
            if uid not in seen and not (world.is_action(uid) and uid not in (world.principal, world.resource)):
                seen.append(uid)
                met += self.around(uid)
        return seen

    def line(self, noun: str, facts: list[str]) -> list[str]:
        """A line of facts, if there is any."""
        return [f"{noun}: {', '.join(facts)}"] if facts else []

    def rest(self, attributes: dict[str, Value]) -> dict[str, Value]:
        """The attributes that no sentence tells."""
        told = named(attributes, self.names)
        return {name: value for name, value in named(attributes, self.known).items() if name not in told}

    def facts(self, uid: Uid) -> list[str]:
        """What an entity is in, and what is known of its attributes and tags."""
        entity = self.world.entity(uid)
        groups = [f"in {listed(map(self.uid, entity.parents))}"] if entity.parents else []
        tags = [f"tag {pair}" for pair in self.pairs(entity.tags)]
        return [*groups, *self.pairs(named(entity.attrs, self.known)), *tags]

    def around(self, uid: Uid) -> list[Uid]:
        """What an entity's attributes and tags lead to, and what it is in."""
        entity = self.world.entity(uid)
        return [*uids_in(named(entity.attrs, self.known)), *uids_in(entity.tags), *entity.parents]


def named(attributes: dict[str, Value], names: Optional[Collection[str]]) -> dict[str, Value]:
    """The attributes of these names, all where none are given."""
    return {name: value for name, value in attributes.items() if names is None or name in names}


def name_text(name: str) -> str:
    """An attribute's name, quoted where it is no plain word."""
    return name if SIMPLE.fullmatch(name) else quoted(name)


def shared_front(world: World) -> str:
    """The namespace, with `::`, that all types of a world share; '' where there is none."""
    types = {uid.type for uid in (*world.entities, world.principal, world.action, world.resource)}
    fronts = {name.rpartition("::")[0] for name in types}
    shared = fronts.pop() if len(fronts) == 1 else ""
    return shared + "::" if shared else ""
