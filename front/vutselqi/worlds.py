"""Worlds as the program prints them: a request, and the entities around it."""

from __future__ import annotations

import json
from dataclasses import dataclass
from typing import Any, Iterator, Union


@dataclass(frozen=True, order=True)
class Uid:
    """An entity's type and id."""

    type: str
    id: str


@dataclass(frozen=True)
class Extension:
    """A decimal number or an address: the function that makes it, and its text."""

    function: str
    text: str


Value = Union[bool, int, str, Uid, Extension, list, dict]


@dataclass(frozen=True)
class Entity:
    """A stored entity: its attributes, all that it is in, and its tags."""

    uid: Uid
    attrs: dict[str, Value]
    parents: tuple[Uid, ...]
    tags: dict[str, Value]


@dataclass(frozen=True)
class World:
    """Who asks what of which resource in which context, what a template's slots stand for, and all stored entities."""

    principal: Uid
    action: Uid
    resource: Uid
    context: dict[str, Value]
    link: dict[str, Uid]
    entities: dict[Uid, Entity]
    text: str

    def entity(self, uid: Uid) -> Entity:
        """The entity of this uid; one that isn't stored has nothing."""
        return self.entities.get(uid) or Entity(uid, {}, (), {})

    def is_action(self, uid: Uid) -> bool:
        """Whether the uid is one of an action."""
        return uid == self.action or uid.type == "Action" or uid.type.endswith("::Action")


def read_world(text: str) -> World:
    """Reads a world that the program has printed, or has read itself."""
    tree = json.loads(text)
    request, stored = tree["request"], [read_entity(entity) for entity in tree["entities"]]
    return World(
        read_uid(request["principal"]),
        read_uid(request["action"]),
        read_uid(request["resource"]),
        read_record(request["context"]),
        {slot: read_uid(uid) for slot, uid in (tree.get("link") or request.get("link") or {}).items()},
        {entity.uid: entity for entity in stored},
        text,
    )


def read_uid(tree: dict[str, str]) -> Uid:
    """Reads a uid."""
    return Uid(tree["type"], tree["id"])


def read_entity(tree: dict[str, Any]) -> Entity:
    """Reads an entity."""
    parents = tuple(read_uid(parent) for parent in tree["parents"])
    return Entity(read_uid(tree["uid"]), read_record(tree["attrs"]), parents, read_record(tree.get("tags") or {}))


def read_record(tree: dict[str, Any]) -> dict[str, Value]:
    """Reads attributes."""
    return {name: read_value(value) for name, value in tree.items()}


def read_value(tree: Any) -> Any:
    """Reads a value."""
    if isinstance(tree, list):
        return [read_value(member) for member in tree]
    if not isinstance(tree, dict):
        return tree
    inner = next(iter(tree.values())) if len(tree) == 1 else None
    if "__entity" in tree and isinstance(inner, dict):
        return read_uid(inner)
    if "__extn" in tree and isinstance(inner, dict):
        return Extension(inner["fn"], inner["arg"])
    return read_record(tree)


def uids_in(value: Value) -> Iterator[Uid]:
    """The entities that a value speaks of, in order."""
    if isinstance(value, Uid):
        yield value
    elif isinstance(value, (list, dict)):
        for member in value.values() if isinstance(value, dict) else value:
            yield from uids_in(member)


def nearest(world: World, entity: Entity) -> list[Uid]:
    """What an entity is in, without what it is in by way of another."""
    further = {uid for parent in entity.parents for uid in world.entity(parent).parents}
    return [parent for parent in entity.parents if parent not in further]
