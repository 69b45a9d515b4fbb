"""Worlds as pictures, which Graphviz's `dot` draws where it is installed."""

from __future__ import annotations

import re
import shutil
import subprocess
from typing import Optional

from vutselqi.escapes import plain
from vutselqi.words import Words
from vutselqi.worlds import Uid, World, nearest, uids_in

ROOM = 48  # characters of a label's line
FRONT = re.compile(r"\A.*?(?=<svg\b)", re.S)
SIZE = re.compile(r'<svg (width="[^"]*") height="[^"]*"')
NAME = re.compile(r'(?<=[\w"]) id="[^"]*"(?=[^<>]*>)')
NO_DOT = "Graphviz's `dot` isn't installed: there are no pictures."


def can_draw() -> bool:
    """Whether `dot` is installed."""
    return shutil.which("dot") is not None


def svg_of(world: World, is_whole: bool) -> Optional[str]:
    """The world, whole or as far as the request leads, as an SVG element; None where `dot` doesn't draw it."""
    if not can_draw():
        return None
    graph = graph_of(world, is_whole).encode("utf-8", "replace")
    run = subprocess.run(["dot", "-Tsvg"], input=graph, capture_output=True, check=False)
    text = run.stdout.decode("utf-8", "replace")
    if run.returncode or "<svg" not in text:
        return None
    return SIZE.sub(
        r'<svg role="img" \1 style="max-width:100%;height:auto"', NAME.sub("", FRONT.sub("", text)), count=1
    )


def graph_of(world: World, is_whole: bool) -> str:
    """The world in dot's language: entities, what each is in, what attributes lead to, and who asks what of whom."""
    words = Words(world)
    reached = words.reached()
    drawn = reached + [uid for uid in world.entities if is_whole and uid not in reached and not world.is_action(uid)]
    names = {uid: f"n{number}" for number, uid in enumerate(drawn)}
    lines = [
        "digraph {",
        '  graph [rankdir=LR, bgcolor="transparent", fontname="Helvetica", nodesep=0.3];',
        '  node [shape=box, style="rounded,filled", fillcolor="#f6f6f2", color="#888888"];',
        '  node [fontname="Helvetica", fontsize=11];',
        '  edge [color="#888888", fontname="Helvetica", fontsize=10, arrowsize=0.7];',
    ]
    for uid in drawn:
        fill = (
            ', fillcolor="#dcebfa"'
            if uid == world.principal
            else ', fillcolor="#fbeed5"'
            if uid == world.resource
            else ""
        )
        lines.append(f"  {names[uid]} [label={label(node_lines(world, words, uid))}{fill}];")
    for uid in drawn:
        entity = world.entity(uid)
        lines += [
            f'  {names[uid]} -> {names[parent]} [style=dashed, label="in"];'
            for parent in nearest(world, entity)
            if parent in names
        ]
        for name, value in (*entity.attrs.items(), *entity.tags.items()):
            ends = dict.fromkeys(end for end in uids_in(value) if end in names)
            lines += [f"  {names[uid]} -> {names[end]} [label={label([name])}];" for end in ends]
    asked = label([world.action.id])
    red = 'color="#b03030", fontcolor="#b03030", penwidth=2'
    lines.append(f"  {names[world.principal]} -> {names[world.resource]} [label={asked}, {red}];")
    lines += context_lines(world, words, names)
    return "\n".join([*lines, "}", ""])


def node_lines(world: World, words: Words, uid: Uid) -> list[str]:
    """An entity's name, its attributes and its tags; what leads to one entity alone is drawn as an arrow."""
    entity = world.entity(uid)
    attributes = {name: value for name, value in entity.attrs.items() if not isinstance(value, Uid)}
    tags = [f"tag {pair}" for pair in words.pairs(entity.tags)]
    return [words.uid(uid), *words.pairs(attributes), *tags]


def context_lines(world: World, words: Words, names: dict[Uid, str]) -> list[str]:
    """A node for the request's context, if there is any."""
    if not world.context:
        return []
    lines = [f'  context [shape=note, style="", label={label(["context", *words.pairs(world.context)])}];']
    ends = dict.fromkeys(end for value in world.context.values() for end in uids_in(value) if end in names)
    return lines + [f"  context -> {names[end]} [style=dotted];" for end in ends]


def label(lines: list[str]) -> str:
    """Lines as a label between quotes: each character stands for itself."""
    cut = (plain(line if len(line) <= ROOM else line[: ROOM - 1] + "…") for line in lines)
    safe = (line.replace("&", "&amp;").replace("\\", "\\\\").replace('"', '\\"') for line in cut)
    return '"' + "\\n".join(safe) + '"'
