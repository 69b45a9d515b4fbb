"""Refusals of the program as sentences, with what the page `docs/CODES.md` says of each."""

from __future__ import annotations

import json
import re
from functools import lru_cache
from pathlib import Path
from typing import Optional

from vutselqi.escapes import unescaped
from vutselqi.inputs import Input
from vutselqi.lines import KIND
from vutselqi.places import Place, at_byte, at_character
from vutselqi.pointers import offset_of, steps_of
from vutselqi.program import Answer
from vutselqi.trouble import Trouble

ROW = re.compile(r"\| `(?P<name>\w+)[^`]*` \| (?P<cells>.*) \|")
BULLET = re.compile(r"- (?:`error (?P<code>\d+)[^`]*`|status (?P<status>\d+)[^:]*): (?P<text>.*)")
REFUSAL = re.compile(r"error (?P<status>\d+) (?P<rest>.*)")
OF_POLICY = re.compile(rf"policy(?P<number>\d+) (?:{KIND} )?(?P<name>\w+) at (?P<offset>\d+)")
ROLES = {
    "schema": "the schema",
    "policies": "the policies",
    "against": "the policies to compare with",
    "world": "the world",
    "log": "the log",
}


@lru_cache(maxsize=None)
def meanings() -> dict[tuple[int, str], list[tuple[str, str]]]:
    """By status and name of a fault, '' for the status itself: what it means and what to do, from the page of codes,
    once for each row there that has the name."""
    found: dict[tuple[int, str], list[tuple[str, str]]] = {}
    status = 0
    for line in codes_page().splitlines():
        if line.startswith("## "):
            status = int((re.match(r"## (\d+)", line) or [0, 0])[1])
        row, bullet = ROW.fullmatch(line), BULLET.match(line)
        if row:
            cells = [cell.replace(r"\|", "|").strip() for cell in row["cells"].split(" | ")]
            found.setdefault((status, row["name"]), []).append((cells[0], cells[-1]))
        elif bullet:
            found[int(bullet["code"] or bullet["status"]), ""] = [(bullet["text"].rstrip("."), "")]
    return found


def meaning_of(status: int, name: str = "", number: int = 0) -> tuple[str, str]:
    """What the page says in its row of this number on a fault, or else in its first."""
    rows = meanings().get((status, name)) or [("", "docs/CODES.md has each code")]
    return rows[number if number < len(rows) else 0]


def row_number(name: str, pointer: str, schema: str) -> int:
    """Which row of the page a fault in a schema is: of enumerated types the page has a row on their list, one on an
    item of it, and one on members beside it."""
    steps = steps_of(pointer)
    if name != "BadShape" or len(steps) < 4 or steps[1] != "entityTypes":
        return 0
    if offset_of(schema, "/".join([*pointer.split("/")[:4], "enum"])) is None:
        return 0
    return 3 if steps[3] != "enum" else 1 if len(steps) == 4 else 2


def codes_page() -> str:
    """The page `docs/CODES.md`: beside this module where the package is installed, else in the checkout."""
    here = Path(__file__).resolve().parent
    for page in (here / "CODES.md", here.parents[1] / "docs" / "CODES.md"):
        if page.is_file():
            return page.read_text(encoding="utf-8")
    return ""


def refusal(answer: Answer, inputs: dict[str, Input]) -> Trouble:
    """What to say where the program gives no answer. `inputs` are the files, by the program's words for them."""
    if answer.status < 0:
        return Trouble(f"the program was stopped by signal {-answer.status}", line=answer.command)
    found = REFUSAL.fullmatch(answer.lines[-1]) if answer.lines else None
    if not found or int(found["status"]) != answer.status:
        return unspoken(answer)
    status, rest, line = answer.status, found["rest"], found.group()
    word, _, fault = rest.partition(" ")
    if status == 10:
        return Trouble("the program doesn't know this command: it is another version than this front is for", line=line)
    if status in (11, 13) and word in inputs:
        return of_policies(status, inputs[word], fault, line)
    if status in (12, 17):
        return of_json(status, inputs["schema" if status == 12 else "world"], rest, line)
    if status in (20, 22):
        return of_file(status, word, inputs.get(word), line)
    if status == 16:
        return Trouble(f"the schema has no such kind of request: {rest}", line=line)
    if status == 18:
        return Trouble(f"the templates can be linked in too many ways: {rest}", line=line)
    return Trouble(f"the program refuses: {rest}", advice="docs/CODES.md has each code", line=line)


def unspoken(answer: Answer) -> Trouble:
    """A status without a line of its own."""
    meaning, _ = meaning_of(answer.status)
    if answer.status in (21, 30) and meaning:
        return Trouble(f"the program ended with status {answer.status}: {meaning}", line=answer.command)
    if answer.status in (126, 127):
        return Trouble("the program couldn't be run", line=answer.command)
    return Trouble(f"the program ended with status {answer.status} and no line that says why", line=answer.command)


def explained(status: int, name: str, number: int = 0) -> tuple[str, str]:
    """A fault with what it means, and what to do about it, by the page's row of this number on it."""
    meaning, advice = meaning_of(status, name, number)
    return (f"{name}: {meaning}" if meaning else name), advice


def of_policies(status: int, file: Input, fault: str, line: str) -> Trouble:
    """A fault in a file of policies: of its text, or of a policy's names and types."""
    found = OF_POLICY.fullmatch(fault)
    if not found:
        name, _, offset = fault.partition(" at ")
        sentence, advice = explained(status, name)
        return in_file(
            file, at_byte(file.source, file.content, int(offset)) if offset.isdigit() else None, sentence, advice, line
        )
    sentence, advice = explained(status, found["name"])
    number, rules = int(found["number"]), file.rules
    identity = f" (`{rules[number].identity}`)" if number < len(rules) and rules[number].identity is not None else ""
    where = f", in requests {found['kind'][4:]}" if found["kind"] else ""
    place = at_byte(file.source, file.content, int(found["offset"]))
    return in_file(file, place, f"{sentence}; in rule {number + 1}{identity}{where}", advice, line)


def of_json(status: int, file: Input, fault: str, line: str) -> Trouble:
    """A fault in a schema or a world, at a place that a JSON pointer leads to, or else of a type or an action."""
    name, _, where = fault.partition(" at ")
    sentence, advice = explained(status, name, row_number(name, unescaped(where), file.text))
    if name == "NotJson":
        return in_file(file, json_stop(file), sentence, advice, line)
    offset = offset_of(file.text, unescaped(where)) if where.startswith("/") or fault.endswith(" at ") else None
    place = None if offset is None else at_character(file.source, file.text, offset)
    return in_file(file, place, f"{sentence}; at {where}" if where else sentence, advice, line)


def in_file(file: Input, place: Optional[Place], sentence: str, advice: str, line: str) -> Trouble:
    """A fault at a place in a file, or of the whole file."""
    return Trouble(sentence if place else f"{file.source}: {sentence}", place, advice, line)


def json_stop(file: Input) -> Optional[Place]:
    """Where Python's own reader of JSON stops in a text that is none."""
    try:
        json.loads(file.text)
    except json.JSONDecodeError as error:
        return at_character(file.source, file.text, error.pos)
    except (RecursionError, ValueError):
        pass
    return None


def of_file(status: int, word: str, file: Optional[Input], line: str) -> Trouble:
    """A file that can't be read, or is too long."""
    role = ROLES.get(word, word)
    if status == 22:
        name = f"{file.name} ({role})" if file else role
        return Trouble(f"{name} is too long: {meaning_of(22)[0]}", line=line)
    name = f"{role}, {file.name}," if file else role
    reason = f": {file.fault}" if file and file.fault else ""
    return Trouble(f"{name} couldn't be read{reason}", advice="check that the file is there and readable", line=line)
