"""The rules of a policy file: where each begins, whether it permits or forbids, and its `@id`.

In a file that the program has accepted a rule ends at a semicolon outside of strings and comments, and begins with its
annotations and `permit` or `forbid`.
"""

from __future__ import annotations

import re
from dataclasses import dataclass
from typing import Iterator, Optional

from vutselqi.escapes import unescaped
from vutselqi.places import Place, at_rule

EFFECTS = ("permit", "forbid")
TOKEN = re.compile(r'//[^\n\r]*|"(?:[^"\\]|\\.)*"|[^\W\d]\w*|\s+|.', re.S)


@dataclass(frozen=True)
class Rule:
    """A rule by its number, counted from 1, with its text from the character of its `permit` or `forbid` up to `end`.

    `words` are the names and texts that it writes: what it looks at by name is among them.
    """

    number: int
    effect: str
    identity: Optional[str]
    offset: int
    end: int
    words: frozenset[str]

    def place(self, file: str, text: str) -> Place:
        """Where the rule is, in a file of this name and text."""
        return at_rule(file, text, self.offset, self.end)


def rules_of(text: str) -> list[Rule]:
    """The rules of a text, in order."""
    rules: list[Rule] = []
    rule: list[re.Match[str]] = []
    for found in tokens(text):
        if found.group() == ";":
            rules += read_rule(len(rules) + 1, rule)
            rule = []
        else:
            rule.append(found)
    return rules + read_rule(len(rules) + 1, rule)


def read_rule(number: int, found: list[re.Match[str]]) -> list[Rule]:
    """The rule of some tokens, none where they have no `permit` or `forbid` behind the annotations."""
    words = [token.group() for token in found]
    for at, word in enumerate(words):
        if word in EFFECTS and words[at - 1 : at] != ["@"]:
            written = frozenset(map(meant, words[at + 1 :]))
            return [Rule(number, word, identity(words[:at]), found[at].start(), found[-1].end(), written)]
    return []


def tokens(text: str) -> Iterator[re.Match[str]]:
    """The tokens of a text, without white space and comments."""
    for found in TOKEN.finditer(text):
        if not found.group().isspace() and not found.group().startswith("//"):
            yield found


def identity(front: list[str]) -> Optional[str]:
    """The text of `@id("..")` among the tokens in front of a rule."""
    for at in range(len(front) - 3):
        if front[at : at + 3] == ["@", "id", "("] and front[at + 3].startswith('"'):
            return unescaped(front[at + 3][1:-1])
    return None


def meant(token: str) -> str:
    """A token, or what stands in it if it is a string."""
    return unescaped(token[1:-1]) if len(token) > 1 and token.startswith('"') else token
