"""The proved program: where it is, and what it answers."""

from __future__ import annotations

import os
import shlex
import shutil
import subprocess
from dataclasses import dataclass, field
from pathlib import Path
from typing import Callable, Optional, Union

from vutselqi.escapes import shell_word
from vutselqi.inputs import Input
from vutselqi.trouble import Trouble

GATE = Path("crates/cedar_symcc/out/cedar_symcc")
Option = Union[Input, str, int]


def find(given: Optional[str]) -> Path:
    """The program that is named, or else that of the variable CEDAR_SYMCC, of the path, or of the checkout's gate."""
    for source, name in (("--program", given), ("the variable CEDAR_SYMCC", os.environ.get("CEDAR_SYMCC"))):
        if name:
            return named(source, name)
    on_path = shutil.which("cedar_symcc")
    if on_path:
        return Path(on_path).resolve()
    built = Path(__file__).resolve().parents[2] / GATE
    if os.access(built, os.X_OK) and built.is_file():
        return built
    raise Trouble(
        "the proved program cedar_symcc isn't here: neither --program nor the variable CEDAR_SYMCC names it, "
        f"it isn't on the path, and the checkout has none at {GATE}",
        advice="build it by `rt ci` at the top of the repository, or say where it is by --program FILE",
    )


def named(source: str, name: str) -> Path:
    """The program that somebody named."""
    path = Path(shutil.which(name) or name)
    if not path.is_file():
        raise Trouble(f"{source} names {name}, and no such file is there", advice="name the program cedar_symcc")
    if not os.access(path, os.X_OK):
        raise Trouble(f"{source} names {name}, which can't be run", advice=f"chmod +x {shlex.quote(name)}")
    return path.resolve()


@dataclass
class Answer:
    """What the program was asked, in words that can be run again, its status, and the lines that it wrote."""

    words: list[str]
    status: int
    lines: list[str] = field(default_factory=list)

    @property
    def first(self) -> str:
        """The first line, '' where there is none."""
        return self.lines[0] if self.lines else ""

    @property
    def command(self) -> str:
        """The command, quoted for a shell."""
        return "$ " + " ".join(map(shell_word, self.words))

    @property
    def transcript(self) -> list[str]:
        """The command and the lines."""
        return [self.command, *self.lines]


def words_of(program: str, command: str, options: dict[str, Option], is_shown: bool) -> list[str]:
    """The words of a command: with the user's names of files, to be shown, or with those that the program reads."""
    words = [program, command]
    for name, value in options.items():
        text = str(value)
        if isinstance(value, Input):
            text = value.shown if is_shown else str(value.path)
        words += [f"--{name}", text] if is_shown and not text.startswith("-") else [f"--{name}={text}"]
    return words


class Program:
    """Runs the program, and never a shell."""

    def __init__(self, path: Path) -> None:
        self.path = path

    def ask(
        self,
        command: str,
        options: dict[str, Option],
        each: Optional[Callable[[str], None]] = None,
        at_most: Optional[int] = None,
    ) -> Answer:
        """Asks one question. `each` sees each line as it comes; of more lines than `at_most` the rest isn't kept."""
        answer = Answer(words_of("cedar_symcc", command, options, True), 0)
        words = words_of(str(self.path), command, options, False)
        try:
            process = subprocess.Popen(words, stdin=subprocess.DEVNULL, stdout=subprocess.PIPE)
        except OSError as error:
            raise Trouble(
                f"{self.path} can't be run: {error.strerror}", advice="is it built for this machine?"
            ) from error
        with process:
            for line in process.stdout or ():
                text = line.decode("utf-8", "replace").rstrip("\n")
                if at_most is None or len(answer.lines) < at_most:
                    answer.lines.append(text)
                if each:
                    each(text)
        answer.status = process.returncode
        return answer
