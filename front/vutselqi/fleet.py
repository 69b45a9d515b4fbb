"""Many machines, by GNU parallel, which sends the program and the files to each by ssh, and brings the answers."""

from __future__ import annotations

import os
import shlex
import shutil
import subprocess
import tempfile
from pathlib import Path

from vutselqi.inputs import Input
from vutselqi.program import Answer, Option, Program, words_of
from vutselqi.trouble import Trouble
from vutselqi.words import counted

SCRIPT = """\
# Asks about the kind of request at place $1; writes the place, the status and the first line.
{command} --env="$1" > "answer.$1"
status=$?
printf '%s %s %s\\n' "$1" "$status" "$(head -n 1 "answer.$1")"
rm -f "answer.$1"
"""


class Fleet:
    """Hosts as GNU parallel's `--sshloginfile` lists them, a line a host."""

    def __init__(self, program: Program, hosts: str, jobs: int) -> None:
        if not shutil.which("parallel"):
            raise Trouble(
                "--hosts needs GNU parallel, and the command `parallel` isn't installed",
                advice="install it, or leave --hosts out",
            )
        if not os.path.isfile(hosts):
            raise Trouble(f"the file of hosts, {hosts}, isn't there", advice="write a file with a line for each host")
        self.hosts = os.path.abspath(hosts)
        with open(hosts, encoding="utf-8", errors="replace") as file:
            lines = [line.strip() for line in file]
        self.is_remote = any(line and not line.startswith("#") and not line.endswith(":") for line in lines)
        self.jobs = jobs
        self.program = program.path

    def ask(self, options: dict[str, Option], places: list[int]) -> list[Answer]:
        """Asks about the kinds of request at some places. Each host works on copies, in a folder of the same name."""
        with tempfile.TemporaryDirectory(prefix="vutselqi-hosts-") as name:
            files = self.stage(options, Path(name))
            words = [
                "parallel",
                "--plain",
                "--will-cite",
                "--keep-order",
                "--sshloginfile",
                self.hosts,
                "--workdir",
                name,
            ]
            words += ["--jobs", str(self.jobs)] if self.jobs > 1 else []
            words += ["--cleanup"] if self.is_remote else []
            words += [word for file in files for word in ("--basefile", file)]
            words += ["sh", "ask.sh", "{}", ":::", *map(str, places)]
            run = subprocess.run(words, cwd=name, stdin=subprocess.DEVNULL, capture_output=True, check=False)
        found = self.answers(options, run.stdout.decode("utf-8", "replace"))
        missing = [place for place in places if place not in found]
        if missing:
            said = run.stderr.decode("utf-8", "replace").strip() or f"status {run.returncode}"
            raise Trouble(
                f"GNU parallel brought no answer for {counted(len(missing), 'kind')} of request: {said}",
                line=shlex.join(words),
            )
        return [found[place] for place in places]

    def stage(self, options: dict[str, Option], folder: Path) -> list[str]:
        """Copies the program, the files and the script that runs on a host into a folder; returns their names."""
        inputs = [value.path for value in options.values() if isinstance(value, Input)]
        for path in (self.program, *inputs):
            if path.is_file():
                shutil.copy(path, folder / (path.name if path in inputs else "cedar_symcc"))
        named: dict[str, Option] = dict(options)
        named.update((name, value.path.name) for name, value in options.items() if isinstance(value, Input))
        command = shlex.join(words_of("./cedar_symcc", "log", named, False))
        (folder / "ask.sh").write_text(SCRIPT.format(command=command), encoding="utf-8")
        return [path.name for path in folder.iterdir()]

    def answers(self, options: dict[str, Option], text: str) -> dict[int, Answer]:
        """Reads back what the hosts wrote."""
        found = {}
        for line in text.split("\n"):
            place, _, rest = line.partition(" ")
            status, _, first = rest.partition(" ")
            if place.isdigit() and status.isdigit():
                words = words_of("cedar_symcc", "log", {**options, "env": int(place)}, True)
                found[int(place)] = Answer(words, int(status), [first] if first else [])
        return found
