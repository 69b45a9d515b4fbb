"""Records what the proved program answers about some policy sets: `python3 -m tests.record` in the folder `front`.

The words that are expected of `vutselqi` are about these answers, since another of several counterexamples may be
printed some day.
"""

from __future__ import annotations

import json
import subprocess
import tempfile
from pathlib import Path

from tests.support import EXAMPLES, PROGRAM, RECORDED, SETS, write_blocks

QUESTIONS = (
    ("implies", "new", "old", ["--policies=new.cedar", "--query=implies"]),
    ("implies", "old", "new", ["--policies=old.cedar", "--query=implies"]),
    ("never-errors", "old", "", ["--query=never-errors"]),
)


def record(name: str, folder: Path, files: dict[str, str]) -> None:
    """Records the answers about one set."""
    answers = []
    for query, policies, against, words in QUESTIONS:
        command = [
            str(PROGRAM),
            "analyse",
            "--schema",
            files["schema"],
            "--policies",
            files[policies],
            "--query",
            query,
            "--budget",
            "10000",
        ]
        command += ["--against", files[against]] if against else []
        run = subprocess.run(command, cwd=folder, capture_output=True, text=True, check=False)
        answers.append({"words": ["analyse", *words], "status": run.returncode, "lines": run.stdout.splitlines()})
    answers.append({"words": ["reduce"], "status": 10, "lines": ["error 10 usage"]})
    (RECORDED / f"{name}.json").write_text(json.dumps(answers, indent=1) + "\n", encoding="utf-8")


def main() -> None:
    """Records all sets, and the second example of the README."""
    for name in SETS:
        record(name, EXAMPLES / name, {"schema": "schema.json", "old": "v1.cedar", "new": "v3.cedar"})
    with tempfile.TemporaryDirectory() as folder:
        write_blocks(Path(folder))
        record("team", Path(folder), {"schema": "team.json", "old": "team-old.cedar", "new": "team-new.cedar"})


if __name__ == "__main__":
    main()
