"""Stands for the proved program: answers some commands as a JSON file says, and hands all others to the program.

The variable SCRIPTED names the file, SCRIPTED_REAL the program. The file is a list of answers, {"words": [..],
"status": N, "lines": [..]}; the first whose words are all among those of the command answers. A file is a word by its
last name: `--schema=schema.json`. A status below 0 is a signal.
"""

import json
import os
import sys
from pathlib import Path

words = set()
for word in sys.argv[1:]:
    name, equals, value = word.partition("=")
    words.add(f"{name}={os.path.basename(value)}" if equals else word)
for answer in json.loads(Path(os.environ["SCRIPTED"]).read_text(encoding="utf-8")):
    if words.issuperset(answer["words"]):
        sys.stdout.buffer.write("".join(line + "\n" for line in answer["lines"]).encode())
        sys.stdout.flush()
        if answer["status"] < 0:
            os.kill(os.getpid(), -answer["status"])
        sys.exit(answer["status"])
if os.environ.get("SCRIPTED_REAL"):
    os.execv(os.environ["SCRIPTED_REAL"], [os.environ["SCRIPTED_REAL"], *sys.argv[1:]])
print("error 10 usage")
sys.exit(10)
