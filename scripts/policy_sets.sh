#!/bin/sh
# Asks each question that is written in the answers.txt of each policy set in a folder, and compares what is said of every kind of request:
# `holds`, or `counterexample`. Prints for each question the seconds, the status and how many lines are as they are written; a line that
# isn't is printed, with the one that was wanted. Then reduces each version of each set, and prints the places of the policies that are dropped; each
# policy that stays has to do so by a world. A run is stopped after 120 seconds (status 124).
# usage: scripts/policy_sets.sh [PROGRAM [FOLDER [BUDGET]]]      the folder is `examples`, if none is given
set -u
cd "$(dirname "$0")/.." || exit 2
program=${1:-crates/cedar_symcc/out/cedar_symcc}
folder=${2:-examples}
budget=${3:-10000}
[ -x "$program" ] || { echo "no program at $program: rt ci at the top of the repository builds it"; exit 2; }

python3 - "$program" "$folder" "$budget" <<'PY'
import pathlib, subprocess, sys, time
program, folder, budget = str(pathlib.Path(sys.argv[1]).resolve()), pathlib.Path(sys.argv[2]), sys.argv[3]

def questions(answers):
    """Each question with its words and the lines that are wanted."""
    asked = []
    for line in answers.read_text().splitlines():
        if line.startswith("question "):
            asked.append((line.split(": ", 1)[1], []))
        elif line.strip():
            asked[-1][1].append(line.strip())
    return asked

def told(line):
    """A line without the world of its counterexample."""
    kind, _, verdict = line.rpartition(": ") if ": counterexample {" not in line else line.partition(": counterexample {")
    return f"{kind}: {'counterexample' if ': counterexample {' in line else verdict}"

def ask(words, sets):
    begun = time.monotonic()
    try:
        asked = [program, "analyse", "--schema", "schema.json", *words.split(), "--budget", budget]
        run = subprocess.run(asked, cwd=sets, capture_output=True, text=True, timeout=120)
        status, lines = run.returncode, run.stdout.splitlines()
    except subprocess.TimeoutExpired:
        status, lines = 124, []
    return time.monotonic() - begun, status, [told(line) for line in lines]

right = wrong = 0
for answers in sorted(folder.glob("*/answers.txt")):
    for words, wanted in questions(answers):
        seconds, status, lines = ask(words, answers.parent)
        length = max(len(wanted), len(lines))
        pairs = list(zip(wanted + ["nothing"] * (length - len(wanted)), lines + ["nothing"] * (length - len(lines))))
        same = sum(one == other for one, other in pairs)
        print(f"{seconds:8.2f} s  status {status:3}  {same} of {length}  {answers.parent.name}: {words}", flush=True)
        for one, other in pairs:
            if one != other:
                print(f"    wanted {one}\n    found  {other}")
        right += same
        wrong += length - same
def reduce(policies):
    begun = time.monotonic()
    asked = [program, "reduce", "--schema", "schema.json", "--policies", policies.name, "--budget", budget]
    try:
        run = subprocess.run(asked, cwd=policies.parent, capture_output=True, text=True, timeout=120)
        status, lines = run.returncode, run.stdout.splitlines()
    except subprocess.TimeoutExpired:
        status, lines = 124, []
    dropped = [line.split()[0] for line in lines if line.endswith(" dropped")]
    decided = status == 0 and bool(lines) and all(line.split()[1] in ("dropped", "kept") for line in lines)
    seconds = time.monotonic() - begun
    print(f"{seconds:8.2f} s  status {status:3}  reduce {policies.parent.name}/{policies.name}: {len(lines)} policies, dropped {' '.join(dropped) or 'none'}", flush=True)
    return decided

for policies in sorted(folder.glob("*/v*.cedar")):
    right, wrong = (right + 1, wrong) if reduce(policies) else (right, wrong + 1)
print(f"{right} lines and reductions as they should be, {wrong} not")
sys.exit(0 if right and not wrong else 1)
PY
