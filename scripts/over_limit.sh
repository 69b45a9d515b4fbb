#!/bin/sh
# Asks about two hundred products of one number, whose bits are more than 4,194,304 atoms, under the schema of generated policies, and prints the
# seconds, the kilobytes of memory, the status and the line; it is to say `over limit` with status 2. A run is stopped after 60 seconds (status 124).
# usage: scripts/over_limit.sh [PROGRAM]
set -u
cd "$(dirname "$0")/.." || exit 2
program=${1:-crates/cedar_symcc/out/cedar_symcc}
[ -x "$program" ] || { echo "no program at $program: rt ci at the top of the repository builds it"; exit 2; }
folder=$(mktemp -d)
trap 'rm -rf "$folder"' EXIT

python3 - "$folder" "$program" <<'PY'
import re, resource, subprocess, sys, time
folder, program = sys.argv[1], sys.argv[2]
with open("crates/sc_generated/src/schema.rt") as text, open(f"{folder}/schema.json", "w") as out:
    out.write(re.search(r'r#"(.*)"#;', text.read()).group(1))
with open(f"{folder}/policies.cedar", "w") as out:
    tests = " || ".join(f"context.n * {factor} == 7" for factor in range(2, 202))
    out.write("permit(principal, action, resource) when { " + tests + " };\n")
asked = ["--schema", f"{folder}/schema.json", "--policies", f"{folder}/policies.cedar", "--query", "always-denies"]
begun = time.monotonic()
try:
    run = subprocess.run([program, "analyse", *asked, "--budget", "10000"], capture_output=True, text=True, timeout=60)
    status, line = run.returncode, run.stdout.strip()
except subprocess.TimeoutExpired:
    status, line = 124, ""
seconds = time.monotonic() - begun
memory = resource.getrusage(resource.RUSAGE_CHILDREN).ru_maxrss
print(f"{seconds:.2f} s  {memory} kB  status {status}  {line}")
sys.exit(0 if status == 2 and line.endswith(": over limit") else 1)
PY
