#!/bin/sh
# Asks of generated policies, of several sizes, whether they are equivalent to the same in reverse order, each size twice, and prints the seconds of the
# first run, its status and what it writes. The status is 0 where both runs write the same, say that the property holds, and say of three policies that
# their text has 287 bytes. It is no part of the gate.
# usage: scripts/generate.sh [PROGRAM] [SIZE ..]      build the program first, by rt ci at the top of the repository
set -u
cd "$(dirname "$0")/.." || exit 2
program=${1:-crates/cedar_symcc/out/cedar_symcc}
[ $# -gt 0 ] && shift
[ -x "$program" ] || { echo "no program at $program: rt ci at the top of the repository builds it"; exit 2; }
[ $# -gt 0 ] || set -- 1 3 200
exec python3 - "$program" "$@" <<'PY'
import subprocess, sys, time
program, *sizes = sys.argv[1:]
wrong = 0
for size in sizes:
    begun = time.monotonic()
    runs = [subprocess.run([program, "generate", "--size", size], capture_output=True, text=True) for _ in range(2)]
    seconds = (time.monotonic() - begun) / 2
    first, second = [(run.returncode, run.stdout) for run in runs]
    lines = first[1].splitlines()
    right = first == second and first[0] == 0 and lines[1:] == ['env User Action::"view" Doc: holds']
    right = right and lines[0].startswith(f"generated {int(size)} policies, ")
    right = right and (int(size) != 3 or lines[0] == "generated 3 policies, 287 bytes")
    print(f"{seconds:.2f} s  status {first[0]}  {' | '.join(lines)}{'' if right else '  WRONG'}")
    wrong += not right
sys.exit(1 if wrong else 0)
PY
