#!/bin/sh
# Checks logs of 100 MB, and prints how many times the seconds of reading the bytes checking them took, the least of fifteen runs each. Each log is one
# that the program wrote, with the lines of its learned clauses over and over before the last; each of them is checked again. For the time of reading,
# the same bytes stand behind a first line that is at fault, after which no step is looked at. The questions: whether eight clauses over three
# attributes can be met (lines of few bytes), nine pigeons in eight holes (lines of many), and 240 policies against each of them split in two.
# The status is 0 where each long log is accepted, and rejected behind the line at fault.
# usage: scripts/large_logs.sh [PROGRAM [MEGABYTES]]
set -u
cd "$(dirname "$0")/.." || exit 2
program=${1:-crates/cedar_symcc/out/cedar_symcc}
size=${2:-100}
[ -x "$program" ] || { echo "no program at $program: rt ci at the top of the repository builds it"; exit 2; }
folder=$(mktemp -d)
trap 'rm -rf "$folder"' EXIT

python3 - "$folder" <<'PY' || exit 2
import json, os, random, sys

def write(question, names, one, two=None):
    folder = f"{sys.argv[1]}/{question}"
    os.mkdir(folder)
    context = {"type": "Record", "attributes": {name: {"type": "Boolean"} for name in names}}
    view = {"appliesTo": {"principalTypes": ["User"], "resourceTypes": ["Doc"], "context": context}}
    with open(f"{folder}/schema.json", "w") as out:
        json.dump({"": {"entityTypes": {"User": {}, "Doc": {}}, "actions": {"view": view}}}, out)
    for file, conditions in (("one.cedar", one), ("two.cedar", two or one)):
        with open(f"{folder}/{file}", "w") as out:
            for it in conditions:
                out.write(f"permit(principal, action, resource) when {{ {it} }};\n")

def met(rows):
    return [" && ".join("(" + " || ".join(("!" if sign else "") + "context." + it for sign, it in row) + ")" for row in rows)]

write("clauses", "xyz", met([[(i >> bit & 1, "xyz"[bit]) for bit in range(3)] for i in range(8)]))

at = lambda pigeon, hole: f"p{pigeon}h{hole}"
rows = [[(0, at(pigeon, hole)) for hole in range(8)] for pigeon in range(9)]
rows += [[(1, at(one, hole)), (1, at(other, hole))] for hole in range(8) for other in range(9) for one in range(other)]
write("pigeons", [at(pigeon, hole) for pigeon in range(9) for hole in range(8)], met(rows))

draw = random.Random(240)
names = [f"a{it}" for it in range(60)]
rows = [[f"context.{it}" for it in draw.sample(names, 3)] for _ in range(240)]
split = [it for c, x, y in rows for it in (f"{c} && {x}", f"{c} && !{y}")]
write("refactoring", names, [f"{c} && ({x} || !{y})" for c, x, y in rows], split)
PY

asked() {
    printf '%s' "--schema $folder/$1/schema.json --policies $folder/$1/one.cedar --env 0"
    case $1 in
        refactoring) printf ' %s' "--against $folder/$1/two.cedar --query equivalent" ;;
        *) printf ' %s' "--query always-denies" ;;
    esac
}

# writes the long log of a question, and the same bytes behind a first line that is at fault
lengthen() {
    # shellcheck disable=SC2046
    "$program" log $(asked "$1") --budget 10000 >"$folder/short.log" || { echo "no log of $1 was written"; exit 1; }
    python3 - "$folder" "$size" <<'PY' || exit 2
import sys
folder, size = sys.argv[1], int(sys.argv[2]) * 1000000
with open(f"{folder}/short.log") as text:
    first, *steps, last = text.read().splitlines(keepends=True)
learned = "".join(steps)
times = max(1, size // len(learned))
for name, begins in (("checked", first), ("read", "log 2\n")):
    with open(f"{folder}/{name}.log", "w") as out:
        out.write(begins)
        for _ in range(times):
            out.write(learned)
        out.write(last)
PY
}

wrong=0

# the seconds of the check of a question's log, of which this is to be said
timed() {
    begun=$(date +%s.%N)
    status=0
    # shellcheck disable=SC2046
    "$program" check $(asked "$1") --log "$folder/$2.log" >"$folder/out" || status=$?
    ended=$(date +%s.%N)
    echo "$ended $begun" | awk '{ print $1 - $2 }' >>"$folder/$2.seconds"
    told="$told, status $status: $(cat "$folder/out")"
    [ "$(cat "$folder/out")" = "$3" ] || wrong=$((wrong + 1))
}

least() { sort -n "$folder/$1.seconds" | head -n 1; }

for question in clauses pigeons refactoring; do
    lengthen "$question"
    rm -f "$folder/checked.seconds" "$folder/read.seconds"
    # by turns, since a machine's memory is faster at one time than at another
    for turn in 1 2 3 4 5 6 7 8 9 10 11 12 13 14 15; do
        told=
        timed "$question" read "error 14 step 0 Malformed"
        timed "$question" checked "accepted"
    done
    echo "$(least checked) $(least read)" | awk -v of="$question" -v bytes="$(wc -c <"$folder/checked.log")" -v told="$told" \
        '{ printf "%-12s %10d bytes  read %.3f s  checked %.3f s  %.1f times%s\n", of, bytes, $2, $1, $1 / $2, told }'
done
[ "$wrong" -eq 0 ] || { echo "$wrong runs said something else"; exit 1; }
