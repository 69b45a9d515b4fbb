#!/bin/sh
# Runs the program on large policy files and prints the seconds, the status and the first line of each run, which is stopped after 120 seconds
# (status 124): 10,000 accesses to a context of 1,000 attributes, in 25 policies and in a hundred; first with a context that holds a number
# as well, then with truth values alone. The status is 0 where each run says that no policy errs, as is so.
# usage: scripts/large_policies.sh [PROGRAM [DIVISOR]]     with a divisor each policy has only that part of its accesses
set -u
cd "$(dirname "$0")/.." || exit 2
program=${1:-crates/cedar_symcc/out/cedar_symcc}
part=${2:-1}
[ -x "$program" ] || { echo "no program at $program: rt ci at the top of the repository builds it"; exit 2; }
folder=$(mktemp -d)
trap 'rm -rf "$folder"' EXIT

python3 - "$folder" "$part" <<'PY' || exit 2
import json, sys
folder, part = sys.argv[1], int(sys.argv[2])
names = [f"a{i:04d}" for i in range(1000)]
def schema(file, first):
    attributes = {name: {"type": "Boolean"} for name in names}
    attributes[names[0]] = {"type": first}
    context = {"type": "Record", "attributes": attributes}
    view = {"appliesTo": {"principalTypes": ["User"], "resourceTypes": ["Doc"], "context": context}}
    with open(f"{folder}/{file}", "w") as out:
        json.dump({"": {"entityTypes": {"User": {}, "Doc": {}}, "actions": {"view": view}}}, out)
schema("numbers.json", "Long")
schema("truths.json", "Boolean")
def policies(file, count, accesses):
    with open(f"{folder}/{file}", "w") as out:
        for first in range(count):
            read = [f"context.{names[1 + (first + i) % 999]}" for i in range(accesses // part)]
            out.write("permit(principal, action, resource) when { " + " && ".join(read) + " };\n")
policies("25.cedar", 25, 400)
policies("100.cedar", 100, 100)
PY

wrong=0

timed() {
    name=$1
    shift
    begun=$(date +%s.%N)
    status=0
    timeout 120 "$program" "$@" >"$folder/out" 2>&1 || status=$?
    ended=$(date +%s.%N)
    printf '%-40s %8.2f s  status %3d  %s\n' "$name" "$(echo "$ended $begun" | awk '{ print $1 - $2 }')" "$status" "$(head -c 80 "$folder/out" | head -n 1)"
    [ "$(cat "$folder/out")" = 'env User Action::"view" Doc: holds' ] || wrong=$((wrong + 1))
}

for set in 25 100; do
    for context in numbers truths; do
        timed "$set policies, context of $context" analyse --schema "$folder/$context.json" --policies "$folder/$set.cedar" --query never-errors --budget 10000
    done
done
[ "$wrong" -eq 0 ]
