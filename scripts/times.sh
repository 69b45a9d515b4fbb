#!/bin/sh
# Runs `rt ci`, or the command that is given, and prints what its checks took: for each crate the processor seconds of its library, of
# its tests and of its wrong bodies, the slowest first. Seconds are read once a second while the checks run.
# usage: scripts/times.sh [COMMAND ..]
set -u
cd "$(dirname "$0")/.." || exit 2
[ $# -gt 0 ] || set -- rt ci
seen=$(mktemp)
trap 'rm -f "$seen"' EXIT
"$@" &
run=$!
while kill -0 "$run" 2> /dev/null; do
    ps -eo pid=,cputimes=,args= | grep -- '--crate-name' | grep -v grep >> "$seen"
    sleep 1
done
wait "$run"
status=$?
awk '
    {
        crate = kind = ""
        for (i = 3; i <= NF; i++) {
            if ($i == "--crate-name") crate = $(i + 1)
            if ($i == "--test") kind = "tests"
        }
        if (kind == "") kind = ($0 ~ /--statements/) ? "library" : "wrong bodies"
        took[$1 " " crate "|" kind] = $2
    }
    END {
        for (key in took) {
            split(key, words, " ")
            name = substr(key, length(words[1]) + 2)
            sum[name] += took[key]
            split(name, parts, "|")
            all[parts[1]] += took[key]
        }
        for (crate in all) printf "%7d %-22s library %d, tests %d, wrong bodies %d\n", all[crate], crate, sum[crate "|library"], sum[crate "|tests"], sum[crate "|wrong bodies"]
    }
' "$seen" | sort -rn
exit "$status"
