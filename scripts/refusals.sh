#!/bin/sh
# Refuses the program what it asks of the system, over six commands: memory, each time in turn and then each time from one on; each opening
# of a file, each read and each write, in several ways; a full disk, and a pipe that nobody reads. Then the run has to be as if nothing had been
# refused, or to end as it says it does: status 30 with whole first lines of what it writes else, `error 20` with the file that wasn't read, or
# status 21 with a front of what it writes else. The program takes memory by `malloc` and `realloc` of the C library, to which it is linked as it
# starts; so a small library that is built here with `cc` stands before that one (refusals.c). Prints how many runs were tried; the status is 0
# where each came out. It is no part of the gate.
# usage: scripts/refusals.sh [PROGRAM [STEP]]      with a step only each so many-th refusal of memory
set -u
cd "$(dirname "$0")/.." || exit 2
program=${1:-crates/cedar_symcc/out/cedar_symcc}
[ -x "$program" ] || { echo "no program at $program: rt ci at the top of the repository builds it"; exit 2; }
folder=$(mktemp -d)
trap 'rm -rf "$folder"' EXIT
cc -O2 -shared -fPIC -o "$folder/refusals.so" scripts/refusals.c || exit 2
python3 scripts/refusals.py "$program" "$folder" "${2:-1}"
