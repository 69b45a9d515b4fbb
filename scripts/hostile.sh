#!/bin/sh
# Gives the program files that were changed: schemas, policies, worlds and logs with bytes changed, cut, doubled or nested, words and members
# exchanged. Each run has to end within ten seconds of the processor with a status of the table in docs/CODES.md and nothing on standard error:
# where it refuses, with the one line of that refusal, else with lines as they may be. What is said is looked at too: a world that is printed
# replays as well-formed, and a log that is accepted is one of a property that holds, as is asked of the same files anew. Prints how many runs
# ended with which status; the status is 0 where each came out. Files that didn't are kept in a folder that is named. It is no part of the gate.
# usage: scripts/hostile.sh [PROGRAM [FILES [SEED]]]      10,000 files and the seed 1, if none are given
set -u
cd "$(dirname "$0")/.." || exit 2
program=${1:-crates/cedar_symcc/out/cedar_symcc}
[ -x "$program" ] || { echo "no program at $program: rt ci at the top of the repository builds it"; exit 2; }
folder=$(mktemp -d)
trap 'rm -rf "$folder"' EXIT
python3 scripts/hostile.py "$program" "$folder" "${2:-10000}" "${3:-1}"
