#!/bin/sh
# How long the program takes for questions that grow, and beside it an SMT solver (cvc5), where one is installed, on scripts of the same questions.
# Prints a table in Markdown: the family, its size, the answers, the units (steps of the log where the property holds in each environment), the seconds of
# the processor of both, the start included, each the fewest of some runs. With a folder of policy sets (each with schema.json, v1 to v3, answers.txt and scripts/) it
# measures their questions too and compares the answers. The status is 0 where each answer is there and right. It is no part of the gate.
# usage: scripts/bench.sh [PROGRAM [FOLDER]]      build the program first, by rt ci at the top of the repository
set -u
cd "$(dirname "$0")/.." || exit 2
program=${1:-crates/cedar_symcc/out/cedar_symcc}
[ -x "$program" ] || { echo "no program at $program: rt ci at the top of the repository builds it"; exit 2; }
folder=$(mktemp -d)
trap 'rm -rf "$folder"' EXIT
exec python3 scripts/bench.py "$program" "$folder" "${2:-}"
