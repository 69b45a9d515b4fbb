#!/bin/sh
# How fast the program's work grows with the size of a question, and beside it that of an SMT solver (cvc5), in instructions beyond the start, which are the
# same on a busy machine: so steps of growth can be told apart. The families are those of bench.sh but for kinds of request; of random clauses the mean of twelve questions is
# told, since one takes far more than another of its size. Prints a table in Markdown. The status is 0 where each answer is there and right. It takes
# some minutes, needs valgrind and cvc5, and is no part of the gate.
# usage: scripts/growth.sh [PROGRAM]      build the program first, by rt ci at the top of the repository
set -u
cd "$(dirname "$0")/.." || exit 2
program=${1:-crates/cedar_symcc/out/cedar_symcc}
[ -x "$program" ] || { echo "no program at $program: rt ci at the top of the repository builds it"; exit 2; }
for tool in valgrind cvc5; do command -v $tool >/dev/null || { echo "no $tool"; exit 2; }; done
folder=$(mktemp -d)
trap 'rm -rf "$folder"' EXIT
exec python3 scripts/bench.py "$program" "$folder" growth
