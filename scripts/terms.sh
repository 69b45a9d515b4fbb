#!/bin/sh
# How many terms a table of terms takes in a second: the time of the test that makes a million of them, less that of a test that
# makes a few. It is no part of the gate. Build the test program first: cd crates/sc_row_tests && rt test. The status is 0 where both tests pass.
# usage: scripts/terms.sh [TEST PROGRAM]
set -eu
cd "$(dirname "$0")/.."
program=${1:-crates/sc_row_tests/out/sc_row_tests_tests}
[ -x "$program" ] || { echo "no test program at $program"; exit 2; }
terms=1000001

# The microseconds of one test.
timed() {
    start=$(date +%s%N)
    "$program" "growth_tests::$1" >/dev/null || { echo "the test $1 failed" >&2; exit 1; }
    echo "$((($(date +%s%N) - start) / 1000))"
}

few=$(timed equal_terms_come_in_once)
many=$(timed a_million_terms)
took=$((many - few + 1))
printf '%d terms in %d ms: %d a second\n' "$terms" "$((took / 1000))" "$((terms * 1000000 / took))"
