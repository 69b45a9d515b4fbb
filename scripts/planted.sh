#!/bin/sh
# Tries the planted bugs of planted/, those of the crates named or else all: the prover has to refuse each. It changes nothing in the
# checkout. Prints a line for each edit that is let through, no longer applies, can't be read, isn't tried, or is refused only since a proof
# names what it took away, and then the counts; the status is 0 where there is none of these. A whole run takes hours.
# usage: scripts/planted.sh [CRATE ..]
exec python3 "$(dirname "$0")/planted.py" --try "$@"
