#!/bin/sh
# How fast the program reads policy files, and whether its time grows with the file's length alone: each kind of file in three
# lengths, each twice the one before. The status is 0 where each file is read to its end. It is no part of the gate. Build the program first,
# by rt ci at the top of the repository.
# usage: scripts/bench_parser.sh [PROGRAM]
set -eu
cd "$(dirname "$0")/.."
program=${1:-crates/cedar_symcc/out/cedar_symcc}
schema=crates/cedar_symcc/data/schema.json
room=$(mktemp -d)
trap 'rm -rf "$room"' EXIT

# So many bytes of one letter.
letters() {
    head -c "$1" /dev/zero | tr '\0' x
}

# A policy with this body, which comes from the input.
policy() {
    printf 'permit(principal, action, resource) when { '
    cat
    printf ' };'
}

policies() {
    seq "$(($1 * 2500))" | sed 's/.*/permit(principal, action, resource) when { context.n + & > 7 \&\& principal in Group::"g" };/'
}

comment() {
    printf '//'
    letters "$(($1 * 4194304 - 2))"
}

string() {
    { printf '"'; letters "$(($1 * 4000000))"; printf '" == ""'; } | policy
}

list() {
    { printf '['; yes 1, | head -n "$(($1 * 500000))"; printf ']'; } | policy
}

record() {
    { printf '{'; seq "$(($1 * 250000))" | sed 's/.*/k&: 1,/'; printf '}'; } | policy
}

path() {
    { printf 'a'; yes '::a' | head -n "$(($1 * 500000))"; printf '::"b" == ""'; } | policy
}

annotations() {
    yes '@a("b")' | head -n "$(($1 * 400000))"
    printf 'permit(principal, action, resource);'
}

wrong=0

# The program reads the whole file before it tells of names and types that such policies lack.
for kind in policies comment string list record path annotations; do
    for times in 1 2 4; do
        "$kind" "$times" >"$room/policies"
        bytes=$(wc -c <"$room/policies")
        start=$(date +%s%N)
        told=$("$program" analyse --schema "$schema" --policies "$room/policies" --query always-denies --budget 1) || true
        took=$((($(date +%s%N) - start) / 1000 + 1))
        printf '%-12s %9d bytes %6d ms %9d bytes a second: %.80s\n' "$kind" "$bytes" "$((took / 1000))" "$((bytes * 1000000 / took))" "$told"
        case $told in "env "* | "error 13 "*) ;; *) wrong=$((wrong + 1)) ;; esac
    done
done
[ "$wrong" -eq 0 ]
