#!/bin/sh
# Runs every example of README.md and docs/CODES.md with the built program, and compares what it prints, byte by byte, and its status.
# In these pages a block that begins with ```LANGUAGE NAME is the file NAME; one that begins with ```console is a transcript, in which
# `cedar_symcc` is the program, and `vutselqi` the front over it; a table behind <!-- examples: FRONT --> has a row an example: how the line
# ends that begins with FRONT, what it means, and the file that gives it.
# usage: scripts/examples.sh [PROGRAM]      build the program first, by rt ci at the top of the repository
set -u
cd "$(dirname "$0")/.." || exit 2
top=$(pwd)
program=${1:-crates/cedar_symcc/out/cedar_symcc}
case $program in /*) ;; *) program=$top/$program ;; esac
[ -x "$program" ] || { echo "no program at $program"; exit 2; }
room=$(mktemp -d)
trap 'rm -rf "$room"' EXIT

# Writes the blocks of a page: files as they stand, transcripts as 1.transcript, 2.transcript, .., rows of tables as row files.
blocks() {
    awk -v room="$2" '
        /^```/ && inside == "" {
            split(substr($0, 4), words, " ")
            if (words[1] == "console") { transcripts++; inside = "transcript"; target = room "/" transcripts ".transcript" }
            else if (words[2] != "") { inside = "file"; target = room "/" words[2] }
            else { inside = "other"; target = "/dev/null" }
            printf "" > target
            next
        }
        /^```/ { close(target); inside = ""; next }
        inside != "" { print > target; next }
        /^<!-- examples: / { front = $0; sub(/^<!-- examples: /, "", front); sub(/ -->$/, "", front); next }
        /^#/ { front = "" }
        front != "" && /^\| `/ {
            rows++
            print front "\t" $0 > (room "/rows")
            within = 1
            next
        }
        within && !/^\|/ { front = ""; within = 0 }
    ' "$1"
}

# Runs one transcript: each command, with what it is to print.
transcript() {
    awk -v out="$1" '
        /^\$ / { n++; print substr($0, 3) > (out "." n ".command"); printf "" > (out "." n ".wanted"); next }
        { print > (out "." n ".wanted") }
    ' "$1"
    at=1
    status=0
    while [ -f "$1.$at.command" ]; do
        command=$(cat "$1.$at.command")
        if [ "$command" = 'echo $?' ]; then
            echo "$status" > "$1.$at.found"
        else
            case $command in
                cedar_symcc*) command="$program${command#cedar_symcc}" ;;
                vutselqi*) command="CEDAR_SYMCC=$program PYTHONDONTWRITEBYTECODE=1 PYTHONPATH=$top/front python3 -m $command" ;;
            esac
            (cd "$folder" && eval "$command") > "$1.$at.found" 2> /dev/null
            status=$?
        fi
        compare "$1.$at.wanted" "$1.$at.found" "$(cat "$1.$at.command")"
        at=$((at + 1))
    done
}

compare() {
    if cmp -s "$1" "$2"; then
        passed=$((passed + 1))
    else
        failed=$((failed + 1))
        echo "$page: $3"
        diff "$1" "$2" | sed 's/^/    /'
    fi
}

# The text of a cell between its backticks, with bars that were escaped for the table.
cell() {
    printf '%s\n' "$1" | sed 's/^ *`//; s/` *$//; s/\\|/|/g'
}

row() {
    front=$(printf '%s' "$1" | cut -f1)
    cells=$(printf '%s' "$1" | cut -f2- | sed 's/\\|/\\\\P/g' | sed 's/^| //; s/ |$//' | sed 's/ | /\t/g' | sed 's/\\\\P/\\|/g')
    ending=$(cell "$(printf '%s' "$cells" | cut -f1)")
    text=$(cell "$(printf '%s' "$cells" | cut -f3)")
    schema=full.json
    case $front in *" over "*) schema=${front##* over }; front=${front% over *} ;; esac
    case $front in
        "error 12") printf '%s' "$text" > "$folder/row.json"; set -- row.json /dev/null ;;
        *) printf '%s' "$text" > "$folder/row.cedar"; set -- "$schema" row.cedar ;;
    esac
    echo "$front $ending" > "$folder/row.wanted"
    (cd "$folder" && "$program" analyse --schema "$1" --policies "$2" --query never-errors --budget 10000) > "$folder/row.found" 2> /dev/null
    compare "$folder/row.wanted" "$folder/row.found" "$text"
}

passed=0
failed=0
for page in README.md docs/CODES.md; do
    folder=$room/$(basename "$page" .md)
    mkdir "$folder"
    blocks "$page" "$folder"
    n=1
    while [ -f "$folder/$n.transcript" ]; do
        transcript "$folder/$n.transcript"
        n=$((n + 1))
    done
    if [ -f "$folder/rows" ]; then
        while IFS= read -r line; do
            row "$line"
        done < "$folder/rows"
    fi
done
echo "$passed examples as they stand, $failed not"
[ "$failed" -eq 0 ]
