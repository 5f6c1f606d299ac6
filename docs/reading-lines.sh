#!/usr/bin/env bash
# Counts the lines of docs/READING.md's definitions, table by table: without comments, imports and blank lines; and in all.
set -euo pipefail
cd "$(dirname "$0")/.."
count() { # WHAT FILE..
    local own
    own=$(cat "${@:2}" | grep -cvE '^\s*(--|use |infix|$)')
    echo "$1: $(($# - 1)) files, $own lines of definitions, $(cat "${@:2}" | wc -l) lines in all"
}
# The files of the n-th table that has some, counted from 1.
files() {
    awk -v n="$1" '
        /^\|/ && match($0, /`crates\/[a-z_]*\/specs\/[A-Za-z0-9]*\.antt`/) { if (!on) k++; on = 1; if (k == n) print substr($0, RSTART + 1, RLENGTH - 2) }
        !/^\|/ { on = 0 }' docs/READING.md
}
count "what the calls compute" $(files 1)
count "what is shown of them" $(files 2)
count "the other public functions" $(files 3)
count "together" $(files 1) $(files 2) $(files 3)
