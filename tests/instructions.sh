#!/usr/bin/env bash
# Counts the instructions of the built programs, by callgrind, and compares each count with that of tests/instructions.txt: more than
# 1 % above it fails, and more than 2 % below it asks for a new count. So a change that makes a run dearer is seen with the change.
# The cases are `demo 7 64 256`; `run`, `log`, `bus` and `check` of one made scenario; and `outcome`, `fates`, `sample` and `draw` of one
# network. The last line is 'N passed, M failed', and the status is 0 where M is 0. Tested, not proved.
# Usage: tests/instructions.sh PROGRAM PLANNER [--write]. With --write the counts are written to tests/instructions.txt instead.
set -eu
top=$(cd "$(dirname "$0")/.." && pwd)
program=$(realpath "${1:?the program}")
planner=$(realpath "${2:?the program of a planner}")
kept=$top/tests/instructions.txt
folder=$(mktemp -d)
trap 'rm -rf "$folder"' EXIT

command -v valgrind > /dev/null || "$top/tools/setup-python.sh" --optional

# The texts that the cases read: the scenario that `demo 7 20 50` makes, with its log for `check`, and a survey of 34 nodes.
python3 "$top/bench/made.py" 7 20 50 > "$folder/made"
{ cat "$folder/made" && echo log && "$program" log < "$folder/made"; } > "$folder/logged"
python3 "$top/bench/survey.py" 5 225 > "$folder/survey"

# Each case: its name, the program, the text that it reads, and its words.
cases() {
    cat <<CASES
demo $program /dev/null demo 7 64 256
run $program $folder/made run
log $program $folder/made log
bus $program $folder/made bus
check $program $folder/logged check
outcome $planner $folder/survey outcome 9
fates $planner $folder/survey fates 9
sample $planner $folder/survey sample 9 1
draw $planner $folder/survey draw 9
CASES
}

# The count of a case. The environment is empty, since its size would be counted too.
count() {
    local name=$1 started=$2 text=$3
    shift 3
    env -i valgrind --tool=callgrind --callgrind-out-file="$folder/$name.calls" "$started" "$@" < "$text" 2> "$folder/$name.err" > "$folder/$name.out"
    sed -n "s/^==.*Collected : \([0-9]*\).*/$name \1/p" "$folder/$name.err"
}

# All counts, by the order of the cases, several at a time.
counts() {
    export folder
    export -f count
    cases | xargs -P "$(nproc)" -L 1 bash -c 'set -eu; count "$@"' count > "$folder/counts"
    cases | while read -r name _; do grep "^$name [0-9]" "$folder/counts"; done
}

if [ "${3-}" = --write ]; then
    counts > "$folder/new" && cp "$folder/new" "$kept"
    exit
fi
counts > "$folder/found"
awk '
    NR == FNR { before[$1] = $2; next }
    {
        part = $1 in before ? 100 * ($2 - before[$1]) / before[$1] : 100
        if (part > 1) {
            printf "FAILED: %s takes %d instructions, %.1f %% more than the %d of tests/instructions.txt\n", $1, $2, part, before[$1]
            failed++
        } else {
            passed++
            if (part < -2) printf "%s takes %.1f %% fewer instructions: store the new count by \"make instructions\"\n", $1, -part
        }
        delete before[$1]
    }
    END {
        for (name in before) {
            print "FAILED: no count of " name
            failed++
        }
        printf "%d passed, %d failed\n", passed, failed
        exit failed > 0
    }' "$kept" "$folder/found"
