#!/bin/sh
# Times the planner's program: the processor time of a seed, least of ten, and with valgrind its instructions. outcome and sample on
# a survey of 34 nodes over an hour (bench/survey.py); draw on the longest survey that a run takes, 481 frames, and on the network of
# docs/PLANNING.md, 25 nodes over 30 minutes (bench/planning.py, where Python has the modules of the package). For that network also
# the package: a sample of a thousand seeds, and the ranking of all links and nodes (bench/sample.py).
# Usage: bench/plan.sh [PROGRAM], where PROGRAM is the program of a planner, the stored one if none is named.
set -eu

here=$(dirname "$0")
program=${1:-$here/../bin/foldcairn-plan-x86_64-linux}
folder=$(mktemp -d)
trap 'rm -rf "$folder"' EXIT

# one COMMAND FILE SEED: writes what the command has for this seed alone.
one() {
    if [ "$1" = sample ]; then
        "$program" sample "$3" 1 < "$2"
    else
        "$program" "$1" "$3" < "$2"
    fi
}

# The processor time of one seed of a command on a file, in seconds.
seconds() {
    (one "$@" > "$folder/out"; times) |
        awk 'END { gsub(/[ms]/, " "); printf "%.3f\n", 60 * ($1 + $3) + $2 + $4 }'
}

# measure COMMAND FILE NAME LINES: what a seed of the command costs, and how many lines of that word it writes.
measure() {
    least=$(for seed in 0 1 2 3 4 5 6 7 8 9; do seconds "$1" "$2" "$seed"; done | sort -n | head -n 1)
    echo "$1 of $3: $least seconds of processor time a seed, $(grep -c "^$4 " "$folder/out") $4 lines with seed 9"
    if command -v valgrind > /dev/null; then
        [ "$1" = sample ] && last=1 || last=
        valgrind --tool=callgrind --callgrind-out-file="$folder/calls" "$program" "$1" 9 ${last:+"$last"} < "$2" 2>&1 > /dev/null |
            sed -n "s/^==.*Collected : \([0-9]*\).*/$1 of $3: \1 instructions/p"
    fi
}

python3 "$here/survey.py" > "$folder/survey.network"
measure outcome "$folder/survey.network" "a survey of 34 nodes over an hour" deliver
measure sample "$folder/survey.network" "a survey of 34 nodes over an hour" latency
python3 "$here/survey.py" 5 481 > "$folder/shorter.network"
measure draw "$folder/shorter.network" "a survey of 34 nodes over 32 minutes" lose
if "$("$here/../tools/setup-python.sh" --print)" "$here/planning.py" > "$folder/planning.network" 2> "$folder/err"; then
    measure outcome "$folder/planning.network" "PLANNING's network" deliver
    measure draw "$folder/planning.network" "PLANNING's network" lose
    measure sample "$folder/planning.network" "PLANNING's network" latency
    FOLDCAIRN_PLAN=$program "$("$here/../tools/setup-python.sh" --print)" "$here/sample.py" "$folder/planning.network"
else
    echo "PLANNING's network is left out: $(tail -n 1 "$folder/err")"
fi
