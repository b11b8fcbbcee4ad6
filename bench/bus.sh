#!/bin/sh
# Times the command bus beside run on the scenarios of bench/run.sh, which are of 64 nodes over 256 frames, and compares
# their deliver and drop lines. For each it prints the deliveries, and the processor time of both.
# Usage: bench/bus.sh PROGRAM [sparse | dense], where PROGRAM is the proved program.
set -eu

program=${1:?the program}
folder=$(mktemp -d)
trap 'rm -rf "$folder"' EXIT

# seconds WORD RUNS: the processor time of a run of that word on the text.
seconds() {
    (
        round=1
        while [ "$round" -le "$2" ]; do
            "$program" "$1" < "$folder/text" > "$folder/$1"
            round=$((round + 1))
        done
        times
    ) | awk -v runs="$2" 'END { gsub(/[ms]/, " "); printf "%.3f", (60 * ($1 + $3) + $2 + $4) / runs }'
}

for name in ${2:-sparse dense}; do
    "$(dirname "$0")/run.sh" --text "$name" > "$folder/text"
    bus=$(seconds bus 20)
    run=$(seconds run 2)
    grep -E '^(deliver|drop) ' "$folder/bus" > "$folder/bus-lines" || true
    grep -E '^(deliver|drop) ' "$folder/run" > "$folder/run-lines" || true
    if ! cmp -s "$folder/bus-lines" "$folder/run-lines"; then
        echo "$name: bus and run deliver or drop otherwise" >&2
        exit 1
    fi
    echo "$name: $(grep -c '^deliver ' "$folder/bus-lines" || true) deliveries"
    echo "$name: $bus seconds of processor time for bus, $run for run"
done
