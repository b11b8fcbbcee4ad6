#!/bin/sh
# Times `check`. First a valid log: the scenario that bench/made.py draws from seed 7 for 64 nodes, over as many frames as its
# text and its log fill 4 MiB, against `run` on the scenario alone. Then texts of some 4 MB that are made to cost much: all
# receptions of one node at one tick, at a node that is on; the same at one that is off, in a log that is valid without them;
# and transmissions of all nodes at one tick. It prints processor times: the least of three times ten calls.
# Usage: bench/check.sh PROGRAM, where PROGRAM is the proved program. It needs python3, for bench/made.py.
set -eu

program=${1:?the program}
bench=$(cd "$(dirname "$0")" && pwd)
folder=$(mktemp -d)
trap 'rm -rf "$folder"' EXIT
limit=4194304

# The processor time in milliseconds of a call of a command with its input: the least of three times ten calls.
milliseconds() {
    for _ in 1 2 3; do
        (
            for _ in 1 2 3 4 5 6 7 8 9 10; do "$program" "$1" < "$2" > "$folder/answer"; done
            times
        ) | awk 'END { gsub(/[ms]/, " "); print 6000 * ($1 + $3) + 100 * ($2 + $4) }'
    done | sort -n | head -n 1
}

# 64 nodes over 256 frames, of which node 1 is on; none hosts but node 64, which is off. Then the log.
alone() {
    awk 'BEGIN {
        print "frames 256"
        print "sends 1"
        for (id = 1; id <= 64; id++) print "node", id, 0
        print "host 0 64"
        for (id = 2; id <= 64; id++) print "pair 1", id
        print "on 0 1"
        print "log"
    }'
}

# receptions NODE: as many as the text has room for, of packets that differ, all at one tick.
receptions() {
    awk -v node="$1" -v lines="$2" 'BEGIN {
        for (i = 0; i < lines; i++) printf "heard 0 %d %d 1000000 1030720 %06x00000000\n", node, 2 + i % 63, i % 16777216
    }'
}

transmissions() {
    awk -v lines="$1" 'BEGIN {
        for (i = 0; i < lines; i++) printf "sent 0 %d 1000000 1030720 %06x00000000\n", 1 + i % 64, i % 16777216
    }'
}

frames=256
while [ "$frames" -gt 0 ]; do
    python3 "$bench/made.py" 7 64 "$frames" > "$folder/scenario"
    { cat "$folder/scenario"; echo log; "$program" log < "$folder/scenario"; } > "$folder/text"
    [ "$(wc -c < "$folder/text")" -gt "$limit" ] || break
    frames=$((frames - 4))
done
run=$(milliseconds run "$folder/scenario")
check=$(milliseconds check "$folder/text")
echo "valid: $frames frames, $(wc -c < "$folder/text") bytes, $(cat "$folder/answer")"
awk -v run="$run" -v check="$check" 'BEGIN {
    printf "valid: %.3f seconds of processor time, run %.3f, %.1f times as much\n", check / 1000, run / 1000, check / run
}'

alone | sed '$d' | "$program" log > "$folder/valid"
for kind in "receptions 1" "receptions 64" transmissions; do
    { alone; cat "$folder/valid"; $kind 88000; } | head -c "$limit" | sed '$d' > "$folder/text"
    time=$(milliseconds check "$folder/text")
    awk -v kind="$kind" -v ms="$time" -v said="$(cat "$folder/answer")" 'BEGIN {
        printf "%s: %.3f seconds of processor time, %s\n", kind, ms / 1000, said
    }'
done
