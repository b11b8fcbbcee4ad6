#!/bin/sh
# Times the program on three generated flood texts: 20,000 lose lines in descending order, 20,000 rate lines,
# and 4 MiB of lines that are skipped. Each is to take less than a second.
# Usage: bench/parse.sh PROGRAM, where PROGRAM is the proved program.
set -eu
program=${1:?the program}
folder=$(mktemp -d)
trap 'rm -rf "$folder"' EXIT

head_of() {
    echo "sends 1"
    i=64
    while [ "$i" -ge 1 ]; do
        echo "node $i 0"
        i=$((i - 1))
    done
}

{
    head_of
    awk 'BEGIN {
        n = 0
        for (k = 11; k >= 0; k--) for (u = 64; u >= 1; u--) for (v = 64; v >= 1; v--)
            if (u != v && n < 20000) { print "lose", k, u, v; n++ }
    }'
    echo "start 1"
} > "$folder/descending-losses"

{
    head_of
    awk 'BEGIN { for (t = 0; t < 20000; t++) print "rate", t % 64 + 1, t, t % 41 - 20 }'
    echo "start 1"
} > "$folder/rates"

{
    head_of
    echo "start 1"
    awk 'BEGIN { for (i = 0; i < 74880; i++) print "# a line that is skipped, whatever it has: " i % 10 "  and on .." }'
} > "$folder/four-mebibytes"

for text in descending-losses rates four-mebibytes; do
    size=$(wc -c < "$folder/$text")
    begin=$(date +%s%N)
    status=0
    "$program" flood < "$folder/$text" > "$folder/answer" || status=$?
    end=$(date +%s%N)
    echo "$text: $size bytes, status $status, $(((end - begin) / 1000000)) ms"
done
