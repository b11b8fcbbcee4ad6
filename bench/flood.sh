#!/bin/sh
# Times floods over a random network of 64 nodes, in sendings a second of processor time. The texts have the same nodes
# and links, and each another starting node. What an empty run takes is subtracted: it reads the same lines but the last,
# and floods nothing.
# Usage: bench/flood.sh PROGRAM, where PROGRAM is the proved program.
set -eu
program=${1:?the program}
folder=$(mktemp -d)
trap 'rm -rf "$folder"' EXIT

# About one link in eight, from a fixed seed.
awk 'BEGIN {
    print "sends 4"
    for (id = 1; id <= 64; id++) print "node", id, id * 1000
    number = 1
    for (from = 1; from <= 64; from++) for (to = 1; to <= 64; to++) {
        number = (number * 75 + 74) % 65537
        if (from != to && number % 8 == 0) print "link", from, to
    }
}' > "$folder/empty"
start=1
while [ "$start" -le 64 ]; do
    { cat "$folder/empty"; echo "start $start"; } > "$folder/flood-$start"
    start=$((start + 1))
done

# The processor time of 64 runs in milliseconds: of the text with that name, or of the text that each start has.
milliseconds_of() {
    (
        start=1
        while [ "$start" -le 64 ]; do
            case $1 in
                flood) text=flood-$start ;;
                *) text=$1 ;;
            esac
            "$program" flood < "$folder/$text" >> "$folder/$1-answers" || true
            start=$((start + 1))
        done
        times
    ) | awk 'END { gsub(/[ms]/, " "); print 60000 * ($1 + $3) + 1000 * ($2 + $4) }'
}

round=1
while [ "$round" -le 20 ]; do
    echo "$(milliseconds_of flood) $(milliseconds_of empty)"
    round=$((round + 1))
done > "$folder/times"

sent=$(awk '$1 == "sent" { sum += $2 } END { print sum }' "$folder/flood-answers")
awk -v sent="$sent" '
    { floods += $1; empty += $2 }
    END {
        printf "%d sendings in %d ms beyond %d ms of reading\n", sent, floods - empty, empty
        if (floods > empty) printf "%d sendings a second\n", 1000 * sent / (floods - empty)
    }' "$folder/times"
