#!/bin/sh
# Times runs of three scenarios of 64 nodes over 256 frames. For each it prints the sendings and deliveries of a run, the
# processor time of a run, the cost of one sending in processor time, and the most memory that a run takes.
# The first is sparse: its network is random from a fixed seed, and connected. It has two hosts, and 32 streams with a
# packet every tenth frame. The second is dense: all nodes hear each other, a node sends up to four times in a flood, and
# 32 streams of 8 nodes are owed more than the 40 slots that a round has, and have a packet in each frame.
# The third is lossy: the scenario that `demo 7 64 256` runs, with some 32 lost links in each frame. Its text is drawn by
# bench/made.py; without python3 it is left out, and a line says so.
# The memory is measured by GNU time (/usr/bin/time), or else read again and again from /proc/PID/status of Linux; without
# either it is not printed.
# Usage: bench/run.sh PROGRAM [sparse | dense | lossy | sizes], where PROGRAM is the proved program; or bench/run.sh --text
# sparse | dense | lossy, which writes the text alone. With sizes it runs the dense scenario over as many frames as make about
# 10^3, 10^4, 10^5 and 10^6 sendings, to compare the cost of one sending.
set -eu

program=${1:?the program}
bench=$(cd "$(dirname "$0")" && pwd)
folder=$(mktemp -d)
trap 'rm -rf "$folder"' EXIT

# Each node is tied to one of the four before it, and to one node in sixteen besides. Nodes 4, 8 and so on up to 64 have two
# streams each; they ask for them one node after another, so that few of them contend. Each packet is a flood, and in each
# flood a node sends at most twice.
sparse() {
    awk -v every=10 -v sends=2 '
        function random(below) {
            number = (number * 75 + 74) % 65537
            return int(number / 7) % below
        }
        BEGIN {
            number = 1
            print "frames 256"
            print "sends", sends
            for (id = 1; id <= 64; id++) print "node", id, id * 1000
            for (id = 1; id <= 64; id++) print "rate", id, 0, id % 41 - 20
            print "host 0 1"
            print "host 1 33"
            for (id = 2; id <= 64; id++) {
                near = id > 4 ? id - 1 - random(4) : id - 1
                for (other = 1; other < id; other++)
                    if (other == near || random(16) == 0) print "pair", other, id
            }
            for (id = 1; id <= 64; id++) print "on 0", id
            for (frame = 0; frame < 252; frame++) {
                for (id = 4; id <= 64; id += 4) for (stream = 0; stream < 2; stream++) {
                    first = id
                    if (frame == first) print "stream", frame, id, stream, 4
                    if (frame >= first && (frame - first) % every == 0) print "put", frame, id, stream, "0011223344556677"
                }
            }
        }'
}

# Nodes 8, 16 and so on up to 64 have four streams each, of one second. They ask for them one node after another, and all
# have them by about frame 60. The argument is the number of frames.
dense() {
    awk -v frames="$1" 'BEGIN {
        print "frames", frames
        print "sends 4"
        for (id = 1; id <= 64; id++) print "node", id, id * 1000
        for (id = 1; id <= 64; id++) print "rate", id, 0, id % 41 - 20
        print "host 0 1"
        for (id = 2; id <= 64; id++) for (other = 1; other < id; other++) print "pair", other, id
        for (id = 1; id <= 64; id++) print "on 0", id
        for (frame = 0; frame < frames - 31; frame++) {
            for (id = 8; id <= 64; id += 8) for (stream = 0; stream < 4; stream++) {
                first = id == 8 ? 0 : 22 + 5 * (id / 8 - 2)
                if (frame == first) print "stream", frame, id, stream, 1
                if (frame >= first) print "put", frame, id, stream, "0011223344556677"
            }
        }
    }'
}

lossy() {
    if ! command -v python3 > /dev/null; then
        echo "lossy: left out, since there is no python3, which draws its text" >&2
        return 1
    fi
    python3 "$bench/made.py" 7 64 256
}

# The peak of a run in the background, as long as it runs.
peak_by_status() {
    "$program" run < "$folder/text" > "$folder/answer" &
    process=$!
    peak=
    while next=$(awk '$1 == "VmHWM:" { print $2 }' "/proc/$process/status" 2> "$folder/errors") && [ -n "$next" ]; do
        peak=$next
    done
    wait "$process"
    echo "$peak"
}

# measure NAME RUNS: the text is in the folder.
measure() {
    # The report ends where the log begins.
    counts=$("$program" log < "$folder/text" | awk '
        $1 == "sent" { sent++ }
        $1 == "deliver" { delivered++ }
        END { print sent + 0, delivered + 0 }')
    sent=${counts% *}
    echo "$1: $sent sendings and ${counts#* } deliveries in a run"

    # The processor time of all runs in milliseconds.
    milliseconds=$(
        (
            round=1
            while [ "$round" -le "$2" ]; do
                "$program" run < "$folder/text" > "$folder/answer"
                round=$((round + 1))
            done
            times
        ) | awk 'END { gsub(/[ms]/, " "); print 60000 * ($1 + $3) + 1000 * ($2 + $4) }'
    )
    awk -v name="$1" -v sent="$sent" -v runs="$2" -v ms="$milliseconds" 'BEGIN {
        printf "%s: %.3f seconds of processor time for a run\n", name, ms / runs / 1000
        if (ms > 0) printf "%s: %d sendings a second\n", name, 1000 * sent * runs / ms
        if (sent > 0) printf "%s: %.2f µs of processor time for a sending\n", name, 1000 * ms / sent / runs
    }'

    if [ -x /usr/bin/time ] && /usr/bin/time -f %M -o "$folder/peak" "$program" run < "$folder/text" > "$folder/answer"; then
        peak=$(cat "$folder/peak")
    else
        peak=$(peak_by_status)
    fi
    if [ -n "$peak" ]; then echo "$1: $peak kB of memory at most"; fi
}

if [ "$program" = --text ]; then
    case ${2:-} in
        sparse) sparse ;;
        dense) dense 256 ;;
        lossy) lossy ;;
        *) echo "bench/run.sh: sparse, dense or lossy" >&2; exit 2 ;;
    esac
    exit
fi

for name in ${2:-sparse dense lossy}; do
    case $name in
        sparse)
            sparse > "$folder/text"
            measure sparse 5
            ;;
        dense)
            dense 256 > "$folder/text"
            measure dense 1
            ;;
        lossy)
            if lossy > "$folder/text"; then measure lossy 3; fi
            ;;
        sizes)
            while read -r frames runs; do
                dense "$frames" > "$folder/text"
                measure "$frames frames" "$runs"
            done << END
10 50
36 10
70 3
176 1
END
            ;;
        *)
            echo "bench/run.sh: sparse, dense, lossy or sizes, and not $name" >&2
            exit 2
            ;;
    esac
done
