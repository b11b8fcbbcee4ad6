#!/usr/bin/env bash
# Runs the built program and says what it does other than it should: on each example, whose report in examples/expected was
# worked out from the rules; on texts that bench/made.py draws; over streams that fail, with each status (tests/statuses.sh), and on
# the greatest sizes; built by the second compiler, on each example again; on worked scenarios, words that are no command, texts
# that are rejected (tests/worked.sh) and recorded logs (tests/verdicts.sh); with reads, writes and requests for memory that fail, each
# in turn (tests/counted_calls.sh); and by the front end ./foldcairn (tests/front_end.sh).
# The last line is 'N passed, M failed', and the status is 0 where M is 0.
# Usage: tests/program.sh [PROGRAM [OTHER]]. OTHER is the same program as the second compiler builds it. By default they are
# what the gate built, or they are built.
set -u
top=$(cd "$(dirname "$0")/.." && pwd) || exit 1
folder=$(mktemp -d) || exit 1
trap 'rm -rf "$folder"' EXIT

# Whether a file is there that runs, and no source is newer.
is_built() {
    [ -x "$1" ] && [ -z "$(find "$top/crates.txt" "$top/crates" -path '*/out' -prune -o -type f -newer "$1" -print -quit)" ]
}

# Builds the program by that compiler and keeps it in the folder of this run.
build() {
    echo "building the program by $1 .." >&2
    if ! (cd "$top/crates/foldcairn" && rt run --backend "$1" -- flood) < "$top/crates/foldcairn/stdin" > "$folder/build" 2>&1; then
        tail -n 20 "$folder/build" >&2
        echo "0 passed, 1 failed"
        exit 1
    fi
    cp "$top/crates/foldcairn/out/foldcairn" "$folder/by-$1"
}

by_gate=$top/crates/foldcairn/out/foldcairn
if [ $# -ge 1 ]; then
    program=$1
    other=${2:-}
elif is_built "$by_gate" && is_built "$by_gate.by-rattle"; then
    program=$by_gate
    other=$by_gate.by-rattle
else
    # The build that is kept in the crate is the first compiler's, so that one comes last.
    build rattle
    build llvm
    program=$folder/by-llvm
    other=$folder/by-rattle
fi

. "$top/tests/counting.sh"
. "$top/tests/statuses.sh"
. "$top/tests/counted_calls.sh"

# reports WORD FILE EXPECTED: whether the program writes that of the file, by that word.
reports() {
    "$program" "$1" < "$2" > "$folder/out"
    status=$?
    says "$1 of $(basename "$2"): status $status" [ "$status" -eq 0 ]
    says "$1 of $(basename "$2"): other report" cmp -s "$folder/out" "$top/examples/expected/$3"
}

examples() {
    local file name
    for file in "$top"/examples/*.flood "$top"/examples/*.deadlines; do
        name=$(basename "$file")
        reports "${name##*.}" "$file" "${name%.*}.report"
    done
    for file in "$top"/examples/*.scenario; do
        name=$(basename "$file" .scenario)
        reports run "$file" "$name.report"
        reports bus "$file" "$name.bus-report"
    done
}

# What the second compiler's program writes, to the byte. A log is compared too.
by_both() {
    local file name words word theirs
    for file in "$top"/examples/*.flood "$top"/{examples,tests/worked}/*.scenario "$top"/examples/*.deadlines; do
        name=$(basename "$file")
        words=${name##*.}
        [ "$words" = scenario ] && words="run log bus times return"
        for word in $words; do
            "$program" "$word" < "$file" > "$folder/out"
            status=$?
            "$other" "$word" < "$file" > "$folder/other"
            theirs=$?
            says "$word of $name by both compilers: status $status and $theirs" [ "$status" -eq 0 -a "$theirs" -eq 0 ]
            says "$word of $name by both compilers: other bytes" cmp -s "$folder/out" "$folder/other"
        done
    done
    "$program" demo 7 20 50 > "$folder/out"
    "$other" demo 7 20 50 > "$folder/other"
    says "a demo by both compilers: other bytes" cmp -s "$folder/out" "$folder/other"
}

# What the program writes for these three numbers, with no input at all, and with one that it leaves alone.
demos() {
    local name=$1 text=$2
    shift 2
    "$program" demo "$@" < /dev/null > "$folder/out"
    status=$?
    ends "$name" 0 "$text"
    run_on "$line" demo "$@"
    ends "$name, with an input" 0 "$text"
}

# What bench/made.py draws of these three numbers: its run sums up to that.
drawn() {
    local name=$1 text=$2
    shift 2
    python3 "$top/bench/made.py" "$@" > "$folder/in"
    "$program" run < "$folder/in" > "$folder/report"
    status=$?
    awk '{ count[$1]++ }
        $1 == "energy" { sent += $3; on += $6 }
        END { printf "deliveries %d\ndrops %d\nsent %.0f\non %.0f\n", count["deliver"], count["drop"], sent, on }' \
        "$folder/report" > "$folder/out"
    ends "$name" 0 "$text"
}

# tests/front_end.sh compares it.
# shellcheck disable=SC2034
usage=$'usage: flood | run | log | bus | demo SEED NODES FRAMES | check | deadlines | times | return\n'
line=$'sends 2\nnode 1 0\nnode 2 0\nnode 3 0\npair 1 2\npair 2 3\nstart 1\n'
base=$'sends 2\nnode 1 0\nnode 2 0\nhost 0 1\npair 1 2\n'

words_and_texts() {
    # Such words are no text, so the program cannot say what they ask for.
    run_on "$line" $'\xff'
    ends "a word that is no UTF-8" 6 ""
    head -c 4194305 /dev/zero | tr '\0' '#' > "$folder/long"
    "$program" run < "$folder/long" > "$folder/out"
    status=$?
    ends "one byte more than may come" 1 $'fault too long\n'
    # A comment of the greatest length before a text that is sound.
    { head -c $((4194303 - ${#line})) "$folder/long"; printf '\n%s' "$line"; } > "$folder/longest"
    "$program" flood < "$folder/longest" > "$folder/out"
    status=$?
    ends "as many bytes as may come" 0 $'accept 2 0\naccept 3 1\nsent 6\n'
}

# Each status, and 3 and 4 with a stream that fails alone. A fault line and a usage line are written too.
statuses() {
    local word
    printf '%s' "$line" > "$folder/in"
    by_streams 0 flood
    printf '%sframes 12\non 0 1\non 0 2\nstream 0 2 0 4\nput 0 2 0 aa\n' "$base" > "$folder/in"
    for word in run log bus times return; do
        by_streams 0 "$word"
    done
    printf '%sframes 12\nlog\n' "$base" > "$folder/in"
    by_streams 0 check
    cp "$top/examples/one-slot-three-streams.deadlines" "$folder/in"
    by_streams 0 deadlines
    printf '%s' "$line" > "$folder/in"
    by_streams 1 run
    reads_nothing 0 demo 7 2 1
    reads_nothing 2 floods
    reads_nothing 2 run run
    gives "a word that is no UTF-8, from a folder" 6 "$folder" /dev/null $'\xff'
    for word in flood run log bus check deadlines times return; do
        with_little_memory "$word"
    done
    # The reader of this pipe is gone before anything is written.
    printf '%s' "$line" > "$folder/in"
    (sleep 0.3; "$program" flood < "$folder/in" 2> "$folder/err"; echo $? > "$folder/status") | true
    says "a closed pipe: status $(cat "$folder/status"), not 4" [ "$(cat "$folder/status")" = 4 ]
}

# Each beginning of a scenario, read a byte at a time: whole lines and a part of the next one. A line that is cut within its words is a
# fault, and without its first six lines a scenario lacks what it must have. Where the costs are not worked out, their line only begins so.
cut_texts() {
    local lines line part read_lines code wanted before="" whole=0 cut report
    report=$'deliver 9 0 1 1 2 1 0 0 aa\ncost 1 450560 9681408 5\ncost 2 450560 9551872 6\n'
    [ -n "$counts_calls" ] || return
    mapfile -t lines < "$folder/scenario"
    for line in "${lines[@]}"; do
        for ((cut = 0; cut <= ${#line}; cut++)); do
            part=${line:0:cut}
            read_lines=$((whole + (cut > 0)))
            code=1
            # Cut after one digit, the line of the frames is a line still.
            if [ "$cut" -gt 0 ] && [ "$part" != "$line" ] && [ "$part" != "frames 1" ]; then
                wanted="fault line $read_lines: BadWord"$'\n'
            elif [ "$read_lines" -lt 6 ]; then
                wanted="fault line $((read_lines + 1)): Missing"$'\n'
            elif [ "$read_lines" -eq 6 ]; then
                # No line switches a node on.
                code=0 wanted=$'cost 1 0 0 0\ncost 2 0 0 0\n'
            elif [ "$read_lines" -lt "${#lines[@]}" ]; then
                code=0 wanted="cost 1 "
            else
                code=0 wanted=$report
            fi
            printf '%s%s' "$before" "$part" > "$folder/in"
            SHORT_READS=1 counted bus < "$folder/in" > "$folder/whole"
            status=$?
            head -c "${#wanted}" "$folder/whole" > "$folder/out"
            ends "a scenario of $whole lines and $cut bytes" "$code" "$wanted"
        done
        before+=$line$'\n'
        whole=$((whole + 1))
    done
}

# Each command, with the causes of its statuses. A scenario is checked with its log and without a line log.
causes() {
    local word
    printf '%s' "$line" > "$folder/flood"
    printf '%sframes 12\non 0 1\non 0 2\nstream 0 2 0 4\nput 0 2 0 aa\n' "$base" > "$folder/scenario"
    { cat "$folder/scenario"; echo log; "$program" log < "$folder/scenario"; } > "$folder/check"
    each_cause "$folder/flood" flood
    for word in run log bus times return; do
        each_cause "$folder/scenario" "$word"
    done
    each_cause "$folder/check" check
    each_request 1 "$folder/scenario" check
    each_cause "$top/examples/one-slot-three-streams.deadlines" deadlines
    each_request 0 /dev/null demo 7 2 1
    FAILED_WRITE=1 each_request 4 /dev/null demo 7 2 1
    each_request 2 /dev/null floods
    cut_texts
    each_call "$folder/scenario" run
    each_call "$folder/flood" flood
}

# Two texts and a demo as large as they may be, with ample memory: that memory suffices is said by no clause.
greatest_sizes() {
    # Two thousand rates of one clock, which change nothing.
    {
        printf '%s' "$line"
        seq -f 'rate 1 %.0f 0' 0 1999
    } > "$folder/in"
    "$program" flood < "$folder/in" > "$folder/out"
    status=$?
    ends "two thousand rates of one node" 0 $'accept 2 0\naccept 3 1\nsent 6\n'
    # Thirty-two streams, each with a job in each frame that has to be served at once: a round has all their owners.
    {
        printf 'slots 40\nframes 1024\n'
        seq -f 'stream %.0f 3 0 1 1' 1 32
    } > "$folder/in"
    {
        seq -f 'admit %.0f 3' 1 32
        seq -f "round %.0f $(seq -s ' ' 7 4 131)" 0 1023
    } > "$folder/all"
    "$program" deadlines < "$folder/in" > "$folder/out"
    says "thirty-two streams in 1,024 frames: status $?, not 0" [ $? -eq 0 ]
    says "thirty-two streams in 1,024 frames: other output" cmp -s "$folder/all" "$folder/out"
    demos "a demo of 64 nodes in 256 frames" $'deliveries 63103\ndrops 2223\nsent 6072967168\non 435905812220\n' 7 64 256
}

count_calls
examples
demos "a demo of two nodes" $'deliveries 0\ndrops 0\nsent 0\non 512000000\n' 7 2 1
demos "a demo of the greatest seed" $'deliveries 0\ndrops 0\nsent 0\non 512000000\n' 9999999999999 2 1
demos "a demo of twenty nodes" $'deliveries 295\ndrops 0\nsent 52015104\non 111995785254\n' 7 20 50
if command -v python3 > /dev/null; then
    drawn "a drawn text of two nodes" $'deliveries 0\ndrops 0\nsent 0\non 512000000\n' 7 2 1
    drawn "a drawn text of twenty nodes" $'deliveries 295\ndrops 0\nsent 52015104\non 111995785254\n' 7 20 50
    drawn "a drawn text of 64 nodes in 256 frames" $'deliveries 63103\ndrops 2223\nsent 6072967168\non 435905812220\n' 7 64 256
else
    echo "left out: the texts that bench/made.py draws, since there is no python3" >&2
fi
words_and_texts
statuses
greatest_sizes
[ -n "$other" ] && by_both
. "$top/tests/worked.sh"
worked_texts
. "$top/tests/verdicts.sh"
checked_logs
causes
statuses_have_causes
counts_no_more
. "$top/tests/front_end.sh"
front_end
echo "$passed passed, $failed failed"
[ "$failed" -eq 0 ]
