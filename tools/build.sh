#!/bin/sh
# Proves and builds a program, crates/CRATE/out/CRATE, and says how far it is. Crates are proved side by side as far as
# processors and memory go, without their tests. What was proved is kept if it is stopped.
# Usage: tools/build.sh [NAME], by the names and crates of tools/commands.txt; without NAME it is foldcairn.
set -u
top=$(cd "$(dirname "$0")/.." && pwd) || exit 1
name=${1:-foldcairn}
crate=$(sed -n "s/^program|$name|\([^|]*\)|.*/\1/p" "$top/tools/commands.txt")
words=$(sed -n "s/^program|$name|[^|]*|//p" "$top/tools/commands.txt")
out=$top/crates/$crate/out
program=$out/$crate
log=$out/build.log
builder=
begun=$(date +%s)

say() {
    echo "foldcairn: $*" >&2
}

# How many proofs are in work at a time: one takes a processor and up to 2.5 GB of memory. A crate that waits for those below it
# takes neither, so there are half as many places more.
at_once() {
    processors=$(getconf _NPROCESSORS_ONLN 2>/dev/null) || processors=1
    free=$(awk '$1 == "MemAvailable:" { print int($2 / 2500000) }' /proc/meminfo 2>/dev/null)
    [ -n "$free" ] && [ "$free" -lt "$processors" ] && processors=$free
    [ "$processors" -ge 1 ] || processors=1
    echo "$processors"
}

# The crates that the program stands on, itself included, as crates.txt lists them.
needed() {
    awk -F: -v waiting="$crate" '
        /^[a-z]/ { uses[$1] = $2 }
        END {
            while (waiting != "") {
                split(waiting, names, " "); waiting = ""
                for (i in names) if (names[i] in uses && !(names[i] in seen)) {
                    seen[names[i]] = 1; print names[i]; waiting = waiting " " uses[names[i]]
                }
            }
        }' "$top/crates.txt"
}

# Whether all is proved but the program and its command, the last crate that it uses. They wait for all others and for one
# another.
only_last_left() {
    command=$(sed -n "s/^$crate:.* //p" "$top/crates.txt")
    for one in $needed; do
        case $one in "$crate" | "$command") continue ;; esac
        [ -e "$top/crates/$one/out/rlib/stamp" ] || return 1
    done
}

# How far the proofs are: the crates that are done, the functions of those that are in work, and the minutes so far. A crate
# that is in work has a folder rlib without a stamp.
progress() {
    crates=0
    all=0
    present=
    for one in $needed; do
        all=$((all + 1))
        if [ -e "$top/crates/$one/out/rlib/stamp" ]; then
            crates=$((crates + 1))
        elif [ -d "$top/crates/$one/out/rlib" ]; then
            functions=$(find "$top/crates/$one/out/incremental" -name '*.Proof.oantt' 2>/dev/null | wc -l)
            present="$present, $((functions)) functions of $one"
        fi
    done
    echo "$crates of $all crates proved$present; $((($(date +%s) - begun) / 60)) minutes"
}

# Says how far it is as long as the builder runs: on a terminal in one line that changes, elsewhere in a line a minute. It ends
# a builder of which only that is asked, as soon as the command given says so.
watch() {
    seconds=0
    while kill -0 "$builder" 2>/dev/null; do
        if [ -t 2 ]; then
            printf '\r\033[Kfoldcairn: %.*s' "$((${COLUMNS:-$(tput cols 2>/dev/null || echo 80)} - 12))" "$(progress)" >&2
        elif [ "$seconds" -gt 0 ] && [ "$((seconds % 60))" -eq 0 ]; then
            say "$(progress)"
        fi
        "$1" && kill "$builder" 2>/dev/null
        sleep 2
        seconds=$((seconds + 2))
    done
    [ -t 2 ] && printf '\r\033[K' >&2
}

stopped() {
    trap - INT TERM HUP
    [ -n "$builder" ] && kill "$builder" 2>/dev/null
    [ -t 2 ] && echo >&2
    say "stopped; what was proved is kept, and the next call goes on from there"
    exit 130
}

# Runs a command in the program's folder with its output in the log, and says how far it is. The first word is a command that
# says when to end it early.
build() {
    enough=$1
    shift
    (cd "$top/crates/$crate" && exec "$@") >>"$log" 2>&1 <"$top/crates/$crate/stdin" &
    builder=$!
    watch "$enough"
    wait "$builder"
    status=$?
    builder=
    return "$status"
}

if ! command -v rt >/dev/null 2>&1; then
    say "the Rattle toolchain is missing: its command rt is not on the PATH"
    exit 127
fi
mkdir -p "$out" && : >"$log" || exit 126
trap stopped INT TERM HUP
needed=$(needed)
jobs=$(at_once)
say "proving and building the program, $((jobs * 3 / 2)) crates at a time: from nothing about 20 minutes on 4 cores, some 35 on 2; 7 GB of memory, 7 GB of disk"
# In the folder of the program 'rt all' proves the program and what it stands on, and nothing else, each crate by one job. Once
# only the last two are left, which wait for one another, 'rt run' goes on with all jobs. The built program is run once on the
# input that is stored beside it, so status 0 says that it is there.
build only_last_left rt all check --jobs "$((jobs * 3 / 2))"
# shellcheck disable=SC2086 # The words are words each.
if ! only_last_left || ! build false rt run --jobs "$jobs" -- $words; then
    say "the program could not be built; the end of $log:"
    tail -n 20 "$log" >&2
    exit 126
fi
touch "$program"
say "built in $((($(date +%s) - begun + 30) / 60)) minutes"
