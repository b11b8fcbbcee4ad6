#!/usr/bin/env bash
# With which status a built program ends. Its `main` has no contract, so each status is tried here: 0 to 6. Statuses 3 and 4 come with
# a stream that fails, and the same words over streams that do not fail end with another. For tests/program.sh and tests/plan.sh, which
# have says, program and folder.

# gives NAME STATUS INPUT OUTPUT WORD..: whether the program ends with that status, from the first file to the second.
gives() {
    local name=$1 wanted=$2 input=$3 output=$4 status
    shift 4
    "$program" "$@" < "$input" > "$output" 2> "$folder/err"
    status=$?
    says "$name: status $status, not $wanted" [ "$status" -eq "$wanted" ]
}

# by_streams STATUS WORD..: a command that reads, with the input in the file in, over streams that fail and streams that do not. An
# input that fails comes first.
by_streams() {
    local whole=$1
    shift
    gives "$* over whole streams" "$whole" "$folder/in" /dev/null "$@"
    gives "$* from a folder" 3 "$folder" /dev/null "$@"
    "$program" "$@" <&- > /dev/null 2>&1
    says "$* from a closed input: status $?, not 3" [ $? -eq 3 ]
    "$program" "$@" < "$folder/in" >&- 2> "$folder/err"
    says "$* to a closed output: status $?, not 4" [ $? -eq 4 ]
    if [ -w /dev/full ]; then
        gives "$* to a full device" 4 "$folder/in" /dev/full "$@"
        gives "$* from a folder to a full device" 3 "$folder" /dev/full "$@"
    fi
}

# reads_nothing STATUS WORD..: words for which nothing is read, so that an input that fails is no fault.
reads_nothing() {
    local whole=$1
    shift
    gives "$* from a folder" "$whole" "$folder" /dev/null "$@"
    if [ -w /dev/full ]; then
        gives "$* to a full device" 4 /dev/null /dev/full "$@"
    fi
}

# with_little_memory WORD..: an input of 4 MiB, for which there is no room though the program starts.
with_little_memory() {
    head -c 4194304 /dev/zero | tr '\0' '#' > "$folder/in"
    (ulimit -v 6000; "$program" "$@" < "$folder/in" > "$folder/out")
    says "$* with little memory: status $?, not 5" [ $? -eq 5 ]
    says "$* with little memory: it writes something" [ ! -s "$folder/out" ]
}
