#!/usr/bin/env bash
# Whether the statuses 3, 4 and 5 come where a read, a write or a request for memory failed, and nowhere else. No contract says that: 5
# has no cause in one, and for 3 and 4 the program's own count is the cause. A library between the program and the C library
# (counted_calls.c) counts the calls that fail, and can make one fail. For tests/program.sh and tests/plan.sh, which have says, program
# and folder.

# count_calls: from here on program is the function counted. Without a C compiler nothing is counted.
count_calls() {
    local compiler
    uncounted=$program
    counts_calls=
    if compiler=$(command -v cc || command -v gcc) && "$compiler" -O1 -shared -fPIC -o "$folder/counted_calls.so" "$top/tests/counted_calls.c"; then
        counts_calls=yes
        program=counted
    elif [ "${CI:-}" = true ]; then
        says "no call is counted, since there is no C compiler" false
    else
        echo "left out: the count of the calls that fail, since there is no C compiler" >&2
    fi
}

# counts_no_more: program is what it was.
counts_no_more() {
    program=$uncounted
}

# counted WORD..: a run of the program, which adds a line to $folder/calls.
counted() {
    LD_PRELOAD=$folder/counted_calls.so COUNTED_CALLS=$folder/calls "$uncounted" "$@"
}

# has_no_end WORD: whether the run by that word has written nothing to $folder/out; or where the word is sample, which writes one seed after
# another, a part of $folder/whole without its end.
has_no_end() {
    local size
    [ -s "$folder/out" ] || return 0
    size=$(stat -c %s "$folder/out")
    [ "$1" = sample ] && [ "$size" -lt "$(stat -c %s "$folder/whole")" ] && cmp -s -n "$size" "$folder/out" "$folder/whole"
}

# each_request STATUS INPUT WORD..: these words end with that status, and with 5 where a request for memory is refused, whichever it is.
# A list that is made of others first asks for room for all of them, and where that is refused for one at a time. So the run may
# end as it would, and then it has to end with 5 where all later requests are refused too.
each_request() {
    local whole=$1 input=$2 requests number status name
    shift 2
    [ -n "$counts_calls" ] || return
    name="$* of ${input##*/}${FAILED_READ+ with a failing read}${FAILED_WRITE+ with a failing write}"
    counted "$@" < "$input" > "$folder/whole"
    status=$?
    says "$name: status $status, not $whole" [ "$status" -eq "$whole" ]
    requests=$(tail -n 1 "$folder/calls" | cut -d ' ' -f 2)
    says "$name: no request for memory" [ "$requests" -gt 0 ]
    for ((number = 1; number <= requests; number++)); do
        REFUSED_REQUEST=$number counted "$@" < "$input" > "$folder/out"
        status=$?
        if [ "$status" -eq "$whole" ]; then
            says "$name without request $number: other output" cmp -s "$folder/out" "$folder/whole"
            REFUSED_FROM=$number counted "$@" < "$input" > "$folder/out"
            status=$?
        fi
        says "$name without request $number: status $status, not 5" [ "$status" -eq 5 ]
        says "$name without request $number: other output" has_no_end "$1"
    done
}

# each_cause TEXT WORD..: a command that reads, on a text that it takes and on one with a fault in its last line; on an input that is
# too long (the file long), or that fails at once or at its end; and over a sink that fails at its second byte.
each_cause() {
    local text=$1
    shift
    { cat "$text"; echo x; } > "$folder/rejected"
    each_request 0 "$text" "$@"
    each_request 1 "$folder/rejected" "$@"
    each_request 1 "$folder/long" "$@"
    each_request 3 "$folder" "$@"
    FAILED_READ=2 each_request 3 "$text" "$@"
    FAILED_WRITE=2 SHORT_WRITES=1 each_request 4 "$text" "$@"
    FAILED_WRITE=2 SHORT_WRITES=1 each_request 4 "$folder/rejected" "$@"
}

# each_call TEXT WORD: the command reads this text a byte a call, and writes seven bytes a call. Where a read fails, whichever it is, nothing
# is written; where a write fails, what went out before it is a beginning of the report.
each_call() {
    local text=$1 word=$2 size call
    [ -n "$counts_calls" ] || return
    "$uncounted" "$word" < "$text" > "$folder/whole"
    SHORT_READS=1 SHORT_WRITES=7 counted "$word" < "$text" > "$folder/out"
    status=$?
    says "$word in short calls: status $status, not 0" [ "$status" -eq 0 ]
    says "$word in short calls: other output" cmp -s "$folder/out" "$folder/whole"
    size=$(stat -c %s "$text")
    # The last call says that the text has ended.
    for ((call = 1; call <= size + 1; call++)); do
        SHORT_READS=1 FAILED_READ=$call counted "$word" < "$text" > "$folder/out"
        status=$?
        says "$word without read $call: status $status, not 3" [ "$status" -eq 3 ]
        says "$word without read $call: some output" [ ! -s "$folder/out" ]
    done
    size=$(stat -c %s "$folder/whole")
    for ((call = 1; 7 * (call - 1) < size; call++)); do
        SHORT_WRITES=7 FAILED_WRITE=$call counted "$word" < "$text" > "$folder/out"
        status=$?
        head -c "$((7 * (call - 1)))" "$folder/whole" > "$folder/part"
        says "$word without write $call: status $status, not 4" [ "$status" -eq 4 ]
        says "$word without write $call: other output before it" cmp -s "$folder/out" "$folder/part"
    done
}

# statuses_have_causes: of all runs so far that were counted, 3 came exactly where a read failed, 4 where a write did, and 5 where the
# last request for memory was refused.
statuses_have_causes() {
    [ -n "$counts_calls" ] || return
    awk '($1 == 3) != ($6 > 0) || ($1 == 4) != ($8 > 0) || ($1 == 5) != $4' "$folder/calls" > "$folder/wrong"
    says "statuses without their cause, as $(head -n 1 "$folder/wrong")" [ ! -s "$folder/wrong" ]
    says "no run is counted" [ -s "$folder/calls" ]
}
