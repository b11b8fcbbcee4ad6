#!/usr/bin/env bash
# How tests of a built program count: for tests/program.sh and tests/plan.sh, which set program and folder.
# shellcheck disable=SC2154
passed=0
failed=0

# says NAME CONDITION..: counts whether the condition holds.
says() {
    local name=$1
    shift
    if "$@"; then
        passed=$((passed + 1))
    else
        failed=$((failed + 1))
        echo "FAILED: $name"
    fi
}

# ends NAME STATUS TEXT: whether the last run ended with that status and wrote that text to $folder/out.
ends() {
    local name=$1 wanted=$2 text=$3
    printf '%s' "$text" > "$folder/wanted"
    says "$name: status $status, not $wanted" [ "$status" -eq "$wanted" ]
    says "$name: other output" cmp -s "$folder/wanted" "$folder/out"
}

# A run of the program on a text: its words, with the text as standard input.
run_on() {
    local text=$1
    shift
    printf '%s' "$text" > "$folder/in"
    "$program" "$@" < "$folder/in" > "$folder/out"
    status=$?
}
