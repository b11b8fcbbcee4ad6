#!/usr/bin/env bash
# What check says of logs of a first round: of the log as it is, of logs that were changed, and of lines that no log may have. For
# tests/program.sh, which has says, ends and run_on, and with the functions of tests/worked.sh.

# verdict NAME ANSWER LOG [MORE]: what check says of a log of the first round, or of it with more lines of the scenario.
verdict() {
    run_on "$(cat "$worked/first-round.scenario")"$'\n'"${4-}"$'  log\t\n'"$3" check
    ends "check of $1" 0 "$2"$'\n'
}

# Lines of the log of the first round.
lines() {
    grep -v '^energy' "$worked/expected/first-round.log" | sed -n "$1"
}

# A node relays what it received, so where a reception is not there, or is another, its transmissions have no cause. What comes
# to a node that is off, or ends with the run, changes nothing that a node does. Lines of a report may be in a log, and the order
# of its lines is of no account.
verdicts() {
    local all on sent heard rest third=$'node 3 0\n' opening=01000000010000000000
    all=$(lines p)$'\n'
    on=$(lines 1,3p)$'\n'
    sent=$(lines 4p)$'\n'
    heard=$(lines 5p)$'\n'
    rest=$(lines '6,$p')$'\n'
    verdict "the log" lawful "$all"
    verdict "another order" lawful "$rest$heard$on$sent"
    verdict "more lines" lawful $'energy 1 of any form\n# 1\n\ndeliver\ndrop 9\n'"$all"
    verdict "no line" "no trail 1" ""
    verdict "a heard line taken away" "no trail 2" "$on$sent$rest"
    verdict "tuned lines taken away" "no trail 1" "$sent$heard$rest"
    verdict "a transmission twice" "no trail 1" "$on$sent$sent$heard$rest"
    verdict "a transmission a tick late" "no trail 1" "${on}sent 0 1 1344064001 1344100865 $opening"$'\n'"$heard$rest"
    verdict "a transmission by another node" "no trail 1" "${on}${sent/sent 0 1/sent 0 2}$heard$rest"
    verdict "a reception a tick late" "no trail 2" "$on${sent}heard 0 2 1 1344064001 1344100865 $opening"$'\n'"$rest"
    verdict "a byte of a reception changed" "no trail 2" "$on$sent${heard/0001000/0002000}$rest"
    # The relay of node 2 is ordered already, so a second reception of the closing schedule changes nothing that it does.
    verdict "a reception twice" "no heard 22" "$on$sent$heard${rest}heard 0 2 1 1348288000 1348324864 01020004010000000000"$'\n'
    verdict "a reception that ends with the run" "no heard 6" \
        "$on$sent${heard}heard 0 2 1 1535999000 1536000000 $opening"$'\n'"$rest"
    verdict "a transmission of a node that is off" "no trail 3" "${all}sent 0 3 5 6 010000"$'\n' "$third"
    verdict "a radio of a node that is off" "no trail 3" "${all}tuned 0 3 5 6"$'\n' "$third"
    verdict "a reception of a node that is off" "no heard 1" "heard 0 3 1 1344064000 1344100864 $opening"$'\n'"$all" "$third"
}

# Lines of a log, each with the kind of its fault: the first kind that holds of it. Eight lines of the scenario, the line log and
# a skipped one are above the line.
rejected_log_lines() {
    local kind text first
    first=$(cat "$worked/first-round.scenario")
    while read -r kind text; do
        rejects "the log line '$text'" check 11 "$kind" "$first"$'\nlog\ndrop\n'"$text"$'\nfloods\n'
    done << 'LINES'
BadWord log
BadWord delivery 1
BadWord sents 0 1 5 6 010000
BadWord sent 0 1 5 6
BadWord sent 0 1 5 6 7 010000
BadWord sent 0 1 5 6 01000
BadWord sent 0 1 5 6 -
BadWord sent 0 1 x 6 0100zz
BadWord heard 0 2 5 6 010000
BadWord heard 0 2 1 5 6 7 010000
BadWord tuned 0 1 5
BadWord tuned 0 1 5 6 7
BadNumber sent 00 1 5 6 010000
BadNumber heard 0 2 +1 5 6 010000
BadNumber tuned 0 1 0 10000000000000
BadNumber tuned 4 1 5 6x
Range tuned 4 9 5 6
Range tuned 0 0 5 6
Range tuned 0 201 5 6
Range tuned 0 1 6 6
Range sent 0 1 6 5 010000
Range sent 0 1 5 6 0100
Range heard 0 2 0 5 6 010000
Range heard 0 2 201 5 6 010000
UnknownNode sent 0 9 5 6 010000
UnknownNode heard 0 9 1 5 6 010000
UnknownNode heard 0 2 9 5 6 010000
UnknownNode tuned 0 9 5 6
LINES
}

checked_logs() {
    verdicts
    rejected_log_lines
}
