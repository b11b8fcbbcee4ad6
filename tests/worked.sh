#!/usr/bin/env bash
# What the program writes of worked texts: of the scenarios in tests/worked, whose reports, deliveries, stamps and returns were worked
# out from the rules; of words that are no command, texts that are rejected and streams with deadlines; of texts of many nodes and
# returns at the limits; and of drawn scenarios, whose stamps tests/stamps.py makes by their definition. For tests/program.sh, which
# has says, ends, run_on, line, base and usage.

worked=$top/tests/worked

# Whether what was written last begins as the file wanted.
begins() {
    cmp -s -n "$(stat -c %s "$folder/wanted")" "$folder/out" "$folder/wanted"
}

# has NAME WORD KIND: whether what the program writes of a worked scenario by that word, so far as it is of this kind, is what
# was worked out: deliver and drop lines alone, some lines of it, or all lines before those of the energy.
#
# Stamps: over clocks that read the true time, slot j of the round of frame f starts at f * FRAME + LEAD + j * SLOT + LISTEN. A sender
# starts where its clock first reads the time of its slot by the zero that its schedule gave it, and its stamp is by that same
# zero: so the stamp is that sum too, whatever the clock, or 1 more where a fast clock steps over the reading.
has() {
    local name=$1 word=$2 kind=$3
    "$program" "$word" < "$worked/$name.scenario" > "$folder/out"
    status=$?
    says "$word of $name: status $status" [ "$status" -eq 0 ]
    case $kind in
        deliveries)
            grep '^d' "$folder/out" > "$folder/lines"
            says "$word of $name: other deliveries" cmp -s "$folder/lines" "$worked/expected/$name.$kind"
            ;;
        log-lines)
            grep -xFf "$worked/expected/$name.$kind" "$folder/out" > "$folder/lines"
            says "$word of $name: lines are missing" cmp -s "$folder/lines" "$worked/expected/$name.$kind"
            ;;
        return-start)
            { cat "$worked/expected/$name.$kind"; printf 'energy 1 '; } > "$folder/wanted"
            says "$word of $name: other lines before the energy" begins
            ;;
        *) says "$word of $name: other lines" cmp -s "$folder/out" "$worked/expected/$name.$kind" ;;
    esac
}

worked_scenarios() {
    local file name
    for file in "$worked"/expected/*; do
        name=$(basename "$file")
        case $name in
            *.report) has "${name%.*}" run report ;;
            *.bus-report) has "${name%.*}" bus bus-report ;;
            *.log) has "${name%.*}" log log ;;
            *.log-lines) has "${name%.*}" log log-lines ;;
            *.times) has "${name%.*}" times times ;;
            *.return) has "${name%.*}" return return ;;
            *.return-start) has "${name%.*}" return return-start ;;
            *.deliveries)
                has "${name%.*}" run deliveries
                has "${name%.*}" bus deliveries
                ;;
        esac
    done
}

# What bus writes is what run writes, but that a node costs what its energy line has before its last number.
bus_against_run() {
    local file
    for file in "$worked"/*.scenario "$top"/examples/*.scenario; do
        "$program" run < "$file" | sed 's/^energy \(.*\) [0-9]*$/cost \1/' > "$folder/wanted"
        "$program" bus < "$file" > "$folder/out"
        says "bus of $(basename "$file"): not as run" cmp -s "$folder/out" "$folder/wanted"
    done
}

# requests FILE TICKS TEXT: the frame, slot and node of each request that a node begins in the run of a scenario with frames of so
# many ticks. A request's first byte is 3, and its next ones are the slot and the counter, which is 0 where it is not relayed.
requests() {
    "$program" log < "$1" | awk -v ticks="$2" '$1 == "sent" && $6 ~ /^03..00/ { print int($4 / ticks), substr($6, 3, 2) + 0, $3 }' |
        sort -n > "$folder/out"
    printf '%s' "$3" > "$folder/wanted"
    says "requests of $(basename "$1")" cmp -s "$folder/wanted" "$folder/out"
}

slots_of_requests() {
    local frame=256000000 examples=$top/examples
    requests "$worked/one-stream-one-packet.scenario" $frame $'5 1 2\n'
    requests "$worked/opening-and-closing-missed.scenario" $frame $'5 1 2\n13 5 2\n'
    requests "$examples/two-contenders.scenario" $frame $'5 1 2\n5 1 3\n9 1 2\n13 5 3\n'
    requests "$examples/host-restarts.scenario" $frame $'5 1 2\n11 1 2\n'
    requests "$examples/backup-host-takes-over.scenario" $frame $'5 1 3\n27 1 3\n'
    requests "$examples/two-contention-slots.scenario" 320000000 $'5 1 2\n5 2 3\n'
}

refused_words() {
    local words
    for words in floods "run extra" "flood flood" "check extra" "deadlines extra" demo "demo 7 2" "demo 7 2 1 1" "demos 7 2 1" \
        "demo 07 2 1" "demo +7 2 1" "demo -7 2 1" "demo 7x 2 1" "demo 10000000000000 2 1" "demo 7 1 1" "demo 7 65 1" \
        "demo 7 2 0" "demo 7 2 4097" "demo 7 64 257" "demo 7 5 4096"; do
        # Each word is one of the program's.
        run_on "$line" $words
        ends "the words '$words'" 2 "$usage"
    done
    run_on "$line"
    ends "no word" 2 "$usage"
    run_on "$line" ""
    ends "an empty word" 2 "$usage"
    run_on "$line" demo "" 2 1
    ends "an empty seed" 2 "$usage"
}

# rejects NAME WORD LINE KIND TEXT: whether the text's first fault is that.
rejects() {
    run_on "$5" "$2"
    ends "$2 of $1" 1 "fault line $3: $4"$'\n'
}

# Each text of tests/worked/first-faults.txt.
first_faults() {
    local word behind at kind text answer
    while read -r word behind at kind text; do
        {
            case $behind in
                line) printf '%s' "${line%start*}" ;;
                base) printf '%sframes 12\n' "$base" ;;
            esac
            printf '%b' "$text"
        } > "$folder/in"
        "$program" "$word" < "$folder/in" > "$folder/out"
        status=$?
        answer="fault line $at: $kind"$'\n'
        if [ "$kind" = none ]; then
            says "$word of '$text' behind $behind: status $status, not 0" [ "$status" -eq 0 ]
        else
            ends "$word of '$text' behind $behind" 1 "$answer"
        fi
    done < <(grep -v '^#' "$worked/first-faults.txt")
}

rejected_texts() {
    local word bytes payload
    bytes=$(printf 'a5%.0s' {1..32})
    payload="${base}frames 12"$'\non 0 1\non 0 2\nstream 0 2 0 5\nput 0 2 0 '
    for word in run log bus; do
        rejects "an empty text" $word 1 Missing ""
        rejects "contention slots first" $word 1 Order $'contend 2\n'
        rejects "a rate out of range" $word 7 Range $'frames 6\n'"$base"$'rate 1 0 21\n'
        rejects "33 bytes in the first profile" $word 10 Range "$payload${bytes}00"$'\n'
        rejects "97 bytes" $word 11 Range $'profile 2\n'"$payload$bytes$bytes${bytes}00"$'\n'
        rejects "a link that is there" $word 6 Twice $'frames 1\nsends 1\nnode 1 0\nnode 2 0\npair 1 2\nlink 1 2\n'
    done
    run_on "$payload$bytes"$'\n' run
    says "32 bytes in the first profile: status $status, not 0" [ "$status" -eq 0 ]
    rejects "an empty text" deadlines 1 Missing ""
    rejects "an owner twice" deadlines 4 Twice $'slots 1\nframes 4\nstream 2 0 0 2 2\nstream 2 0 0 2 1\n'
    rejects "an empty text" check 1 Missing ""
    rejects "a scenario without a log" check 7 Missing $'frames 6\n'"$base"
    rejects "a scenario that lacks lines before its log" check 3 Missing $'sends 2\nnode 1 0\nlog\nsents\n'
    rejects "a scenario with a fault before its log" check 2 BadWord $'sends 2\nsents\nlog\nsents\n'
    rejects "a line log with a second word" check 2 BadWord $'sends 2\n  log 1\nlog\n'
    for word in times return; do
        rejects "a line without its number" $word 2 BadWord $'frames 2\nsends\n'
    done
}

# again COUNT LINE: the line so often.
again() {
    local left
    for ((left = $1; left > 0; left--)); do
        printf '%s\n' "$2"
    done
}

# One more of a kind than may be, and as many.
too_many() {
    local boots script
    boots="${base}frames 12"$'\n'$(again 200 $'on 0 1\non 0 1\noff 0 1')$'\n'
    run_on "$boots" run
    says "200 boots of a node: status $status, not 0" [ "$status" -eq 0 ]
    rejects "the 201st boot of a node" run 607 TooMany "$boots"$'on 0 1\n'
    script="${base}frames 12"$'\n'$(again 20000 "off 0 1")$'\n'
    run_on "$script" run
    says "20,000 lines of a script: status $status, not 0" [ "$status" -eq 0 ]
    rejects "the 20,001st line of a script" run 20007 TooMany "$script"$'rate 1 0 0\n'
    # 64 nodes and 257 frames, in 150 lines.
    rejects "more nodes than the frames allow" run 151 TooBig \
        $'sends 1\nframes 257\n'"$(seq -f 'node %.0f 0' 64)"$'\nhost 0 1\n'"$(again 82 '# ')"$'\n# the last of 150 lines'
    rejects "the 65th node" flood 65 TooMany "$(seq -f 'node %.0f 0' 65)"
}

streams_with_deadlines() {
    run_on $'slots 40\nframes 1\nstream 2 0 0 1 2\n' deadlines
    ends "a stream without a job" 0 $'admit 2 0\n'
    # Node 3 needs a slot in each frame, and node 2 one in the second.
    run_on $'frames 2\nslots 2\nstream 3 1 0 1 1\nstream 2 3 1 1 1\n' deadlines
    ends "two owners in a round" 0 $'admit 3 1\nadmit 2 3\nround 0 13\nround 1 11 13\n'
}

# Nodes from 1 on, which all hear each other, and with a second number so many rates of each.
crowd() {
    awk -v nodes="$1" -v rates="${2:-0}" 'BEGIN {
        for (id = 1; id <= nodes; id++) {
            print "node", id, 4000 * id
            for (other = 1; other < id; other++) print "pair", other, id
        }
        for (id = 1; id <= nodes; id++)
            for (k = 0; k < rates; k++)
                printf "rate %d %.0f %s%d\n", id, 400000000 * k, k % 2 ? "-" : "", 1 + (7 * id + 11 * k) % 20
    }'
}

# Sixteen packets of node 50, in as many slots: all others that are on deliver them.
deliveries_of_fifty() {
    awk -v frame="$1" -v first="$2" -v payload="$3" 'BEGIN {
        for (place = 0; place < 16; place++)
            for (node = 4; node < 50; node++)
                print "deliver", frame, 3, place + 1, node, 50, 1, 0, first + place, payload
    }'
}

# Node 50 sends for the other forty-six that are on. The hosts of ranks 0 to 2 are off, and each of these is scanned for twelve
# frames; after five more node 4 hosts in frame 41. It grants node 50 all that it is owed, four slots a frame.
many_nodes() {
    {
        echo "sends 1"
        crowd 50 25
        again 30100 "# A line that is skipped."
        printf 'host 0 1\nhost 1 2\nhost 2 3\nhost 3 4\nframes 60\n'
        seq -f 'on 0 %.0f' 4 50
        echo "stream 0 50 0 1"
        again 16 "put 0 50 0 aa"
        again 16 "put 46 50 0 bb"
    } > "$folder/in"
    {
        deliveries_of_fifty 45 0 aa
        deliveries_of_fifty 49 16 bb
        printf 'energy 1 0 0 0 0\nenergy 2 0 0 0 0\nenergy 3 0 0 0 0\nenergy 4 '
    } > "$folder/wanted"
    "$program" log < "$folder/in" > "$folder/out"
    says "a log of fifty nodes: status $?, not 0" [ $? -eq 0 ]
    says "a log of fifty nodes: other lines" begins
    echo "put 46 50 0 b" >> "$folder/in"
    "$program" run < "$folder/in" > "$folder/out"
    status=$?
    ends "a fault behind many lines" 1 $'fault line 32712: BadWord\n'
    # Node 1 sends in steps 0, 2, 4 and 6, and all others in steps 1, 3, 5 and 7.
    {
        echo "sends 4"
        crowd 64
        echo "start 1"
    } > "$folder/in"
    "$program" flood < "$folder/in" > "$folder/out"
    status=$?
    ends "a flood of 64 nodes" 0 "$(seq -f 'accept %.0f 0' 2 64)"$'\nsent 256\n'
}

# returns NAME TEXT: whether what return writes of the file in begins with that text.
returns() {
    "$program" return < "$folder/in" > "$folder/out"
    says "return of $1: status $?, not 0" [ $? -eq 0 ]
    printf '%s' "$2" > "$folder/wanted"
    says "return of $1: it begins otherwise" begins
}

# The text in which a backup host goes back, with the lines of the standard input below that of its frames.
goes_back_with() {
    sed '/^frames /r /dev/stdin' "$worked/backup-host-goes-back.scenario" > "$folder/in"
}

# A return of node 2 is one more boot of it and has two script lines, and with a 201st boot, or more than 20,000 script lines, the text
# would be rejected. Then node 2 stays a host, and is idle in 23 frames: all from 27 to 57 but those of its eight rounds. The text
# without more has nine script lines, and node 2 is on already in its line `on 0 2`. The rates change nothing.
last_returns() {
    local two=$'deliver 9 0 1 2 3 1 0 0 aa\ndeliver 31 1 1 2 3 1 0 1 bb\n'
    goes_back_with < <(echo "on 0 2"; again 198 $'off 0 2\non 0 2')
    returns "a backup host that boots 199 times" \
        $'return 36 2 0\nprobe 2 7\n'"$two"$'deliver 56 0 1 1 3 1 0 2 cc\ndeliver 56 0 1 2 3 1 0 2 cc\nenergy 1 '
    goes_back_with < <(echo "on 0 2"; again 199 $'off 0 2\non 0 2')
    returns "a backup host that boots 200 times" $'probe 2 23\n'"$two"$'deliver 43 1 1 2 3 1 0 2 cc\nenergy 1 '
    goes_back_with < <(seq -f 'rate 1 %.0f 0' 0 19988)
    returns "a text of 19,998 script lines" $'return 36 2 0\nprobe 2 7\n'
    goes_back_with < <(seq -f 'rate 1 %.0f 0' 0 19989)
    returns "a text of 19,999 script lines" $'probe 2 23\n'
}

# Node 1 goes off five frames after each of its first rounds, in frames 5, 33, 61 and so on, and comes on 18 frames later. Node 2
# comes to two of its rounds, scans for 12 frames and then for 5, and hosts 26 frames after each first round.
#
# In each of 16 times node 2 is idle in two frames, and receives node 1 in the second of them, the 28th after the first round of
# node 1 before. In the last time it stays a host, from frame 479 on, and is idle in the 15 frames from 480 on without a round.
sixteen_returns() {
    local first
    {
        printf 'sends 1\nnode 1 0\nnode 2 0\nhost 0 1\nhost 1 2\npair 1 2\nframes 500\non 0 1\non 0 2\n'
        for ((first = 5; first < 5 + 28 * 17; first += 28)); do
            printf 'off %d 1\non %d 1\n' $((first + 5)) $((first + 23))
        done
    } > "$folder/in"
    returns "seventeen failovers" "$(seq -f 'return %.0f 2 0' 33 28 453)"$'\nprobe 2 47\nenergy 1 '
}

# Of drawn scenarios times writes what tests/stamps.py makes of their logs by the definition of stamps, packet by packet.
stamps_by_definition() {
    local seed count=0
    if ! command -v python3 > /dev/null; then
        echo "left out: the stamps by their definition, since there is no python3" >&2
        return
    fi
    for ((seed = 0; seed < 24; seed++)); do
        python3 "$top/bench/made.py" $seed $((2 + seed % 6)) 60 > "$folder/in"
        "$program" log < "$folder/in" > "$folder/log"
        "$program" times < "$folder/in" > "$folder/out"
        says "times of drawn text $seed: status $?, not 0" [ $? -eq 0 ]
        python3 "$top/tests/stamps.py" "$folder/in" "$folder/log" > "$folder/wanted"
        says "stamps of drawn text $seed: status $?, not 0" [ $? -eq 0 ]
        says "times of drawn text $seed: not as defined" cmp -s "$folder/out" "$folder/wanted"
        count=$((count + $(stat -c %s "$folder/wanted")))
    done
    says "stamps of drawn texts: $count bytes, not more than 10,000" [ "$count" -gt 10000 ]
}

worked_texts() {
    worked_scenarios
    bus_against_run
    slots_of_requests
    refused_words
    first_faults
    rejected_texts
    too_many
    streams_with_deadlines
    many_nodes
    last_returns
    sixteen_returns
    stamps_by_definition
}
