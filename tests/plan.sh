#!/usr/bin/env bash
# Runs the built program of a planner and says what it does other than it should: on a network that was worked out outside, on
# networks whose losses are known, on words and texts that are rejected, over streams that fail, with each status, and with reads, writes
# and requests for memory that fail. What it writes of a scenario without ratios is what `bus` of the first program writes.
# The last line is 'N passed, M failed', and the status is 0 where M is 0.
# Usage: tests/plan.sh PROGRAM FIRST [OTHER]. FIRST is the first program, and OTHER the planner's as the second compiler builds it.
set -u
top=$(cd "$(dirname "$0")/.." && pwd) || exit 1
program=${1:?the program of a planner}
first=${2:?the first program}
other=${3:-}
folder=$(mktemp -d) || exit 1
trap 'rm -rf "$folder"' EXIT
. "$top/tests/counting.sh"
. "$top/tests/statuses.sh"
. "$top/tests/counted_calls.sh"

usage=$'usage: draw SEED | outcome SEED | fates SEED | run SEED | log SEED | sample FROM COUNT | bounds\n'
base=$'sends 2\nnode 1 0\nnode 2 0\nhost 0 1\npair 1 2\n'
two_on=$'on 0 1\non 0 2\n'

# The costs were worked out outside, by a plain program of the rules and of the coins.
worked_network() {
    local line="$top/tests/worked/three-in-a-line.network"
    "$program" outcome 7 < "$line" > "$folder/out"
    status=$?
    ends "seed 7 of three in a line" 0 $'cost 1 811008 28841344 5\ncost 2 552960 30585600 10\ncost 3 325632 27545472 14\n'
    "$program" outcome 8 < "$line" | sed 's/^deliver [0-9]* 0 [0-9]* \([12]\) 3 1 0 \([0-9]*\) aa$/\1 \2/' > "$folder/lines"
    LC_ALL=C sort "$folder/lines" > "$folder/out"
    status=0
    ends "seed 8 of three in a line" 0 \
        $'1 0\n1 1\n2 0\n2 1\ncost 1 1134592 46748032 5\ncost 2 1093632 44741632 10\ncost 3 923648 47950592 18\n'
}

# The fates of seed 7, and the latencies of seed 8, were worked out outside, by a plain program of the rules and of the coins: in seed 8
# two packets reach both other nodes, 3 and 9 frames after they were put, and the third reaches nobody. The rounds are in frames 1, 5, 9 and so
# on, so the first packet is sent in frame 9, the second in frame 13 and the third in one of the last three rounds, all of rank 0. Its host is
# node 1, which is one of the two that receive the first two packets.
worked_fates() {
    local line="$top/tests/worked/three-in-a-line.network"
    "$program" fates 7 < "$line" > "$folder/out"
    status=$?
    ends "the fates of seed 7 of three in a line" 0 $'put 0 3 0 1 0 waiting\nput 10 3 0 1 1 waiting\nput 20 3 0 1 2 waiting\n'
    "$program" fates 8 < "$line" | sed 's/ sent 2[159] 0 1 0 0$/ sent late 0 1 0 0/' > "$folder/out"
    status=0
    ends "the fates of seed 8 of three in a line" 0 \
        $'put 0 3 0 1 0 sent 9 0 1 2 1\nput 10 3 0 1 1 sent 13 0 1 2 1\nput 20 3 0 1 2 sent late 0 1 0 0\n'
    # No round is before frame 1, and nobody has a slot before frame 5.
    run_on "${base}frames 4"$'\nput 0 2 0 aa\n'"${two_on}"'put 0 2 0 aa
stream 0 2 0 8
stream 0 2 3 8
put 0 2 0 aa
put 0 2 3 aa
leave 1 2 0
put 1 2 0 aa
stream 1 2 0 8
put 1 2 0 aa
off 2 2
on 3 2
stream 3 2 0 8
put 3 2 0 aa
' fates 0
    ends "packets that are dropped, cleared and waiting" 0 'put 0 2 0 dropped
put 0 2 0 dropped
put 0 2 0 1 0 cleared 1
put 0 2 3 1 0 cleared 2
put 1 2 0 dropped
put 1 2 0 1 1 cleared 2
put 3 2 0 2 0 waiting
'
}

# Host 1 fails in frame 1. Host 2 searches for it in frames 0 to 11 and for its own rank to frame 16, so it opens its first round in frame
# 17 and the next one in frame 21, in which it and node 3 send. The two receive each other: the packet of node 3 is delivered at the host of
# rank 1, and that of node 2 is not, since it hosts that round itself.
worked_hosts() {
    local two
    two=$'frames 22\nsends 2\nnode 1 0\nnode 2 0\nnode 3 0\nhost 0 1\nhost 1 2\npair 1 2\npair 1 3\npair 2 3\n'
    two+="${two_on}"$'on 0 3\nstream 0 2 0 4\nput 0 2 0 aa\nstream 0 3 0 4\nput 0 3 0 bb\noff 1 1\n'
    run_on "$two" outcome 0
    grep '^deliver' "$folder/out" > "$folder/lines"
    mv "$folder/lines" "$folder/out"
    ends "deliveries of a backup host that sends" 0 $'deliver 21 1 1 3 2 1 0 0 aa\ndeliver 21 1 5 2 3 1 0 0 bb\n'
    run_on "$two" fates 0
    ends "fates of a backup host that sends" 0 $'put 0 2 0 1 0 sent 21 1 1 1 0\nput 0 3 0 1 0 sent 21 1 5 1 1\n'
    run_on "$two" sample 0 1
    grep -v '^cost' "$folder/out" > "$folder/lines"
    mv "$folder/lines" "$folder/out"
    ends "sample of a backup host that sends" 0 $'seed 0\nputs 2 0 1 0 1 0 0\nputs 3 0 1 0 1 0 0\nhosted 2 0 2 1\nhosted 3 0 2 1
latency 2 0 3 21 1\nlatency 3 0 2 21 1\nhost 3 0 2 21 1\n'
    # Node 2 receives what node 3 sends in frame 9, and host 1 does not.
    run_on 'frames 10
sends 2
node 1 0
node 2 0
node 3 0
host 0 1
pair 1 2
pair 1 3
pair 2 3
'"${two_on}"'on 0 3
stream 0 3 0 4
put 0 3 0 aa
lose 9 1 0 3 1
lose 9 1 1 2 1
lose 9 1 2 3 1
lose 9 1 3 2 1
' fates 0
    ends "a packet that another node than the host receives" 0 $'put 0 3 0 1 0 sent 9 0 1 1 0\n'
}

# The counts, latencies and costs of two seeds were worked out outside, by a plain program of the rules and of the coins. All that is sent in
# seed 8 is sent in rounds of node 1, and what node 1 receives is what a host receives.
worked_sample() {
    local line="$top/tests/worked/three-in-a-line.network" seven eight
    seven=$'seed 7\nputs 3 0 3 0 0 3 0\ncost 1 811008 28841344 5\ncost 2 552960 30585600 10\ncost 3 325632 27545472 14\n'
    eight=$'seed 8\nputs 3 0 3 0 3 0 0\nhosted 3 0 1 3\nlatency 3 0 1 3 1\nlatency 3 0 1 9 1\nlatency 3 0 2 3 1\nlatency 3 0 2 9 1\n'
    eight+=$'host 3 0 1 3 1\nhost 3 0 1 9 1\n'
    eight+=$'cost 1 1134592 46748032 5\ncost 2 1093632 44741632 10\ncost 3 923648 47950592 18\n'
    "$program" sample 7 2 < "$line" > "$folder/out"
    status=$?
    ends "seeds 7 and 8 of three in a line" 0 "$seven$eight"
    "$program" sample 8 1 < "$line" > "$folder/out"
    status=$?
    ends "seed 8 of three in a line, alone" 0 "$eight"
    "$program" sample 8 0 < "$line" > "$folder/out"
    status=$?
    ends "no seed" 0 ""
}

# What holds and what is open was worked out manually. In the first text node 1 fails in frame 6, and node 2 is the last host that is on. In the
# second the only host goes off three frames after its first boot and six after its second one, and its third is too late for the run. In the
# third node 1 is on for no frame, and its last off line is too late for node 2. In the fourth node 1 comes back before frame 27.
worked_bounds() {
    local two=$'sends 1\nnode 1 0\nnode 2 0\nhost 0 1\nhost 1 2\npair 1 2\n'
    run_on "${two}frames 40"$'\non 0 1\non 0 2\noff 6 1\nratios\nratio 0 1 2 500000\n' bounds
    ends "bounds of a host that fails" 0 $'holds first 1 0 5 5\nopen failover 1 power\nholds failover 2 6 27 21\nopen joined 2 0 power 10\nopen scanning 2 0 power 10\n'
    run_on $'sends 1\nnode 1 0\nnode 2 0\nhost 0 1\npair 1 2\nframes 20\n# three boots\n\non 0 1\noff 3 1\non 7 1\noff 13 1\non 16 1\n' bounds
    ends "bounds of a host that boots thrice" 0 $'open first 1 0 power 10\nholds first 1 7 12 5\nopen first 1 16 rounds\nopen failover 1 power\nopen joined 2 0 power 10\nopen scanning 2 0 power 10\nopen joined 2 7 power 12\nopen scanning 2 7 power 12\nopen joined 2 16 power\nopen scanning 2 16 power\n'
    run_on "${two}frames 20"$'\non 0 2\non 4 1\noff 4 1\n' bounds
    ends "bounds of a host that is on for no frame" 0 $'open first 1 boots\nopen failover 1 power\nopen failover 2 4 rounds\nopen joined 2 boots\nopen scanning 2 boots\n'
    run_on "${two}frames 60"$'\non 0 1\non 0 2\noff 6 1\non 20 1\n' bounds
    ends "bounds of a host that comes back" 0 $'holds first 1 0 5 5\nholds first 1 20 25 5\nopen failover 1 power\nopen failover 2 6 power 11\nopen joined 2 0 power 10\nopen scanning 2 0 power 10\nopen joined 2 20 power 9\nopen scanning 2 20 power 9\n'
    run_on "${two}frames 60"$'\non 0 1\non 0 2\noff 6 1\noff 10 2\n' bounds
    ends "bounds of two hosts that fail" 0 $'holds first 1 0 5 5\nopen failover 1 10 power 10\nopen failover 2 6 power 11\nopen joined 2 0 power 10\nopen scanning 2 0 power 10\n'
}

# Nodes that join, in a chain of three: what holds, and each premise that fails in turn. The first line after the frames is line 9.
worked_joins() {
    local first=$'holds first 1 0 5 5\nopen failover 1 power\n'
    local chain=$'sends 1\nnode 1 0\nnode 2 0\nnode 3 0\nhost 0 1\npair 1 2\npair 2 3\nframes 40\n'
    local two=$'holds joined 2 0 6 6\nholds scanning 2 0 6 4\n'
    run_on "${chain}on 0 1"$'\non 2 2\non 5 3\n' bounds
    ends "bounds of nodes that join" 0 "$first$two"$'holds joined 3 0 6 6\nholds scanning 3 0 6 4\n'
    run_on "${chain}lose 5 1 2 2 1"$'\non 0 1\non 2 2\non 5 3\n' bounds
    ends "bounds with a line of losses" 0 "$first"$'open joined 2 0 loss 9\nopen scanning 2 0 loss 9\nopen joined 3 0 loss 9\nopen scanning 3 0 loss 9\n'
    run_on "${chain}cut 5 1 2 3"$'\non 0 1\non 2 2\non 5 3\n' bounds
    ends "bounds with a cut" 0 "$first"$'open joined 2 0 loss 9\nopen scanning 2 0 loss 9\nopen joined 3 0 loss 9\nopen scanning 3 0 loss 9\n'
    run_on "${chain}on 0 1"$'\non 2 2\non 5 3\nratios\nratio 0 2 3 1000000\nratio 5 2 3 999999\n' bounds
    ends "bounds with a ratio that changes" 0 "$first"$'open joined 2 0 ratio 14\nopen scanning 2 0 ratio 14\nopen joined 3 0 ratio 14\nopen scanning 3 0 ratio 14\n'
    run_on "${chain}on 0 1"$'\non 2 2\non 5 3\nratios\nratio 0 2 3 999999\nratio 5 2 3 1000000\nratio 6 2 3 0\n' bounds
    ends "bounds with ratios of other frames" 0 "$first$two"$'holds joined 3 0 6 6\nholds scanning 3 0 6 4\n'
    run_on "${chain}on 0 1"$'\non 5 3\non 6 2\n' bounds
    ends "bounds of a node behind one that is late" 0 "$first"$'open joined 2 0 power\nopen scanning 2 0 power\nopen joined 3 0 reach\nopen scanning 3 0 reach\n'
    run_on "${chain}on 0 1"$'\non 2 2\non 5 3\noff 6 2\n' bounds
    ends "bounds of a node behind one that goes off" 0 "$first"$'open joined 2 0 power 12\nopen scanning 2 0 power 12\nopen joined 3 0 reach\nopen scanning 3 0 reach\n'
    run_on "${chain}on 34 1"$'\non 34 2\non 34 3\n' bounds
    ends "bounds of nodes whose run ends after the first round" 0 \
        $'holds first 1 34 39 5\nopen failover 1 power\nopen joined 2 34 rounds\nopen scanning 2 34 rounds\nopen joined 3 34 rounds\nopen scanning 3 34 rounds\n'
}

# hosts_of FILE: the rank and the node of each host.
hosts_of() {
    awk '$1 == "ratios" { exit } $1 == "host" { print $2, $3 }' "$1"
}

# The first seeds and the others are all seeds. Of each seed, the puts of a stream with each fate are the lines of fates, the packets
# of its latencies the lines of deliveries, and the costs those of the outcome.
samples_are_fates() {
    local file
    for file in "$top"/tests/worked/*.network "$top"/examples/*.scenario; do
        "$program" sample 3 5 < "$file" > "$folder/wanted"
        { "$program" sample 3 2 < "$file" && "$program" sample 5 3 < "$file"; } > "$folder/out"
        says "sample of $(basename "$file"): not its parts" cmp -s "$folder/wanted" "$folder/out"
        "$program" sample 3 1 < "$file" > "$folder/sample"
        "$program" outcome 3 < "$file" > "$folder/report"
        "$program" fates 3 < "$file" | awk '
            { of = $3 " " $4; put[of]++ }
            $NF == "dropped" { dropped[of]++ } $7 == "sent" { sent[of]++ } $7 == "waiting" { waiting[of]++ } $7 == "cleared" { cleared[of]++ }
            END { for (of in put) print "puts", of, put[of], dropped[of] + 0, sent[of] + 0, waiting[of] + 0, cleared[of] + 0 }' | LC_ALL=C sort > "$folder/wanted"
        grep '^puts ' "$folder/sample" | LC_ALL=C sort > "$folder/out"
        says "sample of $(basename "$file"): puts are not the fates" cmp -s "$folder/wanted" "$folder/out"
        grep '^cost ' "$folder/report" > "$folder/wanted"
        grep '^cost ' "$folder/sample" > "$folder/out"
        says "sample of $(basename "$file"): costs are not the outcome's" cmp -s "$folder/wanted" "$folder/out"
        awk '$1 == "deliver" { count[$6 " " $8 " " $5]++ } END { for (of in count) print of, count[of] }' "$folder/report" | LC_ALL=C sort > "$folder/wanted"
        awk '$1 == "latency" { count[$2 " " $3 " " $4] += $6 } END { for (of in count) print of, count[of] }' "$folder/sample" | LC_ALL=C sort > "$folder/out"
        says "sample of $(basename "$file"): latencies are not the deliveries" cmp -s "$folder/wanted" "$folder/out"
        hosts_of "$file" > "$folder/hosts"
        awk 'NR == FNR { host[$1] = $2; next } $1 == "deliver" && host[$3] == $5 { count[$6 " " $8 " " $5]++ } END { for (of in count) print of, count[of] }' \
            "$folder/hosts" "$folder/report" | LC_ALL=C sort > "$folder/wanted"
        awk '$1 == "host" { count[$2 " " $3 " " $4] += $6 } END { for (of in count) print of, count[of] }' "$folder/sample" | LC_ALL=C sort > "$folder/out"
        says "sample of $(basename "$file"): latencies of hosts are not their deliveries" cmp -s "$folder/wanted" "$folder/out"
        "$program" fates 3 < "$file" | awk 'NR == FNR { host[$1] = $2; next } $7 == "sent" { count[$3 " " $4 " " host[$9]]++ } END { for (of in count) print of, count[of] }' \
            "$folder/hosts" - | LC_ALL=C sort > "$folder/wanted"
        sed -n 's/^hosted //p' "$folder/sample" | LC_ALL=C sort > "$folder/out"
        says "sample of $(basename "$file"): not sent in the rounds of the hosts" cmp -s "$folder/wanted" "$folder/out"
    done
}

# What is sent, with its receivers and whether the host of its rank is one, is what the outcome delivers; what is dropped, what it drops.
fates_are_outcomes() {
    local file
    for file in "$top"/tests/worked/*.network "$top"/examples/*.scenario "$top"/tests/worked/*.scenario; do
        "$program" outcome 3 < "$file" > "$folder/report"
        "$program" fates 3 < "$file" > "$folder/fates"
        hosts_of "$file" > "$folder/hosts"
        awk 'NR == FNR { host[$1] = $2; next }
            $1 == "deliver" { of = $2 " " $6 " " $8 " " $7 " " $9 " " $3 " " $4; count[of]++; at_host[of] += host[$3] == $5 }
            END { for (of in count) print of, count[of], at_host[of] }' "$folder/hosts" "$folder/report" | LC_ALL=C sort > "$folder/wanted"
        awk '$7 == "sent" && $11 > 0 { print $8, $3, $4, $5, $6, $9, $10, $11, $12 }' "$folder/fates" | LC_ALL=C sort > "$folder/out"
        says "fates of $(basename "$file"): what is sent is not what is delivered" cmp -s "$folder/wanted" "$folder/out"
        sed -n 's/^drop //p' "$folder/report" > "$folder/wanted"
        sed -n 's/^put \([0-9]* [0-9]* [0-9]*\) dropped$/\1/p' "$folder/fates" > "$folder/out"
        says "fates of $(basename "$file"): what is dropped is not the drops" cmp -s "$folder/wanted" "$folder/out"
        sed -n 's/^put \([0-9]* [0-9]* [0-9]*\) .*/\1/p' "$folder/fates" > "$folder/out"
        awk '$1 == "ratios" { exit } $1 == "put" { print $2, $3, $4 }' "$file" > "$folder/wanted"
        says "fates of $(basename "$file"): not one for each put" cmp -s "$folder/wanted" "$folder/out"
    done
}

# The lose lines of a seed were worked out outside, by a plain program of the rules and of the coins. The other lines are those of the
# scenario, in the order of a canonical text.
worked_draw() {
    "$program" draw 7 < "$top/tests/worked/three-in-a-line.network" > "$folder/out"
    status=$?
    ends "the draw of seed 7 of three in a line" 0 "profile 1
frames 30
sends 2
node 1 0
node 2 0
node 3 0
host 0 1
link 1 2
link 2 1
link 2 3
link 3 2
on 0 1
on 0 2
on 0 3
stream 0 3 0 8
put 0 3 0 aa
put 10 3 0 aa
put 20 3 0 aa
lose 5 0 1 2 1
lose 5 0 1 2 3
lose 5 2 2 1 2
lose 5 2 2 3 2
lose 9 0 1 2 3
lose 9 0 3 2 3
lose 9 2 3 2 3
lose 13 0 1 2 1
lose 13 0 2 3 2
lose 13 1 0 3 2
lose 13 2 1 2 3
lose 13 2 2 1 2
lose 21 0 0 1 2
lose 21 2 1 2 3
lose 25 0 0 1 2
lose 25 2 0 1 2
lose 29 0 1 2 3
lose 29 0 2 1 2
lose 29 2 0 1 2
"
    # The host transmits in the first step of the first slot and of the last one, each fourth frame from 5 on, and nobody answers.
    run_on "${base}frames 12"$'\n'"${two_on}ratios"$'\nratio 0 1 2 0\n' draw 0
    ends "the draw of a link that loses all" 0 "profile 1
frames 12
sends 2
node 1 0
node 2 0
host 0 1
link 1 2
link 2 1
on 0 1
on 0 2
lose 5 0 0 1 2
lose 5 2 0 1 2
lose 9 0 0 1 2
lose 9 2 0 1 2
"
}

# What is drawn is a scenario for the first program. Its bus is the outcome of the seed, and a run of it delivers and drops the same.
# Drawn once more it stays as it is.
draws_are_outcomes() {
    local seed
    for seed in 0 1 2 3 4 5 6 7 8 9; do
        "$program" outcome "$seed" < "$top/tests/worked/three-in-a-line.network" > "$folder/wanted"
        "$program" draw "$seed" < "$top/tests/worked/three-in-a-line.network" > "$folder/drawn"
        "$first" bus < "$folder/drawn" > "$folder/out"
        says "seed $seed: the bus of the draw is not the outcome" cmp -s "$folder/wanted" "$folder/out"
        grep -v '^cost ' "$folder/wanted" > "$folder/events"
        "$first" run < "$folder/drawn" | grep -v '^energy ' > "$folder/out"
        says "seed $seed: a run of the draw delivers other than the outcome" cmp -s "$folder/events" "$folder/out"
        "$program" draw "$seed" < "$folder/drawn" > "$folder/out"
        says "seed $seed: the draw of a draw is another text" cmp -s "$folder/drawn" "$folder/out"
    done
}

# The host and node 2 hear each other until frame 5, and from frame 6 on nothing that node 2 transmits arrives at the host. Worked by hand
# from the log without ratios: the receptions of node 1 are gone from there on, and with them its second transmission of each flood, which
# answers one, and what node 2 does after that. The first two transmissions of a flood remain, and the packet of node 2 with nobody to
# receive it. A window in which a node sends once less is over when its time is, 2,096,000 ticks after it opened.
worked_log() {
    local two="${base}frames 10"$'\n'"${two_on}"$'stream 0 2 0 4\nput 0 2 0 aa\n'
    run_on "$two" log 7
    sed '/^tuned 0 1 2368000000/,$d; /^deliver /d; /^energy /d' "$folder/out" > "$folder/before"
    says "the log of two nodes has no frame before the losses" [ "$(grep -c '^heard ' "$folder/before")" -eq 9 ]
    run_on "${two}ratios"$'\nratio 6 2 1 0\n' log 7
    sed -n '/^tuned 0 1 2368000000/q; /^energy /d; p' "$folder/out" > "$folder/lines"
    says "losses from frame 6 on change what is before" cmp -s "$folder/before" "$folder/lines"
    sed -n '/^energy /p; /^tuned 0 1 2368000000/,$p' "$folder/out" > "$folder/lines"
    mv "$folder/lines" "$folder/out"
    ends "the log of two nodes, of which one is not heard from frame 6 on" 0 "energy 1 299008 15306368 5 1244106368
energy 2 333824 15117440 6 1359365760
tuned 0 1 2368000000 2370096000
tuned 0 2 2368000000 2370096000
sent 0 1 2368064000 2368104960 010000000102010004040080
heard 0 2 1 2368064000 2368104960 010000000102010004040080
sent 0 2 2368117248 2368158208 010001000102010004040080
tuned 0 1 2370112000 2372208000
tuned 0 2 2370112000 2372208000
sent 0 2 2370176000 2370210816 0201000201000000aa
tuned 0 1 2372224000 2374320000
tuned 0 2 2372224000 2374320000
tuned 0 1 2374336000 2376432000
tuned 0 2 2374336000 2376432000
tuned 0 1 2376448000 2378544000
tuned 0 2 2376448000 2378544000
tuned 0 1 2378560000 2380656000
tuned 0 2 2378560000 2380656000
tuned 0 1 2380672000 2382768000
tuned 0 2 2380672000 2382768000
sent 0 1 2380736000 2380776960 010600040100000000040080
heard 0 2 1 2380736000 2380776960 010600040100000000040080
sent 0 2 2380789248 2380830208 010601040100000000040080
"
    # Clocks at both bounds are at other ticks in each step, and change nothing else.
    run_on "${two}ratios"$'\nratio 6 2 1 0\n' log 7
    without_times > "$folder/wanted"
    run_on "${two/host 0 1/rate 1 0 20
rate 2 0 -20
host 0 1}ratios"$'\nratio 6 2 1 0\n' log 7
    without_times > "$folder/lines"
    says "clocks at both bounds change who sends or receives what" cmp -s "$folder/wanted" "$folder/lines"
    says "clocks at both bounds change no time" [ "$(grep -c '^tuned 0 1 2368000000 ' "$folder/out")" -eq 0 ]
}

# without_times: the entries of the log in $folder/out without their ticks.
without_times() {
    awk '$1 == "sent" { print $1, $2, $3, $6 } $1 == "heard" { print $1, $2, $3, $4, $7 } $1 == "deliver"' "$folder/out" | LC_ALL=C sort
}

# A run delivers and drops what the outcome has, and each radio costs what it has there, but for the time that it is on. The log is the
# report of the run and the text of its log. The text that draw writes has fewer losses, of the same bus: so there a reception may name
# another of several equal transmissions, and a node that searches may receive more, but here each node is on from the start, and their
# clocks are true.
runs_are_outcomes() {
    local file seed
    for file in "$top"/tests/worked/*.network "$top"/examples/*.scenario; do
        "$program" outcome 3 < "$file" | sed 's/^cost /energy /' > "$folder/wanted"
        "$program" run 3 < "$file" > "$folder/report"
        sed 's/^\(energy .*\) [0-9]*$/\1/' "$folder/report" > "$folder/out"
        says "run of $(basename "$file"): not as outcome" cmp -s "$folder/wanted" "$folder/out"
        "$program" log 3 < "$file" > "$folder/log"
        grep -E '^(deliver|drop|energy) ' "$folder/log" > "$folder/out"
        says "log of $(basename "$file"): another report than that of run" cmp -s "$folder/report" "$folder/out"
    done
    for seed in 0 1 2 3 4 5 6 7 8 9; do
        "$program" log "$seed" < "$top/tests/worked/three-in-a-line.network" | sed 's/^\(heard 0 [0-9]*\) [0-9]*/\1/' > "$folder/wanted"
        "$program" draw "$seed" < "$top/tests/worked/three-in-a-line.network" | "$first" log | sed 's/^\(heard 0 [0-9]*\) [0-9]*/\1/' > "$folder/out"
        says "seed $seed: the log of the draw is another" cmp -s "$folder/wanted" "$folder/out"
    done
}

# Without ratios, and with ratios that lose nothing, the outcome is that of the bus, and the log that of the run. Nobody hears over links
# that lose all.
known_losses() {
    local file
    for file in "$top"/examples/*.scenario "$top"/tests/worked/*.scenario; do
        "$first" bus < "$file" > "$folder/wanted"
        "$program" outcome 7 < "$file" > "$folder/out"
        says "outcome of $(basename "$file"): not as bus" cmp -s "$folder/wanted" "$folder/out"
        "$first" log < "$file" > "$folder/log"
        "$program" log 7 < "$file" > "$folder/out"
        says "log of $(basename "$file") without ratios: not that of its run" cmp -s "$folder/log" "$folder/out"
        {
            cat "$file"
            printf '\nratios\n'
            awk '$1 == "pair" { print "ratio 0", $2, $3, 1000000; print "ratio 0", $3, $2, 1000000 } $1 == "link" { print "ratio 0", $2, $3, 1000000 }' "$file"
        } > "$folder/in"
        "$program" outcome 7 < "$folder/in" > "$folder/out"
        says "outcome of $(basename "$file") with ratios of a million: not as bus" cmp -s "$folder/wanted" "$folder/out"
        "$program" log 7 < "$folder/in" > "$folder/out"
        says "log of $(basename "$file") with ratios of a million: not that of its run" cmp -s "$folder/log" "$folder/out"
    done
    run_on "${base}frames 12"$'\n'"${two_on}ratios"$'\nratio 0 1 2 0\n' outcome 0
    says "a link that loses all: node 2 does not scan in all frames" grep -qx 'cost 2 0 0 12' "$folder/out"
    # From frame 8 on nothing passes, so the host is heard in frame 5 alone. Node 2 scans in frames 0 to 5, holds the round of
    # frame 9, misses it, and scans from frame 10 to 29.
    run_on "${base}frames 30"$'\n'"${two_on}ratios"$'\nratio 0 1 2 1000000\nratio 8 1 2 0\n' outcome 0
    says "a link that loses all from frame 8 on: node 2 does not scan in 26 frames" grep -qx 'cost 2 [0-9]* [0-9]* 26' "$folder/out"
}

refused_words() {
    local words
    for words in outcomes outcome "outcome 7 8" "outcome 07" "outcome -7" "outcome 7x" "outcome 10000000000000" run "sample 7" "sample 7 8 9" "sample 07 1" "sample 7 x" "sample 7 10000000000000" "sample 9999999999999 2" \
        "sample 2 9999999999999" "7 outcome" \
        drawn draw "draw 7 8" "draw 07" "draw 10000000000000" "7 draw" "draw outcome" \
        fates "fates 7 8" "fates 07" "fates 10000000000000" \
        runs "run 7 8" "run 07" "run 10000000000000" "7 run" log logs "log 7 8" "log 07" "log x" "log 10000000000000"; do
        # Each word is one of the program's.
        run_on "$base" $words
        ends "the words '$words'" 2 "$usage"
    done
    run_on "$base"
    ends "no word" 2 "$usage"
    run_on "$base" outcome ""
    ends "an empty seed" 2 "$usage"
    run_on "${base}frames 1"$'\n' outcome 9999999999999
    ends "the greatest seed" 0 $'cost 1 0 0 0\ncost 2 0 0 0\n'
    run_on "${base}frames 1"$'\n' sample 9999999999999 1
    ends "a sample of the greatest seed" 0 $'seed 9999999999999\ncost 1 0 0 0\ncost 2 0 0 0\n'
}

# rejects NAME LINE KIND TEXT: whether the text's first fault is that, for each command.
rejects() {
    local word
    for word in outcome fates draw run log; do
        run_on "$4" "$word" 7
        ends "$word of $1" 1 "fault line $2: $3"$'\n'
    done
    run_on "$4" sample 7 2
    ends "sample of $1" 1 "fault line $2: $3"$'\n'
}

# A text of 7 lines, the last of which divides it, and ratio lines after it.
rejected_ratios() {
    local above="${base}frames 12"$'\nratios\n'
    run_on "$above" outcome 7
    says "no ratio: status $status, not 0" [ "$status" -eq 0 ]
    rejects "an empty text" 1 Missing ""
    rejects "a fault above the ratios" 2 BadWord $'sends 2\nsents\nratios\nratio 0 1 2 x\n'
    rejects "what is missing above the ratios" 3 Missing $'sends 2\nnode 1 0\nratios\nratio 0 1 2 x\n'
    rejects "another word" 8 BadWord "${above}loss 0 1 2 0"$'\n'
    rejects "a word too few" 8 BadWord "${above}ratio 0 1 2"$'\n'
    rejects "a ratio that is no number" 8 BadNumber "${above}ratio 0 1 2 0.5"$'\n'
    rejects "a line that is no text" 9 NotUtf8 "$above"$'\n\xff\n'
    rejects "a ratio above one" 8 Range "${above}ratio 0 1 2 1000001"$'\n'
    rejects "a frame past the last" 8 Range "${above}ratio 12 1 2 0"$'\n'
    rejects "a link to itself" 8 Range "${above}ratio 0 1 1 0"$'\n'
    rejects "an unknown node" 8 UnknownNode "${above}ratio 0 1 3 0"$'\n'
    rejects "no such link" 8 Order "${above/pair/link}ratio 0 2 1 0"$'\n'
    rejects "a frame twice" 10 Order "${above}ratio 3 1 2 0"$'\n# the same link\nratio 3 1 2 5\n'
    run_on "${above}ratio 3 1 2 0"$'\nratio 3 2 1 0\nratio 4 1 2 1000000\n' outcome 7
    says "ratios of two links: status $status, not 0" [ "$status" -eq 0 ]
}

# many_nodes FRAMES: a scenario of 64 nodes that are off, in 67 lines.
many_nodes() {
    printf 'sends 1\nframes %s\n' "$1"
    seq -f 'node %.0f 0' 64
    printf 'host 0 1\n'
}

# offs LINES: a scenario of two nodes with so many script lines, which all but two power node 2 off again. Line n of the script is line 6 + n.
offs() {
    printf '%sframes 12\n%s' "$base" "$two_on"
    yes 'off 0 2' | head -n "$(($1 - 2))"
}

# As many script lines as a network has, where the first program takes 20,000, and one more.
script_lines() {
    local lines=262144 outcome
    offs 3 > "$folder/in"
    outcome=$("$program" outcome 7 < "$folder/in")$'\n'
    offs 20001 > "$folder/in"
    "$first" run < "$folder/in" > "$folder/out"
    status=$?
    ends "20,001 script lines for the first program" 1 $'fault line 20007: TooMany\n'
    "$program" outcome 7 < "$folder/in" > "$folder/out"
    status=$?
    ends "20,001 script lines" 0 "$outcome"
    offs "$lines" > "$folder/in"
    "$program" outcome 7 < "$folder/in" > "$folder/out"
    status=$?
    ends "$lines script lines" 0 "$outcome"
    "$program" draw 7 < "$folder/in" > "$folder/out"
    status=$?
    ends "a draw of $lines script lines" 1 "fault line $((lines + 7)): TooMany"$'\n'
    offs "$((lines + 1))" > "$folder/in"
    "$program" outcome 7 < "$folder/in" > "$folder/out"
    status=$?
    ends "one script line more than there may be" 1 "fault line $((lines + 7)): TooMany"$'\n'
}

# A horizon that the first program refuses, and one node more than may be.
horizons() {
    many_nodes 4096 > "$folder/in"
    "$program" outcome 7 < "$folder/in" > "$folder/out"
    status=$?
    ends "64 nodes that are off in 4,096 frames" 0 "$(seq -f 'cost %.0f 0 0 0' 64)"$'\n'
    "$program" log 9999999999999 < "$folder/in" > "$folder/out"
    status=$?
    ends "the log of 64 nodes that are off in 4,096 frames" 0 "$(seq -f 'energy %.0f 0 0 0 0' 64)"$'\n'
    echo "node 65 0" >> "$folder/in"
    "$program" outcome 7 < "$folder/in" > "$folder/out"
    status=$?
    ends "the 65th node" 1 $'fault line 68: TooMany\n'
}

# The longest run of 64 nodes, and a frame more: the fault is in the line after the last, whether that line has an end or not.
draw_horizons() {
    many_nodes 256 > "$folder/in"
    "$program" draw 7 < "$folder/in" > "$folder/out"
    status=$?
    ends "the draw of 64 nodes in 256 frames" 0 "profile 1
frames 256
sends 1
$(seq -f 'node %.0f 0' 64)
host 0 1
"
    many_nodes 257 > "$folder/in"
    "$program" draw 7 < "$folder/in" > "$folder/out"
    status=$?
    ends "the draw of 64 nodes in 257 frames" 1 $'fault line 68: TooBig\n'
    printf 'ratios' >> "$folder/in"
    "$program" draw 7 < "$folder/in" > "$folder/out"
    status=$?
    ends "the draw of 64 nodes in 257 frames, with a last line" 1 $'fault line 69: TooBig\n'
}

# lossy PUTS: a network of PUTS and two script lines, with a link that loses all: four transmissions in 12 frames.
lossy() {
    printf '%sframes 12\n%s' "$base" "$two_on"
    yes 'put 0 1 0 aa' | head -n "$1"
    printf 'ratios\nratio 0 1 2 0\n'
}

# As many lines as a scenario has, and one more. That it is too big is said first.
draw_lines() {
    lossy 19994 > "$folder/in"
    "$program" draw 7 < "$folder/in" > "$folder/out"
    says "a draw of 20,000 script lines: status $?, not 0" [ $? -eq 0 ]
    says "a draw of 20,000 script lines has not 4 lose lines" [ "$(grep -c '^lose ' "$folder/out")" -eq 4 ]
    "$first" bus < "$folder/out" > "$folder/report"
    says "the bus of a draw of 20,000 script lines: status $?, not 0" [ $? -eq 0 ]
    lossy 19995 > "$folder/in"
    "$program" draw 7 < "$folder/in" > "$folder/out"
    status=$?
    ends "a draw of 20,001 script lines" 1 "fault line $(($(wc -l < "$folder/in") + 1)): TooMany"$'\n'
    lossy 19995 | sed 's/^frames 12/frames 4096/; s/^node 2 0/&\nnode 3 0\nnode 4 0\nnode 5 0/' > "$folder/in"
    "$program" draw 7 < "$folder/in" > "$folder/out"
    status=$?
    ends "a draw of too many lines in too many frames" 1 "fault line $(($(wc -l < "$folder/in") + 1)): TooBig"$'\n'
}

# A link that loses all, to the last frame of a run. The host transmits in the first step of the first slot and of the last one, each fourth
# frame from 5 on, and nobody answers: 1,023 rounds.
many_losses() {
    { printf '%sframes 4096\n%s' "$base" "$two_on"; printf 'ratios\nratio 0 1 2 0\n'; } > "$folder/in"
    "$program" draw 7 < "$folder/in" > "$folder/drawn"
    status=$?
    grep '^lose ' "$folder/drawn" > "$folder/out"
    ends "a draw of 2,046 losses" 0 "$(seq 5 4 4095 | sed 's/.*/lose & 0 0 1 2\nlose & 2 0 1 2/')"$'\n'
}

# Packets of a node that has no slot before the last frame: the first 16 wait, and all others are dropped.
many_puts() {
    { printf '%sframes 4\n%sstream 0 2 0 8\n' "$base" "$two_on"; yes 'put 0 2 0 aa' | head -n 3000; } > "$folder/in"
    "$program" fates 7 < "$folder/in" > "$folder/fates"
    status=$?
    awk '{ print $1, $2, $3, $4, $NF }' "$folder/fates" | uniq -c | awk '{ $1 = $1; print }' > "$folder/out"
    ends "the fates of 3,000 puts" 0 $'16 put 0 2 0 waiting\n2984 put 0 2 0 dropped\n'
}

# with_ratios NODES FRAMES MOST: a network of nodes that all reach one another, in which node 2 sends each fourth frame, with the ratio 1 of
# each link in each frame, and above its ratios in $folder/above.
with_ratios() {
    awk -v nodes="$1" -v frames="$2" -v most="$3" -v above="$folder/above" 'BEGIN {
        text = "frames " frames "\nsends 2\n"
        for (i = 1; i <= nodes; i++) text = text "node " i " 0\n"
        text = text "host 0 1\n"
        for (i = 1; i <= nodes; i++) for (j = i + 1; j <= nodes; j++) text = text "pair " i " " j "\n"
        for (i = 1; i <= nodes; i++) text = text "on 0 " i "\n"
        text = text "stream 0 2 0 8\n"
        for (i = 0; i < frames; i += 4) text = text "put " i " 2 0 aa\n"
        printf "%s", text > above
        printf "%sratios\n", text
        for (f = 0; f < frames; f++) for (i = 1; i <= nodes; i++) for (j = 1; j <= nodes; j++) if (i != j && most-- > 0) print "ratio", f, i, j, 1000000
    }'
}

# More than 1,000 ratios, and as many as there may be, that lose nothing: the outcome is the bus. One more is a fault of its line.
many_ratios() {
    local size
    for size in "3 400 2400" "20 264 100000"; do
        # shellcheck disable=SC2086 # Each number is a word of its own.
        with_ratios $size > "$folder/in"
        says "the network has not ${size##* } ratios" [ "$(grep -c '^ratio ' "$folder/in")" -eq "${size##* }" ]
        "$first" bus < "$folder/above" > "$folder/wanted"
        "$program" outcome 7 < "$folder/in" > "$folder/out"
        says "${size##* } ratios: status $?, not 0" [ $? -eq 0 ]
        says "${size##* } ratios: not as bus" cmp -s "$folder/wanted" "$folder/out"
    done
    with_ratios 20 264 100001 > "$folder/in"
    "$program" outcome 7 < "$folder/in" > "$folder/out"
    status=$?
    ends "one ratio more than there may be" 1 "fault line $(wc -l < "$folder/in"): TooMany"$'\n'
}

# Of seeds without end the first is there at once, and the memory is that of one seed.
endless_seeds() {
    local line="$top/tests/worked/three-in-a-line.network"
    "$program" sample 0 1 < "$line" > "$folder/wanted"
    # shellcheck disable=SC2154 # tests/counted_calls.sh sets it.
    (ulimit -v 30000; timeout 60 "$uncounted" sample 0 9999999999999 < "$line"; echo $? > "$folder/status") | sed '/^seed 1$/Q' > "$folder/out"
    says "the first of endless seeds is another text, or none" cmp -s "$folder/wanted" "$folder/out"
    says "endless seeds for a closed pipe: status $(cat "$folder/status"), not 4" [ "$(cat "$folder/status")" -eq 4 ]
}

# Each status, and 3 and 4 with a stream that fails alone.
statuses() {
    printf '%sframes 12\nput 0 1 0 aa\n' "$base" > "$folder/in"
    by_streams 0 outcome 7
    by_streams 0 fates 7
    by_streams 0 run 7
    by_streams 0 log 7
    by_streams 0 sample 7 2
    by_streams 0 draw 7
    printf '%sframes 0\n' "$base" > "$folder/in"
    by_streams 1 outcome 7
    by_streams 1 fates 7
    by_streams 1 run 7
    by_streams 1 log 7
    by_streams 1 sample 7 2
    by_streams 1 draw 7
    reads_nothing 2 outcome
    reads_nothing 2 run
    reads_nothing 2 log
    gives "a word that is no UTF-8, from a folder" 6 "$folder" /dev/null $'\xff'
    head -c 4194305 /dev/zero | tr '\0' '#' > "$folder/long"
    "$program" outcome 7 < "$folder/long" > "$folder/out"
    status=$?
    ends "one byte more than may come" 1 $'fault too long\n'
    with_little_memory outcome 7
}

# Each command, with the causes of its statuses.
causes() {
    local word line="$top/tests/worked/three-in-a-line.network"
    for word in outcome fates draw run log; do
        each_cause "$line" "$word" 7
    done
    each_cause "$line" sample 7 2
    each_cause "$line" bounds
    each_request 2 /dev/null outcome
}

# What the second compiler's program writes, to the byte.
by_both() {
    local file word
    for file in "$top"/tests/worked/*.network "$top"/examples/*.scenario; do
        for word in outcome fates draw run log; do
            "$program" "$word" 7 < "$file" > "$folder/out"
            "$other" "$word" 7 < "$file" > "$folder/other"
            says "$word of $(basename "$file") by both compilers: other bytes" cmp -s "$folder/out" "$folder/other"
        done
        "$program" bounds < "$file" > "$folder/out"
        "$other" bounds < "$file" > "$folder/other"
        says "bounds of $(basename "$file") by both compilers: other bytes" cmp -s "$folder/out" "$folder/other"
    done
}

count_calls
worked_network
worked_fates
worked_hosts
fates_are_outcomes
worked_sample
worked_log
runs_are_outcomes
worked_bounds
worked_joins
samples_are_fates
worked_draw
draws_are_outcomes
known_losses
refused_words
rejected_ratios
horizons
script_lines
draw_horizons
draw_lines
many_losses
many_puts
many_ratios
endless_seeds
statuses
causes
statuses_have_causes
[ -n "$other" ] && by_both
echo "$passed passed, $failed failed"
[ "$failed" -eq 0 ]
