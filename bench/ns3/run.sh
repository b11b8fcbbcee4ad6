#!/bin/sh
# Times the same floods by Foldcairn and by ns-3, one after the other, and prints for each how many transmissions it makes in
# a second of processor time. The networks are those of bench/run.sh. ns-3 gets the initiators of all floods from Foldcairn's
# log, and floods their packets over its LrWpanPhy; flood.cc says what it leaves out.
# It asks for g++ and ns-3 with its headers: on Debian 'apt-get install g++ pkg-config libns3-dev libgsl-dev'.
# Usage: bench/ns3/run.sh PROGRAM [sparse | dense ..], where PROGRAM is the proved program.
set -eu
program=$(realpath "${1:?the program}")
shift
here=$(cd "$(dirname "$0")" && pwd)
if ! command -v g++ pkg-config >/dev/null || ! pkg-config --exists ns3-lr-wpan gsl; then
    echo "ns-3 is missing: on Debian, apt-get install g++ pkg-config libns3-dev libgsl-dev" >&2
    exit 1
fi
folder=$(mktemp -d)
trap 'rm -rf "$folder"' EXIT
modules="ns3-core ns3-lr-wpan ns3-mobility ns3-network ns3-propagation ns3-spectrum"
# shellcheck disable=SC2046
g++ -O2 -o "$folder/flood" "$here/flood.cc" $(pkg-config --cflags --libs $modules)

# seconds NAME COMMAND..: the processor time of a command from the file NAME.in to the file NAME.out.
seconds() {
    name=$1
    shift
    ("$@" < "$folder/$name.in" > "$folder/$name.out"; times) |
        awk 'END { gsub(/[ms]/, " "); print 60 * ($1 + $3) + $2 + $4 }'
}

[ $# -gt 0 ] || set -- sparse dense
for text; do
    "$here/../run.sh" --text "$text" > "$folder/ours.in"
    "$program" log < "$folder/ours.in" | awk '$1 == "sent"' > "$folder/sent"
    ours=$(wc -l < "$folder/sent")
    {
        awk '$1 == "sends" { print } $1 == "node" { print "node", $2 } $1 == "link" { print }
            $1 == "pair" { print "link", $2, $3; print "link", $3, $2 }' "$folder/ours.in"
        # A line is: sent RANK NODE START END PACKET, in ticks of 1/64 us; the third byte of a packet is its counter.
        awk 'substr($6, 5, 2) == "00" { printf "flood %.0f %d %d\n", $4 * 1000 / 64, $3, length($6) / 2 }' "$folder/sent"
    } > "$folder/theirs.in"
    one=$(seconds ours "$program" run)
    other=$(seconds theirs "$folder/flood")
    read -r theirs _ < "$folder/theirs.out"
    echo "$text $ours $one $theirs $other" | awk '{
        printf "%s: Foldcairn %d transmissions in %.2f s, %d a second; ns-3 %d transmissions in %.2f s, %d a second\n",
            $1, $2, $3, $2 / $3, $4, $5, $4 / $5 }'
done
pkg-config --modversion ns3-core | sed 's/^/ns-3 /'
