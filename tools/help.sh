#!/bin/sh
# Writes the help of the front end off tools/commands.txt: all of it, the rows of a command, or a line with the words of all commands.
# The package has its own help of a command.
# Usage: tools/help.sh [WORD | --usage]
set -u
top=$(cd "$(dirname "$0")/.." && pwd) || exit 1
commands=$top/tools/commands.txt
if [ -f "$top/crates.txt" ]; then
    called=./foldcairn
    place=
else
    called=foldcairn
    place=$({ cat "$top/tools/place" || echo "$top"; } 2>/dev/null)/
fi

# OWNER WORD: whether a row is written, which it is where this copy has the program of the command, or its sources.
has() {
    case $1 in
        package) [ -z "$2" ] ;;
        itself) true ;;
        *) [ -x "$top/bin/$1-x86_64-linux" ] || [ -d "$top/crates/$(sed -n "s/^program|$1|\([^|]*\)|.*/\1/p" "$commands")" ] ;;
    esac
}

# A heading is written once a command below it is.
rows() {
    while IFS='|' read -r kind word form owner about; do
        case $kind in
            group) title=$word ;;
            command)
                if { [ -z "$1" ] || [ "$word" = "$1" ]; } && has "$owner" "$1"; then
                    [ -n "$1" ] || [ -z "$title" ] || printf '\n%s:\n' "$title"
                    title=
                    printf '  %-36s %s\n' "foldcairn $word${form:+ $form}" "$about"
                fi
                ;;
        esac
    done < "$commands"
}

# The words of this copy's commands, each once.
usage() {
    words=
    while IFS='|' read -r kind word _ owner _; do
        case "$kind $words |" in
            "command "*" | $word |"*) ;;
            "command "*) ! has "$owner" '' || words="$words | $word" ;;
        esac
    done < "$commands"
    echo "usage: ${words# | }"
}

case ${1-} in
    '') ;;
    --usage)
        usage
        exit
        ;;
    *)
        rows "$1"
        exit
        ;;
esac
cat <<'TEXT'
Usage: foldcairn COMMAND [WORD]...
Foldcairn simulates a low-power radio network: Glossy floods and rounds of slots after the Low-Power Wireless Bus.
TEXT
rows ''
cat <<TEXT

'draw' and 'sample' with a number after the word are commands of a program, else of the Python package: 'sample 7 2 FILE' writes
what is counted of two seeds, and 'sample FILE --seeds 200' tables of 200. 'run' and 'log' with a number after the word run a network
with its ratios, by that seed.

The input is FILE, or the standard input where no file is named. An example:

  $called run ${place}examples/packets-along-a-line.scenario

A stored program that is linked or copied alone, without this front end, reads its standard input and no FILE:

  foldcairn-x86_64-linux run < FILE

Status 0: the output was written. 1: the input was rejected. 2: wrong words. 3, 4: the input could not be read, the output
could not be written. 5: out of memory. 127: what the command needs is missing, as Python and its modules for the commands under
'Tables and pictures'.

The pages are in the folder

  ${place}docs

TUTORIAL.md is the first, SCENARIO.md has the lines of a scenario, OUTPUT.md those of the output, TROUBLESHOOTING.md what to do
where something fails.
TEXT
