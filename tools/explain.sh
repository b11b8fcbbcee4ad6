#!/bin/sh
# Says in a sentence why a call of the program failed.
# Usage: tools/explain.sh STATUS PROGRAM INPUT FORM WORD.. where INPUT is a file with what the program read, or nothing, and
# FORM what comes after the command's word by tools/commands.txt, or nothing.
set -u
top=$(cd "$(dirname "$0")/.." && pwd) || exit 0
status=$1
program=$2
input=$3
form_of_command=$4
shift 4
if [ -f "$top/crates.txt" ]; then
    called=./foldcairn
    docs=docs
else
    called=foldcairn
    docs=$top/docs
fi

say() {
    echo "foldcairn: $*"
}

# WORD..: which pages have the lines of the input of a command. With a number after the word it reads a network.
pages() {
    case "$1 ${2-}" in
        run\ [0-9]* | log\ [0-9]*) set -- outcome ;;
    esac
    case $1 in
        deadlines) echo "$docs/DEADLINES.md has" ;;
        bounds | draw | fates | outcome | sample) echo "$docs/SCENARIO.md and $docs/RATIOS.md have" ;;
        check) echo "$docs/SCENARIO.md and $docs/CHECK.md have" ;;
        *) echo "$docs/SCENARIO.md has" ;;
    esac
}

# COMMAND: what is wrong with a line of the input, by this copy's Python package, which says it in one place for its own calls too.
explanation() {
    "$top/tools/in_python.sh" foldcairn.model.faults "$1" "$number" "$kind" < "$input" 2>/dev/null || echo "line $number: $kind"
}

# The first rejected line, as the program says it once more.
rejected() {
    if [ -z "$input" ]; then
        say "the input was rejected; the line above names the line and the kind of fault ($(pages "$@") the ranges)"
        return
    fi
    fault=$("$program" "$@" < "$input" | head -n 1)
    number=${fault#fault line }
    kind=${number#*: }
    number=${number%%:*}
    case $fault in
        "fault line "*) say "$(explanation "$1")" && say "$(pages "$@") all lines with their ranges" ;;
        *) say "the input has more than 4,194,304 bytes" ;;
    esac
}

# Whether the word is a number as the program reads it, from the second word to the third.
is_number() {
    case $1 in
        '' | *[!0-9]* | 0?*) return 1 ;;
    esac
    [ ${#1} -le 13 ] && [ "$1" -ge "$2" ] && [ "$1" -le "$3" ]
}

wrong_demo() {
    if [ $# -ne 3 ]; then
        say "demo takes three numbers: SEED NODES FRAMES"
    elif ! is_number "$1" 0 9999999999999; then
        say "the seed '$1' is not a number from 0 to 9999999999999 without leading zeros"
    elif ! is_number "$2" 2 64; then
        say "the number of nodes '$2' is not from 2 to 64"
    elif ! is_number "$3" 1 4096; then
        say "the number of frames '$3' is not from 1 to 4096"
    else
        say "$2 nodes times $3 frames is $(($2 * $3)), above 16384"
    fi
}

# WORD and what came after it, where a command takes numbers before its file.
wrong_numbers() {
    command=$1
    shift
    for name in ${form_of_command%' [FILE]'}; do
        if ! is_number "${1-}" 0 9999999999999; then
            say "$command takes $name first, a number from 0 to 9999999999999 without leading zeros${1:+, and not '$1'}"
            return
        fi
        shift
    done
    say "$command takes one file at most, and $# words come after its numbers"
}

# WORD: the command that is spelled most like it, where at most a third of its letters are other, missing, too many or exchanged.
nearest() {
    WORD=$1 awk -F '|' '
        function least(a, b) { return a < b ? a : b }
        function letter(text, at) { return substr(text, at, 1) }
        function changes(a, b,    i, j, least_of) {
            for (i = 0; i <= length(a); i++) least_of[i, 0] = i
            for (j = 0; j <= length(b); j++) least_of[0, j] = j
            for (i = 1; i <= length(a); i++) for (j = 1; j <= length(b); j++) {
                least_of[i, j] = least(least(least_of[i - 1, j], least_of[i, j - 1]) + 1, least_of[i - 1, j - 1] + (letter(a, i) != letter(b, j)))
                if (i > 1 && j > 1 && letter(a, i) == letter(b, j - 1) && letter(a, i - 1) == letter(b, j))
                    least_of[i, j] = least(least_of[i, j], least_of[i - 2, j - 2] + 1)
            }
            return least_of[length(a), length(b)]
        }
        BEGIN { fewest = 99; word = tolower(substr(ENVIRON["WORD"], 1, 20)) }
        $1 == "command" && (number = changes(word, $2)) * 3 <= length($2) && number < fewest { fewest = number; near = $2 }
        END { print near }' "$top/tools/commands.txt"
}

wrong_words() {
    case $form_of_command in
        '[FILE]') say "$1 takes one file at most, and $(($# - 1)) words come after it" ;;
        *' [FILE]') wrong_numbers "$@" ;;
        'SEED NODES FRAMES')
            shift
            wrong_demo "$@"
            ;;
        *)
            if [ $# -eq 0 ]; then
                say "no command was given"
            else
                near=$(nearest "$1")
                say "'$1' is no command${near:+; did you mean $near?}"
            fi
            ;;
    esac
    say "see $called --help"
}

case $status in
    1) rejected "$@" ;;
    2) wrong_words "$@" ;;
    3) say "the input could not be read, so nothing was written: is it a folder, or closed?" ;;
    4) say "the output could not be written whole: only a part of it, or nothing, is there" ;;
    5)
        if [ "$1" = sample ]; then
            say "out of memory: of the seeds only the first, or none, are there ($docs/LIMITS.md has what a run takes)"
        else
            say "out of memory: nothing was written ($docs/LIMITS.md has what a run takes)"
        fi
        ;;
    6) say "a word of the command line is not UTF-8; nothing was read or written" ;;
esac
exit 0
