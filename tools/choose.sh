#!/bin/sh
# Writes which file is run for a program. In a clone it is the stored one where that is of the clone's sources, else the one that was
# built here, which is proved and built first where a source is newer. An installed copy has the stored one alone.
# Usage: tools/choose.sh NAME WORD, where WORD is the command that is asked for. Status 127 if this copy has no such program.
set -u
top=$(cd "$(dirname "$0")/.." && pwd) || exit 1
program=$top/bin/$1-x86_64-linux
crate=$(sed -n "s/^program|$1|\([^|]*\)|.*/\1/p" "$top/tools/commands.txt")
built=$top/crates/$crate/out/$crate
cache=${XDG_CACHE_HOME:-${HOME-}/.cache}/foldcairn$top

say() {
    echo "foldcairn: $*" >&2
}

# The programs that bin/ has whole, and from this tree's sources, each with a blank after it.
current_programs() {
    [ "$(uname -sm)" = "Linux x86_64" ] || return
    [ "$(sed -n 's/^sources //p' "$top/bin/SOURCES" 2>/dev/null)" = "$("$top/tools/sources.sh")" ] || return
    sed -n 's/^program //p' "$top/bin/SOURCES" | while read -r name sum; do
        stored=$top/bin/$name-x86_64-linux
        [ -x "$stored" ] && [ "$(sha256sum < "$stored")" = "$sum  -" ] && printf '%s ' "$name"
    done
}

# A checksum over the names, sizes and times of the files that are looked at. Where find cannot list them it is another one each time.
state() {
    { cd "$top" && find crates.txt crates bin -name out -prune -o -printf '%p %i %s %T@ %C@\n' 2>/dev/null || date +%s.%N; } |
        sha256sum | cut -d ' ' -f 1
}

# NAME: whether the stored program is that of this tree. To add up all sources takes a tenth of a second, so what is found is kept
# in the user's cache, and after it the state from before the look: a change during it counts as later.
is_current() {
    now=$(state)
    found=
    { read -r found < "$cache/looked"; } 2>/dev/null
    if [ "${found##* }" != "$now" ]; then
        found="$(current_programs)$now"
        { mkdir -p "$cache" && echo "$found" > "$cache/looked"; } 2>/dev/null
    fi
    case " $found" in
        *" $1 "*) true ;;
        *) false ;;
    esac
}

# Whether the program was built here, and no source is newer.
is_built() {
    [ -x "$built" ] &&
        [ -z "$(find "$top/crates.txt" "$top/crates" -name out -prune -o -type f -newer "$built" -print -quit)" ]
}

if [ -f "$top/crates.txt" ] && [ -d "$top/crates/$crate" ]; then
    if ! is_current "$1"; then
        program=$built
        if ! is_built; then
            say "the stored program is not of this tree's sources, so it has to be proved and built"
            "$top/tools/build.sh" "$1" || exit
        fi
    fi
elif [ ! -x "$program" ]; then
    say "'$2' is a command of the program $1, which this copy does not have: there is no $program"
    exit 127
fi
echo "$program"
