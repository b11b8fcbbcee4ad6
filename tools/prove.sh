#!/bin/sh
# Proves and builds each program of a clone in any case, and says whether that gave what is stored in bin/.
# Usage: tools/prove.sh. Status 1 if a stored program of the same sources has other bytes; else that of tools/build.sh.
set -u
top=$(cd "$(dirname "$0")/.." && pwd) || exit 1

say() {
    echo "foldcairn: $*" >&2
}

# NAME CRATE: one program.
prove() {
    "$top/tools/build.sh" "$1" < /dev/null || return
    if [ "$(sed -n 's/^sources //p' "$top/bin/SOURCES" 2>/dev/null)" != "$("$top/tools/sources.sh")" ]; then
        say "the program $1 was proved and built; the stored one is of other sources"
    elif "$top/tools/store.sh" --check "$1=$top/crates/$2/out/$2" >/dev/null; then
        say "the program $1 was proved and built, and is the stored one, byte for byte"
    else
        say "the program $1 was proved and built, but the stored one of the same sources has other bytes: do not trust it"
        return 1
    fi
}

while IFS='|' read -r kind name crate _; do
    if [ "$kind" = program ] && [ -d "$top/crates/$crate" ]; then
        prove "$name" "$crate" || exit
    fi
done < "$top/tools/commands.txt"
