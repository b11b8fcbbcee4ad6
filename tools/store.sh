#!/bin/sh
# Stores the programs in bin/, so that they run without the toolchain: bin/NAME-x86_64-linux is what LLVM builds from the proved
# sources, stripped, and bin/SOURCES has the checksum of these sources, a line 'program NAME CHECKSUM' for each program, and
# the toolchain. It is the last step of each change of crates/. With --check it writes nothing, and its status says whether
# bin/ has just this. A line 'program CHECKSUM' of bin/SOURCES is that of foldcairn.
# Usage: tools/store.sh [--check] [[NAME=]PROGRAM ..], where a file without NAME is foldcairn. Without a file each program of
# tools/commands.txt whose crate is there is proved and built first. A stored program that is not given is kept if the sources
# are those that it was built from; else it is taken out of bin/.
set -u
top=$(cd "$(dirname "$0")/.." && pwd) || exit 1
check=
if [ "${1:-}" = --check ]; then
    check=1
    shift
fi
folder=$(mktemp -d) || exit 1
trap 'rm -rf "$folder"' EXIT

# bin/SOURCES in today's form, without the toolchain: another build of it may give the same programs.
kept() {
    sed -n '/^sources /p; s/^program \([0-9a-f]\{64\}\)$/program foldcairn \1/; /^program [^ ]* /p' "$top/bin/SOURCES" 2>/dev/null
}

# Builds all programs, and writes NAME=PROGRAM for each.
build_all() {
    while IFS='|' read -r kind name crate _; do
        if [ "$kind" = program ] && [ -d "$top/crates/$crate" ]; then
            "$top/tools/build.sh" "$name" </dev/null || return 1
            echo "$name=$top/crates/$crate/out/$crate"
        fi
    done < "$top/tools/commands.txt"
}

# Strips a program that was given, [NAME=]PROGRAM, and writes its line.
strip_one() {
    case $1 in
        foldcairn*=*) name=${1%%=*} file=${1#*=} ;;
        *) name=foldcairn file=$1 ;;
    esac
    strip --strip-all -o "$folder/$name" "$file" && echo "program $name $(sha256sum "$folder/$name" | cut -d ' ' -f 1)"
}

# Writes the lines of all programs: of those that were given, and those that are kept.
programs() {
    for given; do
        strip_one "$given" || return 1
    done > "$folder/given" || return 1
    sources=$("$top/tools/sources.sh")
    if kept | grep -qx "sources $sources"; then
        kept | awk 'NR == FNR { given[$2] = 1; next } $1 == "program" && !($2 in given)' "$folder/given" - > "$folder/kept"
    fi
    echo "sources $sources"
    cat "$folder/given" "$folder/kept" 2>/dev/null | LC_ALL=C sort
}

if [ $# -eq 0 ]; then
    build_all > "$folder/built" || exit
    # shellcheck disable=SC2046 # Names and crates have no blanks; the path may, so each line is a word of its own.
    IFS='
' && set -f && set -- $(cat "$folder/built")
fi
programs "$@" > "$folder/SOURCES" || exit 1

# Whether each program is stored as it was given, and SOURCES is that of this tree.
compare() {
    while read -r kind name sum; do
        if [ "$kind" = program ] && [ "$sum" != "$(sha256sum < "$top/bin/$name-x86_64-linux" | cut -d ' ' -f 1)" ]; then
            echo "bin/$name-x86_64-linux is not what was built: run 'make store', and commit bin/" >&2
            return 1
        fi
    done < "$folder/SOURCES"
    if ! kept | cmp -s - "$folder/SOURCES"; then
        echo "bin/SOURCES is not that of this tree: run 'make store', and commit bin/" >&2
        return 1
    fi
    echo "bin/ has what was built"
}

# Puts the programs into bin/, and takes those away that are of other sources.
put() {
    echo "toolchain $(rt version 2>/dev/null || sed -n 's/^toolchain //p' "$top/bin/SOURCES")" >> "$folder/SOURCES"
    mkdir -p "$top/bin" || return 1
    while IFS='|' read -r kind name _; do
        if [ "$kind" = program ] && ! grep -q "^program $name " "$folder/SOURCES"; then
            rm -f "$top/bin/$name-x86_64-linux"
        elif [ "$kind" = program ] && [ -e "$folder/$name" ]; then
            cp "$folder/$name" "$top/bin/$name-x86_64-linux" && chmod 755 "$top/bin/$name-x86_64-linux" || return 1
        fi
    done < "$top/tools/commands.txt"
    cp "$folder/SOURCES" "$top/bin/SOURCES"
}

if [ -n "$check" ]; then
    compare
else
    put
fi
