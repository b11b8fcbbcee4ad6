#!/bin/sh
# Puts what an installed copy runs and reads into a new folder: the front end, the stored programs, the pages and the examples.
# The wheel and the Debian package are made of it.
# Usage: tools/installed.sh FOLDER [PLACE]. Status 1 if bin/ has not the programs of this tree's sources. PLACE is the folder
# whose docs and examples the help names, where that is not FOLDER.
set -u
top=$(cd "$(dirname "$0")/.." && pwd) || exit 1
folder=${1:?the folder}
place=${2-}

say() {
    echo "tools/installed.sh: $*" >&2
}

# The programs of this tree's sources that are stored, whole.
copy_programs() {
    if [ "$(sed -n 's/^sources //p' "$top/bin/SOURCES")" != "$("$top/tools/sources.sh")" ]; then
        say "the stored programs are of other sources: run 'make store'"
        return 1
    fi
    sed -n 's/^program \([0-9a-f]\{64\}\)$/program foldcairn \1/; s/^program //p' "$top/bin/SOURCES" > "$folder/bin/listed"
    while read -r name sum; do
        install -m 755 "$top/bin/$name-x86_64-linux" "$folder/bin/" || return 1
        if [ "$(sha256sum < "$folder/bin/$name-x86_64-linux" | cut -d ' ' -f 1)" != "$sum" ]; then
            say "bin/$name-x86_64-linux has not the checksum of bin/SOURCES: run 'make store'"
            return 1
        fi
    done < "$folder/bin/listed"
    rm "$folder/bin/listed"
}

mkdir -p "$folder" && cd "$folder" && folder=$PWD || exit 1
mkdir bin tools docs docs/pictures docs/pictures/planning examples || exit 1
copy_programs || exit 1
# The programs as WebAssembly, for the planner's page, with the script that calls them.
install -m 644 "$top/bin/foldcairn.wasm" "$top/tools/export/wasm/foldcairn.js" bin || exit 1
install -m 755 "$top/foldcairn" . || exit 1
install -m 644 "$top/VERSION" . || exit 1
install -m 644 "$top/bin/SOURCES" bin || exit 1
install -m 644 "$top/tools/commands.txt" tools || exit 1
for tool in choose completion explain help in_python; do
    install -m 755 "$top/tools/$tool.sh" tools || exit 1
done
if [ -n "$place" ]; then
    echo "$place" > tools/place || exit 1
fi
install -m 644 "$top"/docs/*.md docs || exit 1
install -m 644 "$top"/docs/pictures/*.svg "$top"/docs/pictures/*.png docs/pictures || exit 1
install -m 644 "$top"/docs/pictures/planning/*.svg docs/pictures/planning || exit 1
find "$top/examples" -maxdepth 1 -type f -exec install -m 644 -t examples {} +
