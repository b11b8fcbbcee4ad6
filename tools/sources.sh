#!/bin/sh
# Prints one checksum over crates.txt and the files of crates/ but README.md, which no build reads: those that git tracks, or
# without git all that no build made.
cd "$(dirname "$0")/.." || exit 1
{
    git ls-files -z --error-unmatch crates.txt crates ':!crates/*/README.md' 2>/dev/null ||
        find crates.txt crates -path '*/out' -prune -o -type f ! -name README.md -print0
} | LC_ALL=C sort -z | xargs -0 sha256sum 2>/dev/null | sha256sum | cut -d ' ' -f 1
