#!/usr/bin/env bash
# Tries edits that the prover must refuse: those of a crate that the gate tries (crates/NAME/must-fail), and those that it leaves
# out, since the proof of their crate is dear and the gate would make it once more (tests/edits/NAME). They begin with what
# 'make check CRATE=NAME' proved; without that, the crate is proved first.
# Usage: tests/edits.sh [CRATE ..]; with no name, every crate of tests/edits. Fails if one edit is not refused.
set -euo pipefail
top=$(cd "$(dirname "$0")/.." && pwd)
cd "$top"
if [ "$#" -eq 0 ]; then
  set -- tests/edits/*
  set -- "${@##*/}"
fi
room=$(mktemp -d)
trap 'rm -rf "$room"' EXIT
git ls-files -z crates crates.txt HANDLES | xargs -0 cp --parents -t "$room"
for crate in "$@"; do
  if [ ! -d "crates/$crate" ]; then
    echo "edits.sh: $crate is no crate of crates/" >&2
    exit 2
  fi
  if [ -d "tests/edits/$crate" ]; then
    mkdir -p "$room/crates/$crate/must-fail"
    cp "tests/edits/$crate/"*.edit "$room/crates/$crate/must-fail/"
  fi
  (cd "$room/crates/$crate" && rt check)
done
cd "$room"
rt must-fail "$@"
