#!/usr/bin/env python3
"""Writes docs/internals/PROOFS.md with its table of the lemmas that a crate keeps for the crates above it, as the sources have them.

    tools/lemmas.py > /tmp/page && mv /tmp/page docs/internals/PROOFS.md

A crate uses a file of another's proofs/ where a file of it names that one: `Rattle.CRATE.proofs.FILE`, or `CRATE::proofs::FILE`.
Only Python's standard library is used.
"""
import collections
import pathlib
import re
import sys

TOP = pathlib.Path(__file__).resolve().parent.parent
PAGE = TOP / "docs" / "internals" / "PROOFS.md"
HEAD = "| crate | files of its `proofs` | named by |\n|---|---|---|\n"
PARTS = ("src", "specs", "proofs")


def crates():
    """All crates, in the order of crates.txt."""
    return re.findall(r"^(\w+):", (TOP / "crates.txt").read_text(), re.M)


def sources(crate):
    folder = TOP / "crates" / crate
    for part in PARTS:
        for path in (folder / part).rglob("*"):
            if path.suffix in (".rt", ".antt"):
                yield path.read_text()


def users():
    """For each crate the files of its proofs that others name, each with those crates."""
    found = collections.defaultdict(lambda: collections.defaultdict(set))
    for crate in crates():
        for text in sources(crate):
            for owner, file in re.findall(r"(?:Rattle\.|\b)(\w+)(?:\.|::)proofs(?:\.|::)(\w+)", text):
                if owner not in (crate, "crate"):
                    found[owner][file].add(crate)
    return found


def table():
    found = users()
    rows = []
    for crate in crates():
        files = {file: by for file, by in found[crate].items() if (TOP / "crates" / crate / "proofs" / f"{file}.antt").exists()}
        if files:
            named = sorted(set().union(*files.values()))
            rows.append(f"| `{crate}` | {', '.join(f'`{file}`' for file in sorted(files))} | {', '.join(f'`{by}`' for by in named)} |\n")
    return "".join(rows)


def main():
    before, head, rest = PAGE.read_text().partition(HEAD)
    if not head:
        sys.exit(f"tools/lemmas.py: {PAGE} has no table of lemmas")
    after = rest[re.search(r"^(?!\|)", rest, re.M).start():]
    sys.stdout.write(before + HEAD + table() + after)


if __name__ == "__main__":
    main()
