#!/usr/bin/env python3
"""Says where a thing stands: the files that have one of these words as a word of its own, of .rt and .antt files outside of comments.

Usage: tools/where.py WORD ... First come those that state it: code with its contracts (src/) and definitions (specs/), crate by crate. Then how
many proofs have it, which a check names one after another, and what is outside of crates/. For a word of the texts also name its variant, as in
`tools/where.py leave Leave`. Only Python's standard library is used.
"""
import collections
import pathlib
import re
import subprocess
import sys

TOP = pathlib.Path(__file__).resolve().parent.parent
# Where each part of the repository is, by the beginning of its paths.
OUTSIDE = ("python/src/", "python/tests/", "tests/", "tools/", "bench/", "docs/", "examples/", "")


def tracked() -> list[str]:
    """The files of the repository but what was built."""
    paths = subprocess.run(["git", "ls-files"], cwd=TOP, check=True, capture_output=True, text=True).stdout.split("\n")
    return [path for path in paths if path and not path.startswith("bin/") and not path.endswith((".png", ".svg", ".ipynb"))]


# How a comment begins.
COMMENTS = {".rt": "//", ".antt": "--"}


def has(path: pathlib.Path, word: re.Pattern[str]) -> bool:
    """Whether a file has the word."""
    try:
        text = path.read_text()
    except (UnicodeDecodeError, FileNotFoundError):
        return False
    if path.suffix in COMMENTS:
        text = re.sub(COMMENTS[path.suffix] + r"[^\n]*", "", text)
    return bool(word.search(text))


def main() -> None:
    if not sys.argv[1:] or sys.argv[1].startswith("-"):
        sys.exit((__doc__ or "").strip())
    word = re.compile(r"\b(?:" + "|".join(map(re.escape, sys.argv[1:])) + r")\b")
    found = [path for path in tracked() if has(TOP / path, word)]
    stated, proofs, outside = collections.defaultdict(list), collections.Counter[str](), collections.defaultdict(list)
    for path in found:
        parts = path.split("/")
        if parts[0] == "crates" and len(parts) > 3 and parts[2] in ("src", "specs"):
            stated[parts[1]].append("/".join(parts[2:]))
        elif parts[0] == "crates" and len(parts) > 3 and parts[2] == "proofs":
            proofs[parts[1]] += 1
        else:
            outside[next(start for start in OUTSIDE if path.startswith(start))].append(path)
    print(f"{sum(map(len, stated.values()))} files state it")
    for crate, paths in sorted(stated.items()):
        print(f"  {crate}: {', '.join(paths)}")
    print(f"{proofs.total()} proofs have it: {', '.join(f'{crate} {count}' for crate, count in sorted(proofs.items())) or 'none'}")
    for start, paths in outside.items():
        print(f"{len(paths)} {'other files' if not start else 'files of ' + start}: {', '.join(path.removeprefix(start) for path in paths)}")


if __name__ == "__main__":
    main()
