#!/usr/bin/env python3
"""Writes the limits that the Python package needs, as the sources of the programs have them, into python/src/foldcairn/common/limits.py.

Usage: tools/limits.py [--check]. A constant is `pub const NAME: TYPE = VALUE;` below comments that say what it is; its value is a number, or
the name of another one. With --check nothing is written: the status is 1 if the file is not what would be written, which is then said.
Only Python's standard library is used. Tested, not proved.
"""
import pathlib
import re
import sys

TOP = pathlib.Path(__file__).resolve().parent.parent
WRITTEN = TOP / "python/src/foldcairn/common/limits.py"
# The constants of each file that are taken, with another name where the one of the file says too little without it.
TAKEN = {
    "lwb_base/src/limits.rt": {
        name: name
        for name in (
            "GREATEST_GAP", "QUIET_FRAMES", "SEARCH_FRAMES", "FLOOD_STEPS", "DATA_SLOTS", "GREATEST_ID", "MOST_BOOTS", "MOST_NODES", "MOST_FRAMES",
            "MOST_RANKS", "MOST_SCRIPT_LINES", "DRIFT_BOUND",
        )
    },
    "lwb_base/src/read.rt": {"INPUT_LIMIT": "INPUT_LIMIT"},
    "scenario_text/src/limits.rt": {name: name for name in ("RUN_NODE_FRAMES", "BUS_NODE_FRAMES", "BUS_SCRIPT_LINES")},
    "network_text/src/limits.rt": {name: name for name in ("GREATEST_RATIO", "MOST_RATIO_LINES")},
    "node_streams/src/stream.rt": {"ROOM": "QUEUE_LENGTH"},
    "stream_table/src/table_entry.rt": {"UNHEARD": "EMPTY_SLOTS"},
}
HEAD = '"""The numbers that the rules and the texts fix, as the sources of the programs have them. Written by tools/limits.py. Tested, not proved."""\n'


def constants(path: pathlib.Path) -> dict[str, tuple[str, str]]:
    """The constants of a source by their names, each with its comment and its value."""
    found = re.findall(r"((?:^ *//[^\n]*\n)*)^ *(?:pub )?const (\w+): \w+ = ([^;]+);", path.read_text(), re.M)
    return {name: (" ".join(re.sub(r"^ *///? ?", "", line) for line in comment.splitlines()), value) for comment, name, value in found}


def written() -> str:
    """The module."""
    lines = [HEAD]
    for file, names in TAKEN.items():
        known = constants(TOP / "crates" / file)
        for name, own in names.items():
            if name not in known:
                sys.exit(f"tools/limits.py: crates/{file} has no constant {name}")
            comment, value = known[name]
            if not re.fullmatch(r"[0-9_]+", value):
                sys.exit(f"tools/limits.py: crates/{file}: {name} is no number: {value}")
            lines.append(f"# {comment}\n{own} = {int(value):_}")
    return "\n".join(lines) + "\n"


def main() -> None:
    text = written()
    if sys.argv[1:] == ["--check"]:
        if not WRITTEN.is_file() or WRITTEN.read_text() != text:
            sys.exit("python/src/foldcairn/common/limits.py is not what the sources have: make limits")
    elif sys.argv[1:]:
        sys.exit("usage: tools/limits.py [--check]")
    else:
        WRITTEN.write_text(text)


if __name__ == "__main__":
    main()
