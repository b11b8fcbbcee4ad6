#!/usr/bin/env python3
"""Runs the gate, and writes what it cost: processor minutes of each crate's proof, of its tests and of its edits.

The processor times are read from /proc, twice a second, for each process of the prover with those that it started. What a
process uses after its last look is not seen, so the sums are low by some seconds in a hundred minutes. Linux only.

Usage: tools/gate_costs.py [--table FILE] COMMAND ..
With --table the rows of the table of costs in that page (docs/internals/PROOFS.md) are written anew; else they are printed.
The status is that of the command. Example: tools/gate_costs.py --table docs/internals/PROOFS.md rt ci --anew
"""

import collections
import os
import re
import subprocess
import sys
import time

TOP = os.path.dirname(os.path.dirname(os.path.realpath(__file__)))
TICKS = os.sysconf("SC_CLK_TCK")
KINDS = ("proof", "tests", "edits")


def below(ancestor):
    """The names in /proc of the processes that stem from this one, with their words and the fields of their times."""
    found, parents = {}, {}
    for name in filter(str.isdigit, os.listdir("/proc")):
        try:
            with open(f"/proc/{name}/stat") as file:
                fields = file.read().rpartition(")")[2].split()
            with open(f"/proc/{name}/cmdline", "rb") as file:
                words = file.read().decode(errors="replace").split("\0")
        except OSError:
            continue
        found[name], parents[name] = (words, fields), fields[1]

    def stems(name):
        return name == ancestor or name in parents and stems(parents[name])

    return {name: of for name, of in found.items() if stems(name)}


def is_prover(words):
    return words[0].endswith("/rattle") and "--crate-name" in words


def provers(ancestor):
    """The processes of the prover that no other one started: their identity, crate, kind of work, and processor seconds so far."""
    found = below(ancestor)
    # The fields from the state on: 1 is the parent, 11 to 14 are the times of the process and of its ended children, 19 its start.
    spent, first = {}, {}
    for name, (words, fields) in found.items():
        spent[name] = sum(int(field) for field in fields[11:15]) / TICKS
        top, at = None, name
        while at in found:
            top = at if is_prover(found[at][0]) else top
            at = found[at][1][1]
        first[name] = top
    for name, (words, fields) in found.items():
        if first[name] != name:
            continue
        try:
            folder = os.readlink(f"/proc/{name}/cwd")
        except OSError:
            continue
        # The edits of a crate are tried on copies of it.
        kind = "edits" if "rt-edit-" in folder else "tests" if "--test" in words else "proof"
        seconds = sum(spent[other] for other, top in first.items() if top == name)
        yield (name, fields[19]), words[words.index("--crate-name") + 1], kind, seconds


def edits_of(crate):
    folder = f"{TOP}/crates/{crate}/must-fail"
    return len(os.listdir(folder)) if os.path.isdir(folder) else 0


def rows(costs):
    """The rows of the table: a crate a row, in the order of crates.txt, and their sum."""
    with open(f"{TOP}/crates.txt") as file:
        crates = re.findall(r"^(\w+):", file.read(), re.M)
    sums = collections.Counter()
    for crate in crates:
        spent = [costs[crate, kind] / 60 for kind in KINDS]
        sums.update(dict(zip(KINDS, spent)), number=edits_of(crate))
        cells = [f"{minutes:.1f}" if minutes >= 0.05 else "none" for minutes in spent]
        yield f"| `{crate}` | {' | '.join(cells)} | {edits_of(crate)} |"
    yield f"| all | {' | '.join(f'{sums[kind]:.0f}' for kind in KINDS)} | {sums['number']} |"


def write_table(page, lines):
    """Writes the rows in place of those that the page's table of costs has."""
    with open(page) as file:
        text = file.read()
    head = re.search(r"^\| crate \| proof \| tests \| edits \|.*\n\|[-|]*\n", text, re.M)
    end = re.compile(r"^(?!\|)", re.M).search(text, head.end())
    with open(page, "w") as file:
        file.write(text[: head.end()] + "\n".join(lines) + "\n" + text[end.start() :])


def main(words):
    page = None
    if words[:1] == ["--table"]:
        page, words = words[1], words[2:]
    if not words or words[0] in ("-h", "--help"):
        print(__doc__.strip())
        return 0 if words else 2
    costs, last = collections.Counter(), {}
    with subprocess.Popen(words) as gate:
        while gate.poll() is None:
            for identity, crate, kind, seconds in provers(str(gate.pid)):
                costs[crate, kind] += seconds - last.get(identity, 0)
                last[identity] = seconds
            time.sleep(0.5)
    lines = list(rows(costs))
    if page:
        write_table(page, lines)
    else:
        print("\n".join(lines))
    return gate.returncode


if __name__ == "__main__":
    sys.exit(main(sys.argv[1:]))
