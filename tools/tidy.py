#!/usr/bin/env python3
"""Finds what is too long in .rt and .antt files and in the page's modules: lines of more than 160 columns, files of more than 300 lines, functions
of more than 40 lines or seven parameters; and libraries in crates.txt that their crate does not cite.

Usage: tools/tidy.py. Lines that have to be longer are counted in KNOWN_LINES, and what is still longer than it may be has its length in
KNOWN_LENGTHS, and may not grow. The status is 1 if there is something else. Only Python's standard library is used.
"""
import collections
import pathlib
import re
import sys

TOP = pathlib.Path(__file__).resolve().parent.parent
COLUMNS = 160
LINES = 300
# The modules of the planner's page.
MODULES = TOP / "python/src/foldcairn/studio/page/js"
# How many longer lines a file has: this one is a name that the prover gives.
KNOWN_LINES = {"crates/schedule_codec/proofs/decode/spelled/Answers.antt": 1}
FUNCTION_LINES = 40
PARAMETERS = 7
# How long these are: a table of test data, and what is to be taken apart.
KNOWN_LENGTHS = {
    "crates/test_models/src/seven.rt": 876,
    "crates/scenario_text/src/network_draft.rt": 377,
    "crates/world_engine/proofs/DeviceSteps.antt": 306,
    "crates/air_log/proofs/KeptTunings.antt": 303,
    "crates/plain_bus/src/network.rt: run_slot": 41,
}


def sources(crate):
    return [path for part in ("src", "specs", "proofs") for path in sorted((TOP / "crates" / crate / part).rglob("*")) if path.suffix in (".rt", ".antt")]


def long_lines(path):
    return [number for number, line in enumerate(path.read_text().splitlines(), 1) if len(line) > COLUMNS]


def functions(text):
    """The functions of a source, each with how many lines are in its body and how many parameters it has."""
    lines = text.splitlines()
    for start, line in enumerate(lines):
        head = re.match(r"(\s*)(?:pub(?:\(\w+\))? )?(?:const )?fn (\w+)", line)
        if not head:
            continue
        body = next((n for n in range(start, len(lines)) if re.search(r"(^\s*\{|\{|\{\}|;)$", lines[n].rstrip()) and (n > start or line.rstrip()[-1] in "{};")
                     and not re.match(r"\s*(requires|ensures)\b", lines[n])), None)
        if body is None or not lines[body].rstrip().endswith("{"):
            continue
        end = next((n for n in range(body + 1, len(lines)) if lines[n] == head[1] + "}"), len(lines))
        yield head[2], end - body - 1, parameters("".join(lines[start:body + 1]).split(head[2], 1)[1])


def parameters(text):
    """How many there are in the first pair of round brackets that is in no other bracket."""
    depth, count, empty, inside = 0, 0, True, False
    for place, letter in enumerate(text):
        if letter in "<[{(":
            inside |= letter == "(" and depth == 0
            depth += 1
        elif letter in "]})" or letter == ">" and text[place - 1] != "-":
            depth -= 1
            if inside and depth == 0:
                return count + (not empty)
        elif inside and depth == 1:
            if letter == ",":
                count, empty = count + (not empty), True
            elif not letter.isspace():
                empty = False
    return 0


def uses():
    """Each crate of crates.txt with what it uses."""
    for line in (TOP / "crates.txt").read_text().splitlines():
        if line and not line.startswith("#"):
            name, libraries = line.split(":")
            yield name.split()[0], libraries.split()


def cited(paths):
    """The words of sources without their comments."""
    comments = {".rt": r"//[^\n]*", ".antt": r"--[^\n]*"}
    return {word for path in paths for word in re.findall(r"\w+", re.sub(comments[path.suffix], "", path.read_text()))}


def main():
    found = collections.defaultdict(list)
    for crate, libraries in uses():
        paths = sources(crate)
        for path in paths:
            name = str(path.relative_to(TOP))
            longer = long_lines(path)
            if len(longer) > KNOWN_LINES.get(name, 0):
                found[f"longer than {COLUMNS} columns"] += [f"{name}:{number}" for number in longer]
            if len(path.read_text().splitlines()) > KNOWN_LENGTHS.get(name, LINES):
                found[f"more than {LINES} lines"].append(name)
            for function, count, given in functions(path.read_text()) if path.suffix == ".rt" else ():
                if count > KNOWN_LENGTHS.get(f"{name}: {function}", FUNCTION_LINES):
                    found[f"a function of more than {FUNCTION_LINES} lines"].append(f"{name}: {function}")
                if given > PARAMETERS:
                    found[f"a function of more than {PARAMETERS} parameters"].append(f"{name}: {function}")
        words = cited(paths)
        found["listed in crates.txt, and not cited"] += [f"{crate}: {library}" for library in libraries
                                                         if library not in words]
    for path in sorted(MODULES.glob("*.js")):
        found[f"longer than {COLUMNS} columns"] += [f"{path.relative_to(TOP)}:{number}" for number in long_lines(path)]
        if len(path.read_text().splitlines()) > LINES:
            found[f"more than {LINES} lines"].append(str(path.relative_to(TOP)))
    for what, places in found.items():
        for place in places:
            print(f"{place}: {what}")
    sys.exit(any(found.values()))


if __name__ == "__main__":
    main()
