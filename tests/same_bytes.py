#!/usr/bin/env python3
"""Whether another build of both programs writes the same bytes as the stored ones, with the same status, and nothing on standard error.

The texts are all examples and worked texts by each command that reads them, recorded logs, words that are no command, and random
texts of all commands (tests/random_texts.py). So a difference is noticed in what these ask for, and nothing is proved of the other
build.

Usage: tests/same_bytes.py PROGRAM PLAN [--random N] [--first SEED] [--jobs N]
       tests/same_bytes.py --through COMMAND [--random N] [--first SEED] [--jobs N]
PROGRAM and PLAN are the other build. COMMAND is one that reads cases on its standard input, a line of JSON each: its words, its input in
base64, and the status and the SHA-256 of what is due; and which ends with status 0 if all are as they are due. The last line is 'N cases,
M differences', and the status is 0 where M is 0. Tested, not proved.
"""

from __future__ import annotations

import argparse
import base64
import concurrent.futures
import dataclasses
import hashlib
import json
import pathlib
import shlex
import subprocess
import sys
from collections.abc import Iterable, Iterator

from random_texts import Case, drawn, of_network, of_scenario

TOP = pathlib.Path(__file__).resolve().parent.parent
PROVED = [TOP / "bin/foldcairn-x86_64-linux", TOP / "bin/foldcairn-plan-x86_64-linux"]
SECONDS = 120
# The commands of the second program; `run` and `log` are its own with a number after them. What COMMAND runs has both programs in one,
# and goes by the command.
PLANNERS = ["draw", "outcome", "fates", "sample"]
SEEDED = ["run", "log"]
NO_COMMANDS = [(), ("none",), ("run", "x"), ("outcome",), ("sample", "1"), ("demo", "1", "2"), ("outcome", "18446744073709551616"), ("run", "")]


@dataclasses.dataclass(frozen=True)
class Answer:
    """What a run gave."""

    status: int
    output: bytes
    errors: bytes


def is_planners(words: tuple[str, ...]) -> bool:
    """Whether the command is one of the second program."""
    by_number = len(words) > 1 and words[0] in SEEDED and words[1].isdigit()
    return by_number or bool(words) and words[0] in PLANNERS


def run(program: pathlib.Path, case: Case) -> Answer:
    """The answer of a program."""
    done = subprocess.run([program, *case.words], input=case.text, capture_output=True, timeout=SECONDS)
    return Answer(done.returncode, done.stdout, done.stderr)


def with_log(text: bytes) -> Iterator[Case]:
    """The command `check` on a scenario with its log, and with one line less."""
    log = run(PROVED[0], Case(("log",), text))
    yield Case(("check",), text + b"log\n" + log.output)
    lines = log.output.splitlines(keepends=True)
    if lines:
        del lines[len(lines) // 2]
        yield Case(("check",), text + b"log\n" + b"".join(lines))


def named(origin: str, cases: Iterable[Case]) -> Iterator[Case]:
    """The cases with where their texts come from."""
    return (dataclasses.replace(case, origin=origin) for case in cases)


def filed() -> Iterator[Case]:
    """The examples and the worked texts, and words that are no command."""
    for folder in (TOP / "examples", TOP / "tests/worked"):
        for file in sorted(folder.iterdir()):
            text = file.read_bytes() if file.is_file() else b""
            if file.suffix == ".scenario":
                yield from named(file.name, [*of_scenario(text), *with_log(text)])
            if file.suffix in (".scenario", ".network"):
                yield from named(file.name, of_network(text, 7))
            if file.suffix in (".flood", ".deadlines"):
                yield Case((file.suffix[1:],), text, origin=file.name)
    for words in NO_COMMANDS:
        yield Case(words, b"")
        yield Case(words, b"", is_plan=True)


def of_seed(seed: int) -> list[Case]:
    """The cases of a seed."""
    cases = list(drawn(seed))
    return list(named(f"seed {seed}", cases + list(with_log(cases[0].text))))


def due(case: Case) -> Answer:
    """What the proved program gives."""
    return run(PROVED[case.is_plan], case)


def shown(case: Case) -> str:
    """A case in a line."""
    return f"{'foldcairn-plan' if case.is_plan else 'foldcairn'} {' '.join(case.words)} of {case.origin or 'no file'}, {len(case.text)} bytes"


def differs(programs: list[pathlib.Path], case: Case) -> bool:
    """Whether the other build gives something else, which is said."""
    one, other = due(case), run(programs[case.is_plan], case)
    if one == other:
        return False
    print(f"DIFFERS: {shown(case)}: status {one.status} and {other.status}")
    print(f"    {one.output[:120]!r}\n    {other.output[:120]!r}\n    {other.errors[:200]!r}")
    return True


def as_line(case: Case) -> str:
    """A case with what is due, as JSON."""
    answer = due(case)
    given = {"words": case.words, "input": base64.b64encode(case.text).decode(), "origin": case.origin}
    due_of_it = {"status": answer.status, "sum": hashlib.sha256(answer.output).hexdigest()}
    return json.dumps(given | due_of_it) + "\n"


def main() -> int:
    words = argparse.ArgumentParser(usage=__doc__)
    words.add_argument("programs", nargs="*", type=pathlib.Path)
    words.add_argument("--through")
    words.add_argument("--random", type=int, default=0)
    words.add_argument("--first", type=int, default=1)
    words.add_argument("--jobs", type=int, default=2)
    given = words.parse_args()
    if len(given.programs) != (0 if given.through else 2):
        words.error("two programs, or --through a command")
    with concurrent.futures.ThreadPoolExecutor(given.jobs) as pool:
        seeds = pool.map(of_seed, range(given.first, given.first + given.random))
        cases = [*filed(), *(case for of_one in seeds for case in of_one)]
        if given.through:
            lines = "".join(pool.map(as_line, [case for case in cases if case.is_plan == is_planners(case.words)]))
            return subprocess.run(shlex.split(given.through), input=lines, text=True).returncode
        programs = [program.resolve() for program in given.programs]
        count = sum(pool.map(lambda case: differs(programs, case), cases))
    print(f"{len(cases)} cases, {count} differences")
    return int(count > 0)


if __name__ == "__main__":
    sys.exit(main())
