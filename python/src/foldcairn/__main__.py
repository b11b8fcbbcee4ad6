"""The commands of `python3 -m foldcairn`, for whoever writes no Python. Tested, not proved.

The front end `foldcairn` hands their words on to here, and names itself in the variable FOLDCAIRN_CALLED.
"""

from __future__ import annotations

import argparse
import contextlib
import errno
import io
import os
import sys
import warnings
from collections.abc import Sequence
from functools import partial
from pathlib import Path
from typing import TYPE_CHECKING

from . import front_end
from .common import ending

try:
    from .cli import commands, failures, outputs, plan_files, plans, reports, saved, search, verify
    from .cli.commands import Commands
    from .common.arguments import ArgumentError
    from .common.visible import csv, visible
    from .many import sweep
    from .model.cautions import of
    from .model.scenario import Scenario, ScenarioWarning
    from .pages import report
    from .runs import program
    from .studio import command as studio
except ModuleNotFoundError as error:
    sys.exit(f"foldcairn: {front_end.missing(error)}")
except KeyboardInterrupt:
    # The libraries take most of a second.
    print("foldcairn: stopped", file=sys.stderr)
    sys.exit(130)

if TYPE_CHECKING:
    from .runs import losses

# Exit statuses: 0 done; 1 the text is rejected, or what was asked for can't be had; 2 the words are no command; 3 the input can't be read;
# 4 the output could not be written whole.
_FAILED = 1
_UNREADABLE = 3
_UNWRITTEN = 4


def main(arguments: Sequence[str] | None = None) -> int:
    """Runs one command, and gives its exit status."""
    parser = commands.Parser(
        os.environ.get("FOLDCAIRN_CALLED", "python3 -m foldcairn"),
        description="Helps to plan with the program foldcairn, which it runs: set the environment variable FOLDCAIRN to its path "
        "where it is not in the repository or on the PATH. `COMMAND --help` says more.",
    )
    parser.add_argument("--version", action=_Version, nargs=0, help="the versions of the package and of the program, and exit")
    listed = parser.add_subparsers(title="commands", required=True, metavar="COMMAND")
    for add in _COMMANDS:
        add(listed)
    chosen = parser.parse_args(arguments)
    sys.stdout = sys.stdout or _Closed()  # type: ignore[assignment]
    warnings.showwarning = partial(_show_warning, set())
    warnings.simplefilter("always", ScenarioWarning)
    try:
        with ending.by_exception():
            status: int = chosen.run(chosen)
            sys.stdout.flush()
            return status
    except ModuleNotFoundError as error:
        print(f"foldcairn: {front_end.missing(error)}", file=sys.stderr)
    except commands.Unreadable as error:
        print(visible(f"foldcairn: {error}"), file=sys.stderr)
        return _UNREADABLE
    except OSError as error:
        if error.filename is None and error.errno in _OF_OUTPUT:
            return _unwritten(error)
        print(visible(f"foldcairn: {_in_words(error)}"), file=sys.stderr)
    except (program.ProgramError, commands.Failed, sweep.SweepStopped, ValueError) as error:
        print(visible(f"foldcairn: {error}"), file=sys.stderr)
    except KeyboardInterrupt:
        print("foldcairn: stopped", file=sys.stderr)
        return 130
    except ending.Ended as ended:
        print("foldcairn: stopped", file=sys.stderr)
        return 128 + ended.signal
    return _FAILED


# What can be wrong with the standard output: it is full, its reader is gone, or it was closed before.
_OF_OUTPUT = (errno.ENOSPC, errno.EFBIG, errno.EDQUOT, errno.EPIPE, errno.EIO, errno.EBADF)


class _Closed(io.TextIOBase):
    """A standard output that was closed before this program began."""

    def write(self, _: str) -> int:
        """Raises `OSError`."""
        raise OSError(errno.EBADF, "it is closed")


def _unwritten(error: OSError) -> int:
    """Says that the output could not be written whole, and lets the rest of it go nowhere, so that nothing is said at the end again."""
    print(f"foldcairn: the output could not be written whole: {error.strerror}", file=sys.stderr)
    with contextlib.suppress(OSError, ValueError):
        os.dup2(os.open(os.devnull, os.O_WRONLY), sys.stdout.fileno())
    return _UNWRITTEN


def _in_words(error: OSError) -> str:
    """What is wrong with a file, with its name."""
    return f"{error.strerror}: '{os.fsdecode(error.filename)}'" if error.strerror and isinstance(error.filename, (str, bytes)) else str(error)


def _show_warning(shown: set[str], message: Warning | str, *_: object, **__: object) -> None:
    """Shows a warning, each once: several tables may be of one number."""
    if str(message) in shown:
        return
    shown.add(str(message))
    print(visible(f"foldcairn: warning: {message}"), file=sys.stderr)


class _Version(argparse.Action):
    """Says the versions, also that of the program, and ends."""

    def __call__(self, parser: argparse.ArgumentParser, *_: object, **__: object) -> None:
        try:
            versions = program.versions()
        except program.ProgramError as error:
            parser.exit(_FAILED, f"foldcairn: {error}\n")
        print(f"foldcairn {versions['package']}\nprogram {program.find()}, SHA-256 {versions['program']}")
        parser.exit()


def _add_draw(listed: Commands) -> None:
    parser = commands.add(
        listed, "draw", _draw,
        "Writes the scenario with losses that are drawn from reception ratios. Only losses that change who receives are "
        "written; the same seed gives the same losses.",
    )  # fmt: skip
    commands.add_file(parser)
    commands.add_ratios(parser, "those of a network are in its text")
    parser.add_argument("--seed", type=int, default=1, help="a whole number (1 without it)")
    parser.add_argument("--results", metavar="FOLDER", help="where the losses are kept: a later call takes them from there")


def _draw(chosen: argparse.Namespace) -> int:
    from .runs import losses

    scenario = commands.scenario(chosen.file, chosen.ratios)
    if not scenario.ratio_lines():
        raise ArgumentError(
            f"{chosen.file} has no reception ratios to draw losses by: give --ratios CSV, or a network text, which has them below a line `ratios`"
        )
    try:
        drawn = losses.draw(scenario, chosen.seed, results=chosen.results, progress=True)
    except losses.TooManyLosses as error:
        raise commands.Failed(str(error)) from error
    commands.say(drawn.text())
    return 0


def _add_sweep(listed: Commands) -> None:
    parser = commands.add(
        listed, "sweep", _sweep,
        "Runs many scenarios and writes one table: of each file of a folder, or of one file with losses drawn by each seed. A sweep "
        "that was stopped goes on where it was if it is given the same folder of results; what has changed since is made anew.",
    )  # fmt: skip
    parser.add_argument("path", metavar="PATH", help="a folder with files *.scenario, a plan (.toml), a network with its ratios, or with --ratios a scenario")
    commands.add_ratios(parser, "with it PATH is one scenario")
    commands.add_runs(parser, "1-10")
    parser.add_argument(
        "--part", metavar="K/N", help="run the K-th of N parts alone, so that several machines share the work and one folder of results"
    )
    commands.add_receivers(parser)
    parser.add_argument(
        "--measure", choices=("sums", "planning"), default="sums",
        help="what is measured: sums of deliveries, drops and ticks (without it), or the main numbers of planning.summary",
    )  # fmt: skip
    parser.add_argument("--json", action="store_true", help="write JSON with the versions of package and program, in place of CSV")
    saved.add_option(parser)


def _drawing(file: str, ratios: str | None = None, seed: int = 1) -> losses.Drawing:
    """The scenario of a file with its ratios, or those of a table, whose losses are drawn by a seed; where it is too long for a log, it is
    counted. In the process of a worker."""
    from .many import counts
    from .runs import losses

    made = commands.scenario(file, ratios)
    return (losses.Drawing if made.is_for_run else counts.Sampled)(made, seed)


def _cases(chosen: argparse.Namespace) -> tuple[sweep.Build, list[dict[str, object]]]:
    """What builds the scenarios of a sweep, and the cases."""
    path = Path(chosen.path)
    planned = commands.plan(chosen.path) if path.is_file() else None
    if chosen.ratios or planned is not None or (path.is_file() and commands.is_network(commands.read(chosen.path))):
        if not path.is_file():
            raise ArgumentError(f"{path} is no file; with --ratios a scenario is named, whose losses are drawn")
        of_table = {"ratios": [chosen.ratios]} if chosen.ratios else {}
        return _drawing, sweep.grid(file=[chosen.path], **of_table, seed=commands.seeds(chosen.seeds))
    if path.is_file():
        raise ArgumentError(
            f"{path} is a single scenario: give --ratios CSV to draw its losses by seeds, or name a folder, or a network with its ratios"
        )
    if not path.is_dir():
        raise ArgumentError(f"{path} is no folder")
    cases: list[dict[str, object]] = [dict(case) for case in sweep.files(path)]
    if not cases:
        raise ArgumentError(f"there is no file *.scenario in {path}")
    return sweep.from_file, cases


def _part(words: str, cases: list[dict[str, object]]) -> list[dict[str, object]]:
    """The cases of the part `K/N`: each N-th from the K-th on. Raises `ArgumentError` where the words are no such part, or it has no case."""
    number, _, parts = words.partition("/")
    if not (number.isdecimal() and parts.isdecimal() and 1 <= int(number) <= int(parts)):
        raise ArgumentError(f"`--part` is {words!r}, and has to be K/N with K from 1 to N, as 2/5 for the second of five parts")
    found = cases[int(number) - 1 :: int(parts)]
    if not found:
        raise ArgumentError(f"`--part` is {words!r}, and there are {len(cases)} cases alone")
    return found


def _sweep(chosen: argparse.Namespace) -> int:
    from . import planning

    build, cases = _cases(chosen)
    cases = cases if chosen.part is None else _part(chosen.part, cases)
    whom = commands.receivers(chosen.receivers)
    if whom is not None and chosen.measure != "planning":
        raise ArgumentError("`--receivers` needs `--measure planning`: sums count all deliveries")
    measures: dict[str, sweep.Measure] = {"planning": partial(planning.summary, receivers=whom), "sums": sweep.summary}
    with plans.workers(chosen.jobs) as pool:
        table = sweep.sweep(build, cases, measures[chosen.measure], executor=pool, results=chosen.results)
    saved.write(chosen, {"cases": table}, Path(chosen.path).stem)
    commands.say(report.as_json({"cases": table}, table.attrs) if chosen.json else csv(table))
    return 0 if (table.status == "ok").all() else _FAILED


def _add_explain(listed: Commands) -> None:
    parser = commands.add(
        listed, "explain", _explain,
        "Says why a text is rejected, by line, word and range; of a scenario that is accepted, what it hardly means.",
    )  # fmt: skip
    parser.add_argument("file", metavar="FILE", help="a text, a plan (.toml), or - for standard input")
    parser.add_argument(
        "--command", choices=("run", "flood", "deadlines"), default="run", help="the command of the program that reads it (run without it)"
    )


def _explain(chosen: argparse.Namespace) -> int:
    text = commands.read(chosen.file)
    # `bus` reads what `run` reads, and is faster, and `outcome` reads networks.
    has_ratios = chosen.command == "run" and commands.is_network(text)
    program.execute(["outcome", "1"] if has_ratios else ["bus" if chosen.command == "run" else chosen.command], text)
    cautions = of(commands.scenario(chosen.file) if chosen.file.endswith(".toml") else Scenario.read(text), long=has_ratios) if chosen.command == "run" else []
    for caution in cautions:
        commands.say(f"warning: {caution}\n")
    if not cautions:
        print("accepted, and nothing to remark")
    return 0


_COMMANDS = (
    plan_files.add_commands, reports.add_command, outputs.add_commands, plans.add_commands, studio.add_commands, verify.add_command,
    failures.add_commands, search.add_command, _add_draw, _add_sweep, _add_explain,
)  # fmt: skip

if __name__ == "__main__":
    sys.exit(main())
