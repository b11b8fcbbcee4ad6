"""The command `verify` of `python3 -m foldcairn`: whether a plan meets its requirements. Tested, not proved."""

from __future__ import annotations

import argparse
import warnings
from pathlib import Path

from ..common import files
from ..model.scenario import ScenarioWarning
from ..pages import report
from ..plan import Plan
from ..requirements import junit, shown, status, verdicts
from ..runs import program
from . import commands, saved
from .commands import Commands


def add_command(listed: Commands) -> None:
    """Adds the command to those of `python3 -m foldcairn`."""
    parser = commands.add(
        listed, "verify", _verify,
        "Says whether a plan meets its requirements, and how sure that is: met, not met, not decided, or impossible, with values, intervals and what "
        "would help. It adds draws until each requirement is decided, or `seeds` of the plan is reached. The status is 0 where all are met, 10 where some "
        "are not met or impossible, and 11 where some are not decided.",
    )  # fmt: skip
    add_draws(parser, "how many draws there may be at most, 1 to 10,000 (those of the plan without it)")
    parser.add_argument("--junit", metavar="FILE", help="write it as JUnit XML too, for a nightly job")
    saved.add_option(parser)


def add_draws(parser: argparse.ArgumentParser, seeds: str) -> None:
    """A plan, and what each command takes that draws it: `seeds` says how many draws there are."""
    parser.add_argument("file", metavar="PLAN", help="a plan file (docs/PLAN-FILE.md)")
    parser.add_argument("--seeds", type=int, metavar="N", help=seeds)
    parser.add_argument("--jobs", type=int, metavar="N", help="how many draws are made at a time; a process for each processor without it")
    parser.add_argument("--resume", metavar="FOLDER", help="where draws are kept as they come: what was stopped goes on from there")
    parser.add_argument("--json", metavar="FILE", help="write the table as JSON too")


def _verify(chosen: argparse.Namespace) -> int:
    plan = plan_of(chosen.file)
    table = verdicts(plan, chosen.seeds, chosen.jobs, chosen.resume)
    if chosen.json:
        files.write(chosen.json, report.as_json({"verdicts": table}, program.versions()).encode())
    if chosen.junit:
        files.write(chosen.junit, junit.text(table, plan.settings.name or Path(chosen.file).stem))
    saved.write(chosen, {"verdicts": table}, plan.settings.name or Path(chosen.file).stem)
    commands.say(shown.table(table))
    return status(table)


def plan_of(path: str) -> Plan:
    """The plan of a file, with what to know of it on standard error. Raises `Unreadable` where it can't be read, and what `Plan.read` raises."""
    try:
        plan = Plan.read(path)
    except IsADirectoryError:
        raise commands.Unreadable(f"'{path}' is a folder, not a file") from None
    except FileNotFoundError as error:
        raise commands.Unreadable(f"there is no file '{error.filename}'") from None
    except PermissionError as error:
        raise commands.Unreadable(f"the file '{error.filename}' can't be read: {error.strerror}") from error
    for remark in plan.remarks:
        warnings.warn(remark, ScenarioWarning, stacklevel=2)
    return plan
