"""The command `search` of `python3 -m foldcairn`: which settings of a plan meet its requirements at the longest life. Tested, not proved."""

from __future__ import annotations

import argparse
import warnings
from pathlib import Path
from typing import Any

from ..common import files
from ..common.arguments import ArgumentError
from ..model import cells
from ..model.scenario import ScenarioWarning
from ..plan.model import Search
from ..plan.schema import Key, keys
from ..search import search, shown
from . import commands, saved, verify
from .commands import Commands

_BETWEEN = ","


def add_command(listed: Commands) -> None:
    """Adds the command to those of `python3 -m foldcairn`."""
    parser = commands.add(
        listed, "search", _search,
        "Says which settings of a plan meet all its requirements at the longest battery life, and what limits them. What may be chosen is in the table "
        "[search] of the plan; an option is in place of its key there. Settings that arithmetic excludes are never run. The status is 0 where a setting "
        "meets all, 10 where none does, and 11 where that is not decided.",
    )  # fmt: skip
    parser.add_argument("file", metavar="PLAN", help="a plan file (docs/PLAN-FILE.md)")
    parser.add_argument("--best", metavar="FILE", help="write the plan with the best settings, with all its tables in one file")
    parser.add_argument("--picture", metavar="FILE", help="draw life against margin: the file's ending says whether it is SVG, PNG or PDF")
    parser.add_argument("--seeds", type=int, metavar="N", help="how many draws the verdict on a setting may use, 1 to 10,000 (those of the plan without it)")
    parser.add_argument("--jobs", type=int, metavar="N", help="how many draws are made at a time; a process for each processor without it")
    parser.add_argument("--resume", metavar="FOLDER", help="where draws are kept as they come: what was stopped goes on from there")
    saved.add_option(parser)
    space = parser.add_argument_group("what may be chosen, with commas between the values")
    for named in keys(Search):
        word = "N" if named.key.kind == "whole" else "NODE,NODE,.." if named.key.kind == "texts" else "V,V,.."
        space.add_argument(f"--{named.key.name.replace('_', '-')}", metavar=word, help=named.key.about)


def _search(chosen: argparse.Namespace) -> int:
    plan = verify.plan_of(chosen.file)
    space = {named.key.name: _values(named.key, words) for named in keys(Search) if (words := getattr(chosen, named.field)) is not None}
    for written in (chosen.best, chosen.picture):
        _require_other(written, chosen.file)
    for remark in plan.remarks:
        warnings.warn(remark, ScenarioWarning, stacklevel=2)
    found = search(plan, space, seeds=chosen.seeds, jobs=chosen.jobs, folder=chosen.resume)
    saved.write(chosen, {"settings": found.table}, plan.settings.name or Path(chosen.file).stem)
    if chosen.picture:
        from ..draw import plot

        plot.save(plot.search(found), chosen.picture)
    if chosen.best and found.best is not None:
        files.write(chosen.best, found.best.text().encode())
    commands.say(shown.table(found))
    return found.status


def _values(key: Key, words: str) -> Any:
    """The values of an option, as its key takes them. What is wrong with them is said where they are taken."""
    several = [word.strip() for word in words.split(_BETWEEN)]
    if key.kind == "whole":
        return cells.number(words)
    return several if key.kind == "texts" else [cells.number(word) for word in several if word]


def _require_other(written: str | None, plan: str) -> None:
    """Raises `ArgumentError` where what is written would replace the plan."""
    if written is not None and Path(written).exists() and Path(written).samefile(plan):
        raise ArgumentError(f"{written} is the plan itself; name another file")
