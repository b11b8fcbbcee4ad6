"""The commands of `python3 -m foldcairn` that make plan files, and networks of them: `new` an example, `import` one of what is there already.

Tested, not proved.
"""

from __future__ import annotations

import argparse
import shlex
from pathlib import Path
from typing import Any

from ..common import files
from ..common.arguments import ArgumentError, whole
from ..model import lines
from ..model.scenario import Scenario
from . import commands
from .commands import Commands

_SOURCES = ("survey", "positions", "both", "none")


def add_commands(listed: Commands) -> None:
    """Adds the commands to those of `python3 -m foldcairn`."""
    _add_new(listed)
    _add_import(listed)
    _add_network(listed)


def _add_new(listed: Commands) -> None:
    parser = commands.add(
        listed, "new", _new,
        "Writes a plan that runs into a folder, to be changed: a plan file with comments, and tables of nodes, of a survey and of streams. No file "
        "that is there is replaced.",
    )  # fmt: skip
    parser.add_argument("folder", metavar="FOLDER", help="where it is written; the folder is made if it is not there")


def _new(chosen: argparse.Namespace) -> int:
    from ..plan import example

    folder = Path(chosen.folder)
    if there := [name for name in example.FILES if (folder / name).exists()]:
        raise ArgumentError(f"{folder / there[0]} is there already, and is not replaced; name another folder")
    files.write_all({folder / name: text.encode() for name, text in example.FILES.items()})
    plan = shlex.quote(str(folder / "plan.toml"))
    commands.say(f"{folder}: {', '.join(example.FILES)}; try foldcairn verify {plan}, or foldcairn report {plan}\n")
    return 0


def _add_import(listed: Commands) -> None:
    parser = commands.add(
        listed, "import", _import,
        "Makes a plan file of a scenario, of a network with its ratios, or of tables of nodes, links and streams; of another plan file, one with all "
        "its tables and all ids in it. What a plan can't say is told.",
    )  # fmt: skip
    parser.add_argument("file", metavar="FILE", nargs="?", help="a scenario, a network with its ratios, or a plan file, or - for standard input")
    parser.add_argument("-o", "--output", metavar="FILE", default="plan.toml", help="the file that is written (plan.toml without it)")
    parser.add_argument("--force", action="store_true", help="replace it if it is there")
    tables = parser.add_argument_group("in place of FILE")
    tables.add_argument("--nodes", metavar="CSV", help="a table of nodes: name, and maybe id, x, y, floor, powered, host")
    survey = "a survey: from, to, and ratio, sent and received, or rssi; may be given again"
    tables.add_argument("--links", metavar="CSV", action="append", default=[], help=survey)
    tables.add_argument("--streams", metavar="CSV", help="a table of streams: from, to, every or sporadic, deadline")
    tables.add_argument("--hosts", metavar="NODE,NODE,..", help="the hosts, the first choice first; by a column host of the nodes without it")
    tables.add_argument("--profile", type=int, choices=(1, 2), help="1 or 2 (1 without it)")
    tables.add_argument("--hours", type=float, metavar="H", help="the length of a run (1 without it)")
    tables.add_argument("--losses", choices=_SOURCES, help="where ratios come from; survey if there are links, else positions")
    tables.add_argument("--preset", metavar="NAME", help="the surroundings, for ratios by positions, as office")


def _import(chosen: argparse.Namespace) -> int:
    plan, remarks = _made(chosen)
    output = Path(chosen.output)
    if output.exists() and not chosen.force:
        raise ArgumentError(f"{output} is there already; name another file by -o, or write --force to replace it")
    text = plan.text()
    files.write_all({output: text.encode()})
    for remark in remarks:
        commands.say(f"warning: {remark}\n")
    commands.say(f"{output}: {len(plan.nodes)} nodes, {len(plan.links)} rows of links, {len(plan.streams)} streams, {len(plan.hosts)} hosts\n")
    return 0


def _made(chosen: argparse.Namespace) -> tuple[Any, list[str]]:
    """The plan, and what of it was left out."""
    from ..plan import of_scenario

    if (chosen.file is None) == (chosen.nodes is None):
        raise ArgumentError("give a FILE, or tables by --nodes, --links and --streams" + ("" if chosen.file is None else "; not both"))
    if chosen.nodes is not None:
        return _of_tables(chosen), []
    if of_tables := next((name for name in ("links", "streams", "hosts", "profile", "hours", "losses", "preset") if getattr(chosen, name)), ""):
        raise ArgumentError(f"`--{of_tables}` is for tables, and needs --nodes")
    if (found := commands.plan(chosen.file)) is not None:
        return found, []
    made = of_scenario(Scenario.read(commands.read(chosen.file)))
    return made, made.remarks


def _of_tables(chosen: argparse.Namespace) -> Any:
    from ..plan import of_tables

    settings = {name: getattr(chosen, name) for name in ("profile", "hours") if getattr(chosen, name) is not None}
    source = chosen.losses or ("survey" if chosen.links else "positions")
    return of_tables(
        chosen.nodes, chosen.links, chosen.streams, hosts=[name.strip() for name in chosen.hosts.split(",")] if chosen.hosts else (),
        settings=settings, losses={"from": source, **({"preset": chosen.preset} if chosen.preset else {})},
    )  # fmt: skip


def _add_network(listed: Commands) -> None:
    parser = commands.add(
        listed, "network", _network,
        "Writes the network of a plan as the program reads it, with its reception ratios: that of a seed, or the one of its means. The commands "
        "outcome, fates, sample and draw of the program take it.",
    )  # fmt: skip
    parser.add_argument("file", metavar="FILE", help="a plan (.toml)")
    parser.add_argument("--seed", type=int, metavar="N", help="what this seed draws, a whole number; the means without it")


def _network(chosen: argparse.Namespace) -> int:
    found = commands.plan(chosen.file)
    if found is None:
        raise ArgumentError(f"{chosen.file} is no plan by its name, which ends with .toml; `foldcairn import` makes one of a scenario")
    network = found.network(None if chosen.seed is None else whole("seed", chosen.seed, 0, lines.SEED_MOST))
    commands.say(network.network_text(warn=False))
    return 0
