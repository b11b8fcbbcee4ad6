"""The commands of `python3 -m foldcairn` that run a network many times: a sample of seeds, plans side by side, room for more streams, and
what matters most.

Tested, not proved.
"""

from __future__ import annotations

import argparse
import contextlib
import json
from collections.abc import Iterable, Iterator
from concurrent.futures import Executor, ProcessPoolExecutor
from pathlib import Path
from typing import Any

import pandas as pd

from .. import planning
from ..answers import findings
from ..common.arguments import ArgumentError
from ..many import executors
from ..model.scenario import Scenario
from ..pages import report
from ..runs import program
from . import commands, saved
from .commands import Commands


def add_commands(listed: Commands) -> None:
    """Adds the commands to those of `python3 -m foldcairn`."""
    _add_sample(listed)
    _add_compare(listed)
    _add_capacity(listed)
    _add_importance(listed)


@contextlib.contextmanager
def workers(jobs: int | None) -> Iterator[Executor]:
    """Processes for the runs of a command. Where it is stopped, what has not begun is left."""
    with executors.processes(jobs, ProcessPoolExecutor) as pool:
        yield pool


def _add(listed: Commands, name: str, run: Any, about: str, files: str, seeds: str | None) -> argparse.ArgumentParser:
    """A command with what all of them take."""
    parser = commands.add(listed, name, run, about)
    if files:
        parser.add_argument("files", metavar="[NAME=]FILE", nargs="+", help=files)
    else:
        commands.add_file(parser)
    commands.add_ratios(parser, "without it nothing is lost but what the text says")
    commands.add_receivers(parser)
    commands.add_runs(parser, seeds)
    parser.add_argument("--json", action="store_true", help="write JSON in place of a table")
    saved.add_option(parser)
    return parser


def _write(table: pd.DataFrame, chosen: argparse.Namespace, networks: Iterable[Scenario], name: str) -> int:
    """Writes the table of these networks, which has this name, on standard output, as text below the seed where it is of one draw."""
    seeds = commands.seeds(chosen.seeds)
    saved.write(chosen, {name: table}, chosen.title if name == "comparison" else Path(chosen.file).stem)
    if len(seeds) == 1 and not chosen.json and any(network.is_to_be_drawn for network in networks):
        commands.say(f"{findings.draw(seeds[0])}\n\n".capitalize())
    if chosen.json:
        commands.say(json.dumps(json.loads(table.to_json(orient="records", double_precision=15)), indent=1) + "\n")
    else:
        commands.say(table.to_string(index=False, float_format=lambda number: f"{number:.3f}", na_rep="-") + "\n")
    return 0


def _add_sample(listed: Commands) -> None:
    parser = _add(
        listed, "sample", _sample,
        "Runs a network with the losses of many seeds, and says how likely it is: delivery ratios, latencies, fates, radio time, searching "
        "and battery lives with means, standard errors, intervals of 95 % and quantiles over the seeds. It goes on where it was stopped if it "
        "is given the same folder of results. (`foldcairn sample FROM COUNT` with two numbers is the command of the program, which counts "
        "what these tables are made of.)", "", None,
    )  # fmt: skip
    parser.add_argument("--seeds", default="100", metavar="N", help="how many seeds, from 1 on, or A-B for those from A to B (100 without it)")
    parser.add_argument("--deadline", type=float, metavar="S", help="say also which part is delivered within so many seconds")
    parser.add_argument("--html", metavar="FILE", help="write one HTML file with the tables and a map instead; it is whole without other files")
    commands.add_battery(parser)


def _sample(chosen: argparse.Namespace) -> int:
    from ..pages import sample_page

    network, battery = commands.scenario(chosen.file, chosen.ratios), commands.battery(chosen)
    with workers(chosen.jobs) as pool:
        found = planning.sample(
            network, commands.many_seeds(chosen.seeds), receivers=commands.receivers(chosen.receivers), deadline=chosen.deadline, executor=pool,
            results=chosen.results,
        )  # fmt: skip
    saved.write(chosen, found.tables(**battery) if chosen.save else {}, Path(chosen.file).stem)
    if chosen.html:
        found.write(chosen.html, title=Path(chosen.file).stem, **battery)
    elif chosen.json:
        commands.say(report.as_json(found.tables(**battery), program.versions()))
    else:
        commands.say("\n".join(found.remarks()) + "\n\n" + report.shown(found.tables(**battery), sample_page.titles(found, battery)))
    return 0


def _add_compare(listed: Commands) -> None:
    parser = _add(
        listed, "compare", _compare,
        "Puts plans side by side, each run once for each seed. It prints a table of the answers with halves of intervals of 95 % and what is "
        "better, and writes a page with the maps, this table, and the radios of each plan where its host fails.",
        "two scenarios or more; a plan is called NAME, or as its file", "1-4",
    )  # fmt: skip
    parser.add_argument("-o", "--output", metavar="FILE", default="plans.html", help="the page that is written (plans.html without it)")
    parser.add_argument("--by", choices=("log", "sample"), help="all answers by logs, or those that a sample has, for hundreds of seeds")
    parser.add_argument("--title", default="Plans side by side", help="the title of the page")
    parser.add_argument("--site", default="", help="the name of the site, below the title")
    parser.add_argument("--notes", metavar="FILE", help="a text of your own, which stands at the top")
    commands.add_places(parser)


def _compare(chosen: argparse.Namespace) -> int:
    plans, positions = _plans(chosen.files, chosen.ratios, chosen.places)
    with workers(chosen.jobs) as pool:
        told = report.compare(
            plans, chosen.output, seeds=commands.seeds(chosen.seeds), title=chosen.title, site=chosen.site,
            notes=Path(chosen.notes).read_text(encoding="utf-8") if chosen.notes else "", positions=positions,
            receivers=commands.receivers(chosen.receivers), executor=pool, results=chosen.results, by=chosen.by,
        )  # fmt: skip
    return _write(told.table, chosen, plans.values(), "comparison")


def _plans(
    words: list[str], ratios: str | None, places: str | None
) -> tuple[dict[str, Scenario], dict[int, tuple[float, float]] | None]:  # fmt: skip
    """The plans by their names, and where their nodes are."""
    plans: dict[str, Scenario] = {}
    positions = None
    for word in words:
        name, mark, path = word.partition("=")
        if not mark or Path(word).is_file():
            name, path = Path(word).stem, word
        if name in plans:
            raise ArgumentError(f"two plans are called {name!r}: name them, as in A={path}")
        plans[name] = commands.scenario(path)
        positions = commands.places(plans[name], places)
        commands.set_ratios(plans[name], ratios)
    return plans, positions


def _add_capacity(listed: Commands) -> None:
    parser = _add(
        listed, "capacity", _capacity,
        "Says how many streams and slots are left, and how many more streams of an interval a run still serves. Take a network "
        "without failures: what is lost for want of a host is not lost for want of room.", "", "1",
    )  # fmt: skip
    parser.add_argument("--every", type=float, default=60.0, metavar="S", help="a further stream has a packet each so many seconds (60 without it)")
    parser.add_argument("--interval", type=int, metavar="S", help="and asks for a slot each so many; some 15 %% sooner than its packets without it")
    parser.add_argument("--sources", metavar="NODE,NODE,..", help="the nodes that get them, in turn; all but the first host without it")
    parser.add_argument("--ratio", type=float, default=0.9, metavar="R", help="the part of its packets that has to be delivered (0.9 without it)")
    parser.add_argument("--from", dest="start", type=float, metavar="S", help="from when on that is counted; half of the run without it")


def _capacity(chosen: argparse.Namespace) -> int:
    network = commands.scenario(chosen.file, chosen.ratios)
    with workers(chosen.jobs) as pool:
        table = planning.capacity(
            network, chosen.every, interval=chosen.interval, sources=commands.nodes(chosen.sources) if chosen.sources else None,
            ratio=chosen.ratio, start_seconds=chosen.start, seeds=commands.seeds(chosen.seeds),
            receivers=commands.receivers(chosen.receivers), executor=pool, results=chosen.results,
        )  # fmt: skip
    return _write(table, chosen, [network], "capacity")


def _add_importance(listed: Commands) -> None:
    parser = _add(
        listed, "importance", _importance,
        "Says how much less is delivered without each link or node: each is cut in turn, once for each seed, and the most harmful cut comes "
        "first. The losses of a seed are drawn anew for each cut.", "", "1-4",
    )  # fmt: skip
    parser.add_argument("--of", choices=("links", "nodes"), default="links", help="what is cut (links without it)")
    parser.add_argument("--only", metavar="CUT,CUT,..", help="only these: nodes, or links as 3-4, both directions of a pair")


def _importance(chosen: argparse.Namespace) -> int:
    network = commands.scenario(chosen.file, chosen.ratios)
    with workers(chosen.jobs) as pool:
        table = planning.importance(
            network, chosen.of, candidates=_cuts(chosen.of, chosen.only), seeds=commands.seeds(chosen.seeds),
            receivers=commands.receivers(chosen.receivers), executor=pool, results=chosen.results,
        )  # fmt: skip
    return _write(table, chosen, [network], "importance")


def _cuts(what: str, words: str | None) -> list[Any] | None:
    """The links or nodes of a list with commas."""
    if words is None:
        return None
    if what == "nodes":
        return list(commands.nodes(words))
    pairs = [commands.nodes(word.replace("-", ",")) for word in words.split(",")]
    if any(len(pair) != 2 for pair in pairs):
        raise ArgumentError(f"`--only` is {words!r}, and has to be pairs of nodes with commas between them, as in 3-4,5-6")
    return [tuple(pair) for pair in pairs]
