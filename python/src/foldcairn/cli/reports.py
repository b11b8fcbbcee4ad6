"""The command `report` of `python3 -m foldcairn`: all planning tables of one scenario as text, as CSV files or as a page. Tested, not proved."""

from __future__ import annotations

import argparse
import re
import warnings
from pathlib import Path
from typing import TYPE_CHECKING

from .. import planning
from ..common import files
from ..common.arguments import ArgumentError
from ..model.scenario import Scenario, ScenarioWarning
from ..pages import report
from ..pages.settings import Settings
from ..pages.titles import titles
from ..requirements import failing
from ..runs import program, results, running
from . import commands, saved
from .commands import Commands

if TYPE_CHECKING:
    from ..plan import Plan


def add_command(listed: Commands) -> None:
    """Adds the command to those of `python3 -m foldcairn`."""
    parser = commands.add(
        listed, "report", main,
        "Runs a scenario and writes what a planner asks for: delivery ratios, where packets went, latencies, joining, contention, "
        "outages, radio time, and battery lives. What the columns mean stands next to the tables of the page, and is said by the "
        "functions of foldcairn.planning. Of a plan it writes the report for whoever decides on it, as one HTML file: what is required, what is met and "
        "how sure that is; with --seed, --csv or --json it is of one draw, as for a scenario.",
    )  # fmt: skip
    commands.add_file(parser)
    parser.add_argument(
        "--csv", metavar="FOLDER", help="write all tables as CSV files into this folder instead, also those with a row a packet"
    )
    parser.add_argument(
        "--html", metavar="FILE", help="write one HTML file instead, with a timeline to zoom, pictures and the tables; it stands alone"
    )
    parser.add_argument("--json", action="store_true", help="write all tables as JSON, with the versions of package and program")
    saved.add_option(parser)
    commands.add_ratios(parser, "losses are drawn by it, once; without it nothing is lost but what the text says")
    parser.add_argument("--seed", type=int, metavar="N", help="the seed to draw losses by, a whole number (1 without it); `sample` has many seeds")
    commands.add_receivers(parser)
    commands.add_battery(parser)
    parser.add_argument("--target-days", type=float, metavar="DAYS", help="how long batteries have to last: it is said which of them do")
    of_plan = parser.add_argument_group("the report of a plan, which --html names (report.html without it)")
    of_plan.add_argument("--seeds", type=int, metavar="N", help="how many draws a verdict may use, 1 to 10,000 (those of the plan without it)")
    of_plan.add_argument("--charts", type=int, metavar="N", help="how many draws the charts are of, 1 to 1,000 (20 without it)")
    of_plan.add_argument("--jobs", type=int, metavar="N", help="how many draws are made at a time; a process for each processor without it")
    of_plan.add_argument("--resume", metavar="FOLDER", help="where draws are kept as they come: what was stopped goes on from there")
    of_plan.add_argument("--failures", action="store_true", default=None, help="say what breaks where any one node fails too, as `failures` does")
    page = parser.add_argument_group("the page of --html")
    page.add_argument("--title", default="", help="the title of the page; the name of the scenario without it")
    page.add_argument("--site", default="", help="the name of the site, below the title")
    page.add_argument("--plan", default="", help="the name of the plan, below the title")
    page.add_argument("--deadline", type=float, metavar="S", help="say which part is delivered within so many seconds, and mark it")
    page.add_argument("--notes", metavar="FILE", help="a text of your own, which stands at the top")
    commands.add_places(page)
    page.add_argument("--background", metavar="PNG", help="a picture below the map; it needs --places")
    page.add_argument("--extent", metavar="L,R,B,T", help="where its left, right, lower and upper edges are, in the units of --places")
    page.add_argument("--page", metavar="JSON", help="the settings that another page saved, in place of all these")


def main(chosen: argparse.Namespace) -> int:
    """Writes the report; gives the exit status 0. Raises what `results.log` raises, `commands.Failed` where there are too many losses, and
    `OSError`."""
    if (planned := commands.plan(chosen.file)) is not None and _is_of_many_draws(chosen):
        return _of_plan(planned, chosen)
    if given := next((word for word in _OF_PLAN if getattr(chosen, word) is not None), ""):
        raise ArgumentError(f"`--{given}` is for the report of a plan (.toml), which is of many draws: leave it out, or --seed, --csv, --json and --page")
    log, settings = _run(chosen)
    if chosen.html:
        from ..pages import page

        files.write(chosen.html, page.of_settings(log, settings).encode())
    if chosen.html and not chosen.csv and not chosen.json and not chosen.save:
        return 0
    answers = planning.tables(log, receivers=settings.whom(), battery=settings.battery)
    saved.write(chosen, answers, Path(chosen.file).stem, log.scenario.seed)
    if chosen.csv:
        report.write(answers, Path(chosen.csv))
    if chosen.json:
        commands.say(report.as_json(answers, program.versions(), log.origin.seed))
    elif not chosen.csv and not chosen.html:
        commands.say(report.shown(answers, titles(log, settings.whom(), settings.battery)))
    return 0


# What only the report of a plan takes, and what of one run it does not.
_OF_PLAN = ("seeds", "charts", "jobs", "resume", "failures")
_OF_ONE = ("seed", "csv", "json", "page")
_NOT_OF_PLAN = ("ratios", "receivers", "capacity_mah", "transmit_ma", "receive_ma", "sleep_ma", "mains", "target_days", "places", "background", "extent",
                "deadline", "plan", "site")  # fmt: skip


def _is_of_many_draws(chosen: argparse.Namespace) -> bool:
    return all(getattr(chosen, word) in (None, False) for word in _OF_ONE)


def _of_plan(plan: Plan, chosen: argparse.Namespace) -> int:
    """Writes the report of a plan. Raises `ArgumentError` for words that are of one run, and what `plan_report.content` raises."""
    from ..pages import plan_report, plan_words

    if given := next((word for word in _NOT_OF_PLAN if getattr(chosen, word)), ""):
        raise ArgumentError(f"`--{given.replace('_', '-')}` is for one run: give --seed too, or write it in the plan")
    notes = Path(chosen.notes).read_text(encoding="utf-8") if chosen.notes else ""
    for remark in plan.remarks:
        warnings.warn(remark, ScenarioWarning, stacklevel=2)
    failed = failing.failures(plan, seeds=chosen.seeds, jobs=chosen.jobs, folder=chosen.resume) if chosen.failures else None
    shown = plan_report.content(
        plan, seeds=chosen.seeds, charts=plan_report.DRAWS if chosen.charts is None else chosen.charts, jobs=chosen.jobs, folder=chosen.resume,
        failures=failed,
    )
    path = files.write(chosen.html or "report.html", plan_report.text(shown, title=chosen.title, notes=notes).encode())
    commands.say(f"{path}: {plan_words.whole(shown.judged.table) if shown.judged is not None else 'the plan requires nothing'}\n")
    return 0


def _run(chosen: argparse.Namespace) -> tuple[results.Log, Settings]:
    """The run of the file, with losses drawn by its ratios, and the settings that the words of the command give."""
    planned = commands.plan(chosen.file)
    if planned is not None:
        commands.require_log(planned, planned.network(1))
    text = commands.read(chosen.file, 1 if chosen.seed is None else chosen.seed)
    if chosen.page:
        settings = Settings.read(Path(chosen.page).read_text(encoding="utf-8"))
        log = results.log(text, settings.seed if commands.is_network(text) else None)
        settings.give(log.scenario)
        return log, settings
    if chosen.ratios is None and chosen.seed is None and not re.search(rb"^ratios\b", text, re.MULTILINE):
        # The program says what is wrong with a text by the lines of it.
        log = results.log(text)
        return log, _settings(log.scenario, commands.places(log.scenario, chosen.places), _by_plan(chosen, planned))
    network = Scenario.read(text)
    # First of all, since a table of ratios may have the names that this one gives.
    positions = commands.places(network, chosen.places)
    log = _drawn(network, chosen)
    return log, _settings(log.scenario, positions, _by_plan(chosen, planned))


def _drawn(network: Scenario, chosen: argparse.Namespace) -> results.Log:
    """The log of a network with losses that are drawn once. Raises `ArgumentError` where its losses are drawn already, or it has no ratios."""
    from ..runs import losses

    if network.seed is not None:
        raise ArgumentError(f"the losses of {chosen.file} are drawn already, by seed {network.seed}: leave `--ratios` and `--seed` out")
    commands.set_ratios(network, chosen.ratios)
    if not network.is_to_be_drawn:
        if chosen.seed is None or commands.plan(chosen.file) is not None:
            return results.log(network, warn=False)
        raise ArgumentError(f"{chosen.file} has no reception ratios, so there is nothing to draw by `--seed`: name them by `--ratios`")
    try:
        return running.by_seed(network, 1 if chosen.seed is None else chosen.seed, progress=True)
    except losses.TooManyLosses as error:
        raise commands.Failed(str(error)) from error


def _by_plan(chosen: argparse.Namespace, planned: Plan | None) -> argparse.Namespace:
    """The words of the command, with those of a plan where none are given: its names, and its picture of the floor."""
    if planned is None:
        return chosen
    found = argparse.Namespace(**vars(chosen))
    found.site, found.plan = chosen.site or planned.settings.site, chosen.plan or planned.settings.name
    if not chosen.background:
        found.background, found.extent = commands.picture(planned) or (None, chosen.extent)
    return found


def _settings(scenario: Scenario, positions: dict[int, tuple[float, float]] | None, chosen: argparse.Namespace) -> Settings:
    """The settings that the words of the command give."""
    if chosen.background and positions is None and commands.plan(chosen.file) is not None:
        positions = dict(scenario.places)
    return Settings.of(
        scenario, title=chosen.title or Path(chosen.file).stem, site=chosen.site, plan=chosen.plan,
        notes=Path(chosen.notes).read_text(encoding="utf-8") if chosen.notes else "",
        positions=positions, receivers=commands.receivers(chosen.receivers),
        battery=commands.battery(chosen), background=chosen.background,
        extent=commands.extent(chosen.extent), deadline=chosen.deadline,
    )  # fmt: skip
