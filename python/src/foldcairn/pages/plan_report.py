"""The report of a plan as one HTML file that stands alone, for whoever decides on it: what is required, what is met and how sure that is, and then
the map, the deadlines, the batteries, failures, one draw, and the plan itself. It is made to be printed too.

    from foldcairn import report
    from foldcairn.plan import Plan

    report.of_plan(Plan.read("plan.toml"), "report.html")

Tested, not proved.
"""

from __future__ import annotations

import hashlib
import os
from collections.abc import Callable, Mapping, Sequence
from dataclasses import dataclass
from functools import partial
from pathlib import Path
from typing import TYPE_CHECKING, Any, TextIO

import pandas as pd
from markupsafe import Markup

from ..answers import findings
from ..common import arguments, files
from ..common.version import version
from ..draw import floors, plan_charts, plot
from ..model.scenario import Scenario
from ..plan.plan import Plan
from ..requirements import drawn as draws, measuring, verifying
from ..requirements.drawn import Drawn
from ..requirements.judging import Rule
from ..requirements.verifying import Judged
from ..runs import losses, program, results, running
from . import markup, plan_tables, plan_words

if TYPE_CHECKING:
    from matplotlib.figure import Figure

# How many draws the charts are of, and how many at most.
DRAWS, _DRAWS_MOST = 20, 1_000
# How many batteries a chart has.
_BATTERIES_MOST = 24


@dataclass(frozen=True)
class Content:
    """What a report shows of a plan.

    plan       the plan
    judged     the verdicts with the draws behind them, or None where the plan requires nothing
    drawn      what some draws show
    failures   what breaks where nodes fail: a table, or what has one as `nodes`; or None
    seed       which draw is shown as one draw
    network    its network
    log        and its log, where there is one
    """

    plan: Plan
    judged: Judged | None
    drawn: Drawn
    failures: Any
    seed: int
    network: Scenario
    log: results.Log | None


def write(plan: Plan, path: str | os.PathLike[str], *, title: str = "", notes: str = "", **given: Any) -> Path:
    """Writes the report of a plan into a file, and gives its path. `title` is the name of the plan without one, `notes` is a text of your own that
    stands at the top, and the other words are those of `content`. Raises what that raises, and `OSError` where the file can't be written."""
    return files.write(path, text(content(plan, **given), title=title, notes=notes).encode())


def content(
    plan: Plan,
    *,
    seeds: int | None = None,
    charts: int = DRAWS,
    seed: int = 1,
    failures: Any = None,
    jobs: int | None = None,
    folder: str | os.PathLike[str] | None = None,
    executor: Any = None,
    progress: bool | TextIO = True,
) -> Content:
    """Draws what a report shows.

    seeds      how many draws a verdict may use; those of the plan without it
    charts     how many draws the charts are of, 1 to 1,000, the first of them `seed`
    seed       which draw is shown as one draw
    failures   what breaks where nodes fail, which the report shows as it is: a table, or what has one as `nodes`
    jobs, folder, executor, progress   as in `planning.verdicts`

    Raises what `planning.verdicts` raises but where the plan requires nothing."""
    count = arguments.whole("charts", charts, 1, _DRAWS_MOST)
    judged = verifying.judged(plan, seeds, jobs, folder, executor=executor, progress=progress) if plan.requirements else None
    seen = draws.drawn(plan, range(seed, seed + count), executor=executor, jobs=jobs, progress=progress)
    with measuring.quiet():
        network = plan.network(seed)
        return Content(plan, judged, seen, failures, seed, network, _log(network, seed))


def _log(network: Scenario, seed: int) -> results.Log | None:
    """The log of a draw, or None where it is longer than a log is made of."""
    try:
        return running.run(network, seed=seed, progress=False)
    except losses.TooManyLosses:
        return None
    except program.Refused as error:
        if error.kind not in ("TooBig", "TooMany"):
            raise
        return None


def text(shown: Content, *, title: str = "", notes: str = "") -> str:
    """The text of the report."""
    plan = shown.plan
    name = title or plan.settings.name or "A plan"
    told = shown.judged.table if shown.judged is not None else None
    return markup.render(
        "plan.html", css=markup.own("plan.css"), title=name, site=plan.settings.site, notes=markup.paragraphs(notes),
        answer=plan_words.whole(told) if told is not None else "The plan requires nothing, so there is nothing that it could meet.",
        state=_state(told), requirements=_requirements(shown), about=plan_tables.about(plan, shown.network), maps=_maps(shown), deadlines=_deadlines(shown),
        spreads=_spreads(shown), batteries=_batteries(shown), failures=plan_tables.failures(shown.failures), failed=_failed(told), draw=_draw(shown),
        draws=plan_tables.of_draws(shown.drawn.seeds), settings=plan_tables.settings(plan), events=[plan_words.event(one) for one in plan.events],
        streams=plan_tables.streams(plan, shown.drawn), nodes=plan_tables.nodes(plan, shown.network), seed=shown.seed,
        remarks=[markup.coded(remark) for remark in plan.remarks],
        digest=hashlib.sha256(plan.text().encode("utf-8", "surrogateescape")).hexdigest(), programs=program.versions(), version=version(),
    )  # fmt: skip


def _state(table: pd.DataFrame | None) -> str:
    """The worst verdict, as the class of the first sentence."""
    return "none" if table is None else {0: "met", 10: "not-met", 11: "not-decided"}[verifying.status(table)]


def _requirements(shown: Content) -> list[dict[str, str | Markup]]:
    """What is required and what was found, in words."""
    if shown.judged is None:
        return []
    rows = shown.judged.table.to_dict("records")
    return [
        {
            "name": one.name, "asked": plan_words.asked(shown.plan, one), "verdict": row["verdict"], "state": row["verdict"].replace(" ", "-"),
            "found": plan_words.found(row), "sure": plan_words.sure(row, one.confidence), "helps": markup.coded(row["helps"]),
        }
        for one, row in zip(shown.plan.requirements, rows)
    ]  # fmt: skip


# Pictures.


@dataclass(frozen=True)
class Chart:
    """A picture with one for a phone, a sentence about it, and what stands below it."""

    wide: markup.Picture
    narrow: markup.Picture | None = None
    note: str = ""
    key: Mapping[int, str] | None = None


def _chart(title: str, draw: Callable[[bool], Figure], note: str = "") -> Chart:
    wide = markup.picture(title, lambda: draw(False))
    return Chart(wide, markup.picture(title, lambda: draw(True)) if wide.svg else None, note)


def _maps(shown: Content) -> list[Chart]:
    """The map of each floor, or one laid out by the links where a node has no place."""
    found = floors.of_plan(shown.plan, shown.network)
    if found:
        return [Chart(markup.picture(one.title, partial(getattr, one, "figure")), None, one.note, one.numbered) for one in found]
    return [Chart(markup.picture("The network", lambda: plot.topology(shown.network)), None, "Not all nodes have places, so the links lay it out.")]


def _deadlines_of(plan: Plan) -> dict[str, float | None]:
    return {stream.name: stream.deadline for stream in plan.streams.values()}


def _deadlines(shown: Content) -> Chart:
    return _chart("How long packets take", lambda narrow: plan_charts.deadlines(shown.drawn, _deadlines_of(shown.plan), narrow=narrow))


def _batteries(shown: Content) -> Chart:
    wanted = {name: one.years for one in shown.plan.requirements if one.years is not None for name in measuring.nodes_of(shown.plan, one)}
    lives = plan_charts.battery_lives(shown.drawn)
    rest = lives["mean"].iloc[_BATTERIES_MOST:]
    note = f"The other {len(rest)} last from {rest.min():.2g} to {rest.max():.2g} years." if len(rest) else ""
    return _chart("How long batteries last", lambda narrow: plan_charts.batteries(shown.drawn, wanted, most=_BATTERIES_MOST, narrow=narrow), note)


def _spreads(shown: Content) -> list[Chart]:
    """How the values of the requirements spread over the draws that were made of them."""
    judged, found = shown.judged, []
    if judged is None:
        return []
    for one in judged.asked:
        name = judged.table["worst"].iloc[one.place]
        worst = next((unit for units in judged.draws.named(one).values() for unit in units if unit.name == name and unit.known), None)
        if worst is not None:
            unit = "%" if one.rule.is_share else "years" if one.requirement.years is not None else "s"
            note = f"{one.requirement.name}: {worst.name}, {len(worst.known)} draws. {_held(worst.known, one.rule)}"
            found.append(Chart(markup.picture(note, partial(plan_charts.spread, worst.known, one.rule.wanted, unit)), None, note))
    return found


def _held(values: Sequence[float], rule: Rule) -> str:
    held = sum(rule.holds(value) for value in values)
    of_them = "all" if held == len(values) else "none" if not held else str(held)
    return f"It is as it is wanted in {of_them} of them."


def _failed(table: pd.DataFrame | None) -> list[str]:
    """The verdicts of requirements that are about a failure."""
    if table is None:
        return []
    rows = table[table["when"] != "as planned"].to_dict("records")
    return [f"{row['requirement']}, {row['when']}: {row['verdict']}. {plan_words.found(row)}" for row in rows]


def _draw(shown: Content) -> list[Chart]:
    """One draw over time, and where there is a log its radios."""
    plan, network = shown.plan, shown.network
    changes = sorted({one.at for one in plan.events if one.at is not None})

    def over_time(narrow: bool) -> Figure:
        return plan_charts.over_time(shown.drawn.packets, _deadlines_of(plan), network.seconds, changes, narrow=narrow)

    words = findings.draw(shown.seed)
    found = [_chart(f"What came in time in {words}", over_time, "A cell has the packets that are put in a sixtieth of the run.")]
    if shown.log is not None:
        log = shown.log
        found.append(Chart(markup.picture(f"The radios in {words}", lambda: plot.timeline(log)), None, "When radios are on, by the log of this draw."))
    return found
