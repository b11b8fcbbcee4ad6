"""What notebooks show of scenarios and runs: the numbers that matter, in some lines. Tested, not proved."""

from __future__ import annotations

import pandas as pd

from .. import planning
from ..model.events import Put, Stream
from ..model.scenario import Scenario
from ..runs.results import Log, Report
from . import markup

_ROWS = 5
_CAUTIONS = 3


def _facts(rows: list[tuple[str, str]], remarks: list[str]) -> str:
    """A table of rows, and remarks below it."""
    return markup.render("facts.html", rows=dict(rows), remarks=remarks)


def of_scenario(scenario: Scenario) -> str:
    """A table of 5 rows, and the first cautions."""
    hosts = ", ".join(f"node {scenario.name(node)} (rank {rank})" for rank, node in sorted(scenario.hosts.items())) or "none"
    ratios = [one.prr for one in scenario.ratio_lines()]
    told = f"{min(ratios):.2f} at the least" if ratios else "no ratio below 1"
    rows = [
        ("nodes", f"{len(scenario.nodes)}; hosts: {hosts}"),
        ("links", f"{len(scenario.links)}, {told}"),
        ("time", f"{scenario.frames} frames of {scenario.frame_seconds} s, profile {scenario.profile}: {scenario.seconds:,} s"),
        ("workload", workload(scenario)),
        ("losses", f"{len(scenario.losses):,}" + (f", drawn by seed {scenario.seed}" if scenario.seed is not None else "")),
    ]
    found = scenario.cautions()
    return _facts(rows, found[:_CAUTIONS] + [f"and {len(found) - _CAUTIONS} more"] * (len(found) > _CAUTIONS))


def workload(scenario: Scenario) -> str:
    """How many streams there are, what they ask for, and how many packets they get, in one line."""
    streams = [event for event in scenario.script if isinstance(event, Stream)]
    puts = [event for event in scenario.script if isinstance(event, Put)]
    if not streams:
        return f"no stream, {len(puts):,} packets"
    intervals = sorted({event.interval for event in streams})
    every = f"{intervals[0]} s" if len(intervals) == 1 else f"{intervals[0]} to {intervals[-1]} s"
    sizes = sorted({len(event.payload) for event in puts})
    size = "" if not sizes else f" of {sizes[0]} bytes" if len(sizes) == 1 else f" of {sizes[0]} to {sizes[-1]} bytes"
    count = len({(event.node, event.stream) for event in streams})
    return f"{count} streams of {len({event.node for event in streams})} nodes that ask for a slot every {every}; {len(puts):,} packets{size}"


def of_report(report: Report) -> str:
    """A table of 5 rows: what was run, and what came of it."""
    scenario = report.scenario
    rows = [
        ("run", f"{len(scenario.nodes)} nodes, {scenario.seconds:,} s" + ("" if report.origin.seed is None else f", one draw, seed {report.origin.seed}")),
        ("deliveries", f"{len(report.deliveries):,}, and {len(report.drops):,} packets dropped at once"),
    ]
    if isinstance(report, Log):
        rows += _of_log(report)
    elif "duty_cycle" in report.energy:
        rows.append(("duty cycle", f"{100 * report.energy['duty_cycle'].mean():.2f} %, the mean over the nodes"))
    return _facts(rows[:_ROWS], [])


def _of_log(log: Log) -> list[tuple[str, str]]:
    told = planning.summary(log)

    def percent(ratio: float) -> str:
        return "none" if pd.isna(ratio) else f"{100 * ratio:.1f} %"

    half, most = told["latency_median_seconds"], told["latency_p90_seconds"]
    return [
        ("delivery ratio", f"{percent(told['ratio_of_put'])} of what was put, {percent(told['ratio_of_sent_while_on'])} of what was sent"),
        ("latency", "none" if pd.isna(half) else f"median {half:.1f} s, 90 % within {most:.1f} s"),
        ("duty cycle", f"{percent(told['duty_cycle'])}, {percent(told['duty_cycle_in_rounds'])} in rounds"),
    ]
