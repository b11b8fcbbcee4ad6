"""Plans side by side: `report.compare` runs each over several seeds, and gives one page with the answers. Tested, not proved."""

from __future__ import annotations

import functools
import math
import os
from collections.abc import Callable, Iterable, Mapping, Sequence
from concurrent.futures import Executor
from dataclasses import dataclass
from pathlib import Path
from typing import Any, TextIO

import numpy as np
import pandas as pd
from numpy.typing import NDArray

from .. import planning
from ..answers import findings, outages
from ..common import arguments, files
from ..common.arguments import ArgumentError
from ..draw import plan_charts, plot
from ..many import intervals, sample, seeds as many, sweep, tallies
from ..model import networks
from ..model.receivers import Receivers, meant
from ..model.scenario import Scenario
from ..runs import losses, results as runs
from ..runs.results import Log
from . import differences, markup, page, requiring

# What is compared: the number of `planning.summary`, what it is, whether more is better, by what it is multiplied, and its unit.
_ANSWERS: tuple[tuple[str, str, bool, float, str], ...] = (
    ("ratio_of_put", "of what was put was delivered at {whom}", True, 100, "%"),
    ("ratio_of_sent_while_on", "of what was sent while the receiver had power was delivered", True, 100, "%"),
    ("latency_median_seconds", "median latency", False, 1, "s"),
    ("latency_p90_seconds", "90 % are delivered within", False, 1, "s"),
    ("all_joined_seconds", "all nodes had joined after the first start", False, 1, "s"),
    ("all_accepted_seconds", "all streams were accepted after the first start", False, 1, "s"),
    ("request_success", "of the requests were acknowledged", True, 100, "%"),
    ("outage_seconds", "longest outage at a change of hosts, or to the end", False, 1, "s"),
    ("seconds_without_host", "no host serves for so long before the end", False, 1, "s"),
    ("duty_cycle", "mean duty cycle", False, 100, "%"),
    ("duty_cycle_in_rounds", "mean duty cycle in rounds", False, 100, "%"),
)

# Differences that come up by chance more rarely than that are taken for real.
_CHANCE_MOST = 0.05


@dataclass(frozen=True, repr=False, eq=False)
class Comparison:
    """What came of a comparison.

    table      a row for each answer, and for each plan its mean over the seeds, and `.. ±`, half of the interval in which the mean
               lies with 95 % (missing for one seed); `better` is the plan that is better than each other, if one is, and `missing`
               says of which plans some seeds have no answer, as where not all nodes ever joined: the mean is that of the others,
               and then no plan is called better. `packets` is of how many packets the share of what was put is, of all seeds
               together, in the plan that has fewest; 0 of other answers
    runs       a row for each plan and seed, with the numbers of `planning.summary`
    The plans share the seeds, so a seed that is bad for one is mostly bad for the others too. What is better is therefore decided by the
    differences between two plans with the same seed: their mean has to be other than 0 by the t test for pairs, with 95 %
    (`intervals.chance`). So a plan can be better where the intervals of the two means overlap. Plans of which none has ratios lose nothing
    by chance, and any difference between them counts.
    The `attrs` of the table say where it comes from (`sweep.origin`), and the page says it at its end.
    requirements   a row for each plan and requirement with the verdict by as many draws as there are seeds, as `planning.verdicts` has it, of those
                   plans that are of plan files; requirements about any one failure are left out, since each failure has draws of its own
    """

    table: pd.DataFrame
    runs: pd.DataFrame
    _page: Callable[[], str]
    requirements: pd.DataFrame

    @functools.cached_property
    def html(self) -> str:
        """The page, which is made when it is asked for first."""
        return self._page()

    def write(self, path: str | os.PathLike[str]) -> Path:
        """Writes the page into a file, and gives its path."""
        return files.write(path, self.html.encode())

    def __repr__(self) -> str:
        return f"<Comparison of {', '.join(self.runs['plan'].unique())}: {self.runs['seed'].nunique()} seeds>"

    def _repr_html_(self) -> str:
        shown: str = self.table.to_html(index=False, border=0, na_rep="–", float_format=lambda number: f"{number:.2f}")
        return shown


def compare(
    plans: Mapping[str, Scenario] | Iterable[Scenario],
    path: str | os.PathLike[str] | None = None,
    *,
    seeds: Iterable[int] = (1, 2, 3, 4),
    title: str = "Plans side by side",
    site: str = "",
    notes: str = "",
    positions: Mapping[int, tuple[float, float]] | None = None,
    receivers: Receivers = None,
    executor: Executor | None = None,
    results: str | os.PathLike[str] | None = None,
    progress: bool | TextIO = True,
    by: str | None = None,
) -> Comparison:
    """Runs each plan once for each seed, and compares the answers: on one page there are the maps, a table of the answers with
    intervals of 95 %, in which what is better is marked, a chart of it, and the radios of each plan where its host fails, by the first seed. Of
    plans that are of plan files it also has the verdicts on their requirements, by as many draws as there are seeds.

    `by` is "log" for all answers, each by the log of a run, or "sample" for those that `planning.sample` has (what is delivered,
    latencies, duty cycles), which takes a hundredth of the time and so hundreds of seeds; then the page has no radios. Without it
    (None) it is "log", and "sample" where a plan is too long for a log. Latencies and duty cycles of a sample are counted by plan,
    so compare them with those of a sample alone.

    `plans` are two or more networks by their names; of a list the names are "1", "2" and so on. With a `path` the page is written
    there. The losses are drawn by the seeds anew, also of a plan whose losses were drawn, and a seed gives a link the same coins in each
    plan. `receivers` are in the forms of `foldcairn.receivers`, `positions` are places of the nodes for the maps, and `executor`,
    `results` and `progress` are those of `sweep.sweep`. An interval is Student's for the mean: it takes the seeds for a sample, and says
    nothing of what the model leaves out.

    Raises `ArgumentError` where there are fewer than two plans or one is no `Scenario`, the seeds are none, `by` is another word, or a
    receiver is no node of a plan, and `ValueError` where a run fails.
    """
    networks, listed = _networks(plans), many.checked(seeds)
    for network in networks.values():
        meant(network, receivers)
    have_logs = all(network.is_for_run for network in networks.values())
    by = arguments.one_of("by", by or ("log" if have_logs else "sample"), ("log", "sample"))
    measured = _runs if by == "log" else _samples
    told = measured(networks, listed, receivers, executor, results, progress)
    exact = not any(network.is_to_be_drawn for network in networks.values())
    packets = {name: tallies.packets_meant(network, meant(network, receivers)) for name, network in networks.items()}
    table = _table(told, list(networks), findings.whom(next(iter(networks.values())), receivers), exact, packets)
    table.attrs.update(sweep.origin(listed, networks))
    verdicts = requiring.verdicts(networks, len(listed), executor, results, progress)

    def whole() -> str:
        logs = {name: runs.log(_drawn(network, listed[0]), warn=False) for name, network in networks.items() if by == "log"}
        return _page(networks, logs, table, listed, title, site, notes, positions, verdicts)

    made = Comparison(table, told, whole, verdicts)
    if path is not None:
        made.write(path)
    return made


def _networks(plans: Mapping[str, Scenario] | Iterable[Scenario]) -> dict[str, Scenario]:
    """The plans by their names, as before any losses were drawn. Raises `ArgumentError` where they are not two or more."""
    if isinstance(plans, (Scenario, str, bytes)) or not isinstance(plans, Iterable):
        raise ArgumentError(f"a comparison takes two plans or more by their names, and was given a {type(plans).__name__}; write {{'A': a, 'B': b}}")
    named = plans if isinstance(plans, Mapping) else {str(number): plan for number, plan in enumerate(plans, 1)}
    if len(named) < 2:
        raise ArgumentError(f"a comparison takes two plans or more by their names, and was given {len(named)}")
    return {str(name): networks.network(f"plan {name}", network) for name, network in named.items()}


def _drawn(network: Scenario, seed: int) -> Scenario:
    """The network with the losses of a seed."""
    return losses.draw(network, seed) if network.is_to_be_drawn else network


def _runs(
    plans: Mapping[str, Scenario], seeds: Sequence[int], receivers: Receivers, executor: Executor | None,
    results: str | os.PathLike[str] | None, progress: bool | TextIO,
) -> pd.DataFrame:  # fmt: skip
    """The numbers of each plan and seed. This is the one place that knows how the losses of a seed come about."""
    cases = [{"plan": name, "seed": seed} for name in plans for seed in seeds]
    told = sweep.sweep(
        functools.partial(_built, dict(plans)), cases, functools.partial(_numbers, receivers), executor=executor, results=results,
        progress=progress, name=f"compare {receivers!r}",
    )  # fmt: skip
    if (told["status"] != "ok").any():
        wrong = told[told["status"] != "ok"].iloc[0]
        raise ValueError(f"the run of plan {wrong['plan']} with seed {wrong['seed']} failed: {wrong['status']}: {wrong['message']}")
    return told.drop(columns="status")


def _samples(
    plans: Mapping[str, Scenario], seeds: Sequence[int], receivers: Receivers, executor: Executor | None,
    results: str | os.PathLike[str] | None, progress: bool | TextIO,
) -> pd.DataFrame:  # fmt: skip
    """The same numbers as far as samples have them."""
    names = ("ratio_of_put", "latency_median_seconds", "latency_p90_seconds", "duty_cycle", "duty_cycle_in_rounds")
    asked = [tallies.question(network, receivers, None) for network in plans.values()]
    told = many.answers(asked, seeds, executor=executor, results=results, progress=progress)
    found = [sample.of(network, seeds, receivers, None, answers).runs for network, answers in zip(plans.values(), told)]
    return pd.concat([runs[["seed", *names]].assign(plan=name) for name, runs in zip(plans, found)], ignore_index=True)


def _built(plans: Mapping[str, Scenario], plan: str, seed: int) -> Scenario | losses.Drawing:
    network = plans[plan]
    return losses.Drawing(network, seed) if network.is_to_be_drawn else network


def _numbers(receivers: Receivers, scenario: Scenario | str) -> dict[str, float]:
    log = runs.log(scenario, warn=False)
    told = planning.summary(log, receivers=receivers)
    silent = told.pop("no_host_from_seconds")
    return {**told, "seconds_without_host": 0.0 if math.isnan(silent) else log.scenario.seconds - silent}


def _table(told: pd.DataFrame, plans: list[str], whom: str, exact: bool = False, packets: Mapping[str, int] | None = None) -> pd.DataFrame:
    """The table of the numbers of each plan and seed; `exact` where they don't depend on the seed. `packets` says how many each plan has in a
    run."""
    rows = []
    for name, words, more, times, unit in (answer for answer in _ANSWERS if answer[0] in told):
        # The plans have the seeds in the same order.
        values = {plan: times * told.loc[told["plan"] == plan, name].to_numpy(dtype="float64") for plan in plans}
        counts = {plan: packets[plan] if packets is not None and name == "ratio_of_put" else 0 for plan in plans}
        spans = {plan: _interval(numbers, times, 0 if exact else counts[plan]) for plan, numbers in values.items()}
        missing = [_missing(plan, numbers) for plan, numbers in values.items() if 0 < np.isnan(numbers).sum() < len(numbers)]
        row: dict[str, Any] = {"answer": words.format(whom=whom), "unit": unit}
        for plan in plans:
            row[plan], row[f"{plan} ±"] = spans[plan]
        of = min(counts[plan] * int(np.count_nonzero(~np.isnan(values[plan]))) for plan in plans)
        rows.append({**row, "better": "" if missing else _better(values, more, exact), "missing": ", ".join(missing), "packets": of})
    return pd.DataFrame(rows)


def _missing(plan: str, numbers: NDArray[np.float64]) -> str:
    """In how many of a plan's runs a number is missing."""
    return f"{plan} in {np.isnan(numbers).sum()} of {len(numbers)} seeds"


def _interval(numbers: NDArray[np.float64], times: float, packets: int) -> tuple[float, float]:
    """The mean, and half of the interval in which it lies with 95 %; of a share of packets that is the same in all seeds, the longer side of
    the interval."""
    row = intervals.over_seeds(numbers[:, None] / times, packets=np.full((len(numbers), 1), packets)).iloc[0]
    return times * row["mean"], times * max(row["mean"] - row["low"], row["high"] - row["mean"])


def _better(values: Mapping[str, NDArray[np.float64]], more: bool, exact: bool) -> str:
    """The plan that is better than each other one by the differences of the same seed, if there is one."""
    sign = 1 if more else -1
    for plan, ours in values.items():
        if all(_is_above(sign * (ours - theirs), exact) for name, theirs in values.items() if name != plan):
            return plan
    return ""


def _is_above(differences: NDArray[np.float64], exact: bool) -> bool:
    """Whether the mean of all differences is above 0, with 95 %. One seed tells nothing, so nothing is marked."""
    if len(differences) < 2 or not differences.mean() > 0:
        return False
    return exact or intervals.chance(differences) < _CHANCE_MOST


def _page(
    plans: Mapping[str, Scenario], logs: Mapping[str, Log], table: pd.DataFrame, seeds: Sequence[int], title: str, site: str, notes: str,
    positions: Mapping[int, tuple[float, float]] | None, verdicts: pd.DataFrame,
) -> str:  # fmt: skip
    names = list(plans)
    charts = [markup.picture("The answers, drawn", functools.partial(plan_charts.compared, table, names, narrow=narrow)) for narrow in (False, True)]
    pictures = [*_maps(plans, positions), *(_failure(name, log) for name, log in logs.items())]
    return markup.page(
        "compare.html", title=title, site=site, notes=markup.paragraphs(notes), plans=list(plans), about=_about(plans),
        differences=differences.of(plans), rows=_rows(table, names), pictures=pictures, charts=charts, requirements=requiring.rows(plans, verdicts),
        many=f"{len(seeds)} seeds" if len(seeds) > 1 else f"{findings.draw(seeds[0])}; it gives no interval", origin=table.attrs,
    )  # fmt: skip


def _about(plans: Mapping[str, Scenario]) -> dict[str, str]:
    """What the plans are, with the names of those of which it is said."""
    told: dict[str, list[str]] = {}
    for name, network in plans.items():
        told.setdefault(page.about_network(network), []).append(name)
    return {_named(names, plans): words for words, names in told.items()}


def _named(names: Sequence[str], plans: Mapping[str, Scenario]) -> str:
    """Plans in words."""
    return "all plans" if len(names) == len(plans) else f"plan{'s' * (len(names) > 1)} {', '.join(names)}"


def _maps(plans: Mapping[str, Scenario], positions: Mapping[int, tuple[float, float]] | None) -> list[markup.Picture]:
    """A map for all plans that have the same one."""
    alike: dict[str, list[str]] = {}
    for name, one in plans.items():
        content = (sorted(one.nodes), sorted(one.links), sorted(one.hosts.items()), sorted(one.labels.items()), one.ratio_lines())
        alike.setdefault(repr(content), []).append(name)
    return [
        markup.picture(f"The network, {_named(names, plans)}", functools.partial(plot.topology, plans[names[0]], positions=positions))
        for names in alike.values()
    ]


def _rows(table: pd.DataFrame, plans: list[str]) -> list[dict[str, Any]]:
    """The rows of the table of answers, with the cells of the plans, and which of them is the best."""
    return [
        {**row, "cells": [{"words": _cell(row[plan], row[f"{plan} ±"], row["unit"]), "best": row["better"] == plan} for plan in plans]}
        for row in table[["answer", "unit", "better", "missing", "packets", *plans, *(f"{plan} ±" for plan in plans)]].to_dict("records")
    ]


def _cell(mean: float, half: float, unit: str) -> str:
    return "–" if math.isnan(mean) else f"{mean:.1f} {unit}" if math.isnan(half) else f"{mean:.1f} ± {half:.1f} {unit}"


def _failure(name: str, log: Log) -> markup.Picture:
    """The radios around the first change of hosts, or to the end where none takes over; the whole run if the host never fails."""
    changes = outages.outages(log)
    start, end = 0.0, float(log.scenario.seconds)
    if len(changes):
        first = changes.iloc[0]
        begun = first["last_round_seconds"] if pd.isna(first["off_seconds"]) else min(first["off_seconds"], first["last_round_seconds"])
        last = first["first_delivery_seconds"] if first["ended"] else end
        start, end = max(0.0, begun - 60.0), min(end, last + 60.0)
    told = f"The radios of plan {name} where its host fails" if len(changes) else f"The radios of plan {name}, whose host never fails"
    return markup.picture(told, lambda: plot.timeline(log, start_seconds=start, end_seconds=end))
