"""What breaks where any one node fails: each node in turn, by the requirements of a plan. `planning` has all answers in one place.

It is judged as by `verifying`: the same draws, intervals and verdicts. Tested, not proved.
"""

from __future__ import annotations

import html
import math
import os
from collections.abc import Sequence
from dataclasses import dataclass, field, replace
from typing import Any, TextIO

import pandas as pd

from ..common import arguments
from ..many import sweep
from ..model.scenario import Scenario
from ..plan.demands import ANY_NODE
from ..plan.errors import PlanError, known
from ..plan.model import Requirement
from ..plan.naming import natural
from ..plan.plan import Plan
from . import arithmetic, cutting, judging, running, verifying, watching
from .cases import Case
from .judging import IMPOSSIBLE, NOT_DECIDED, NOT_MET, Judgement
from .running import Asked, Draws

# So many draws of a failure show that a mean is met, if it is.
SEEDS = 32
NODES = [
    "failed", "role", "breaks", "requirements", "whom", "broken_seconds", "silent", "silent_seconds", "cut_off", "lost", "undecided", "draws",
]  # fmt: skip
REQUIREMENTS = [
    "failed", "requirement", "verdict", "planned", "breaks", "whom", "broken_seconds", "value", "planned_value", "unit", "low", "high", "wanted", "worst",
    "draws", "packets",
]  # fmt: skip
_BETWEEN = "; "


@dataclass(frozen=True, repr=False, eq=False)
class Failures:
    """What breaks where any one node fails (docs/FAILURES.md): two tables, in which several names have semicolons between them.

    plan             the plan
    seconds          when each node fails, from the start of the run
    duration         for how long, in seconds; infinite where for good
    least_ratio      which links count for `cut_off`: those that pass at least this part in both directions
    nodes            a row for each node that fails, those first that break the most:
      failed, role      its name, and whether it is a "host", a "backup" or a "node"
      breaks            how many requirements break that do not as planned
      requirements      their names
      whom              the streams and nodes that break them
      broken_seconds    for how long, the longest of these requirements; missing where one does to the end of what is left of the run, or as
                        long as the node is gone
      silent_seconds    how long nothing of a stream arrived from the failure on, or from its first packet then, on average over the draws
      silent            the stream, that for which this is longest beyond what it is without a failure
      cut_off           the nodes from which no way of links that work leads to a host without it
      lost              the nodes that in half of the draws or more had no host for most of the time in which it was gone
      undecided         how many requirements are neither met nor not met
      draws             how many draws were made
    requirements     a row for each node and requirement: `verdict`, that of `planned`, without a failure and by the packets from then on, whether it
                     `breaks`, `whom`, `broken_seconds`, and what `planning.verdicts` has of the failure
    """

    plan: Plan = field(repr=False)
    seconds: float
    duration: float
    least_ratio: float
    nodes: pd.DataFrame = field(repr=False)
    requirements: pd.DataFrame = field(repr=False)

    def __repr__(self) -> str:
        breaking = int((self.nodes["breaks"] > 0).sum())
        return f"<Failures: {len(self.nodes)} nodes at {self.seconds:g} s, {breaking} of them break a requirement>"

    def _repr_html_(self) -> str:
        shown: str = self.nodes.to_html(index=False, border=0, na_rep="–", float_format=lambda number: f"{number:.0f}")
        return "".join(f"<p>{html.escape(remark)}</p>" for remark in self.remarks()) + shown

    def remarks(self) -> list[str]:
        """What to know of the tables, in sentences."""
        run, lasts = self.plan.settings.hours * 3_600, "for good" if math.isinf(self.duration) else f"for {self.duration:g} s"
        told = [
            f"Each node fails {lasts} at {self.seconds:,g} s of {run:,g} s. Packets count that are put from then on; those that it sends, and those meant "
            "for it alone, do not."
        ]
        for row in self.requirements.drop_duplicates("requirement").to_dict("records"):
            if row["planned"] in (NOT_MET, IMPOSSIBLE):
                told.append(f"{row['requirement']} is {row['planned']} as planned already: what breaks are the streams and nodes for which it held.")
        return told

    def status(self) -> int:
        """The exit status of `foldcairn failures`: 10 if a failure breaks a requirement, 11 if none does and some are not decided, else 0."""
        return 10 if (self.nodes["breaks"] > 0).any() else 11 if (self.nodes["undecided"] > 0).any() else 0


def failures(
    plan: Plan,
    nodes: Sequence[str] | None = None,
    at: float | None = None,
    duration: float | None = None,
    seeds: int | None = None,
    jobs: int | None = None,
    folder: str | os.PathLike[str] | None = None,
    *,
    least_ratio: float = 0.5,
    executor: Any = None,
    progress: bool | TextIO = True,
) -> Failures:
    """Which requirements of a plan break where any one node fails, for whom, and for how long (docs/FAILURES.md).

    Each node fails on its own, in draws of the plan as `planning.verdicts` makes them. Each requirement is judged in each failure as if its `when`
    were that failure, and once without one: it breaks where its interval lies on the wrong side for a stream or node for which it does not as
    planned. The error of that is divided by all failures and units, as of `any one node fails`. For each failure draws are added until all
    requirements are decided in it, or there are `seeds` of them.

    Parameters
    ----------
    plan : Plan
        The plan.
    nodes : sequence of str, optional
        The names of the nodes that fail, "hosts" for the hosts, or all that are no candidates without it.
    at : float, optional
        When each fails, in seconds of the run; after a third of it without it.
    duration : float, optional
        For how long, in seconds; for good without it.
    seeds : int, optional
        How many draws of a failure there may be, 1 to 10,000; without it 32, or those of the plan if they are fewer.
    jobs : int, optional
        How many draws are made at a time; a process for each processor without it.
    folder : path, optional
        Keeps each draw in a file as soon as it is there: what was stopped goes on from there.
    least_ratio : float
        The least ratio, 0 to 1, of links that count for `cut_off`.
    executor : optional
        An executor of `concurrent.futures`, or a client of `distributed`, in place of processes.
    progress : bool or file
        A bar on standard error or on the stream that is given, a line a minute where that is no terminal; False: none.

    Returns
    -------
    Failures
        A table by node and one by requirement, with times by plan.

    Raises
    ------
    ArgumentError
        Where it is no plan, it has no requirement or an argument is out of its range.
    PlanError
        Where a name is none of a node, or no network can be made of the plan.
    sweep.SweepStopped
        Where the executor breaks down.
    program.ProgramError
        As `program.execute` does.
    """
    if not isinstance(plan, Plan):
        raise arguments.ArgumentError(f"`plan` is a {type(plan).__name__}, and has to be a Plan; write foldcairn.plan.Plan.read(..) of a plan file")
    if not plan.requirements:
        raise arguments.ArgumentError(f"{plan.path or 'the plan'} has no [[requirement]], so there is nothing that breaks")
    seconds, lasts = _when(plan, at, duration)
    names = _names(plan, nodes)
    least_ratio = arguments.real("least_ratio", least_ratio, 0, 1)
    most = min(plan.settings.seeds, SEEDS) if seeds is None else arguments.whole("seeds", seeds, 1, verifying.SEEDS_MOST)
    jobs = None if jobs is None else arguments.whole("jobs", jobs, 1)
    own, network = verifying.networks(plan)
    judged = replace(plan, requirements=[replace(one, when=ANY_NODE, at=seconds) for one in plan.requirements])
    asked = _Asked.of(judged, [Case(name, seconds, lasts) for name in names], most, own, network)
    draws = running.draw_alone(judged, asked.all, most, executor=executor, jobs=jobs, folder=folder, progress=progress, measured=watching.WATCHED)
    rows = [row for place in range(len(plan.requirements)) for row in _Rows(asked, draws, network, place).rows()]
    requirements = pd.DataFrame([[joined(cell) for cell in row] for row in rows], columns=REQUIREMENTS)
    by_node = _by_node(asked, draws, network, rows, cutting.cut_off(plan, names, least_ratio))
    for table in (requirements, by_node):
        table.attrs.update(sweep.origin(range(1, most + 1), {"plan": network}))
    return Failures(plan, seconds, lasts, least_ratio, by_node, requirements)


def _when(plan: Plan, at: float | None, duration: float | None) -> tuple[float, float]:
    """When nodes fail, and for how long."""
    run = plan.settings.hours * 3_600
    seconds = run / 3 if at is None else arguments.real("at", at, 0)
    if seconds >= run:
        raise arguments.ArgumentError(f"`at` is {seconds:,g}, and has to be a number from 0 to below {run:,g}, the seconds of the run")
    return seconds, math.inf if duration is None else arguments.real("duration", duration, above=0)


def _names(plan: Plan, nodes: Sequence[str] | None) -> list[str]:
    """The nodes that fail."""
    there = sorted((name for name, node in plan.nodes.items() if not node.candidate), key=natural)
    hosts = [host.node for host in sorted(plan.hosts, key=lambda host: host.rank)]
    given = there if nodes is None else hosts if nodes == "hosts" else [nodes] if isinstance(nodes, str) else list(dict.fromkeys(nodes))
    for name in given:
        if name in plan.nodes and name not in there:
            raise PlanError("", f"`nodes` has {name}, which is a candidate and no node yet, so it can't fail")
    known("", "nodes", given, there)
    if not given:
        raise arguments.ArgumentError("`nodes` is empty, and has to have a node that fails")
    return list(given)


@dataclass(frozen=True, eq=False)
class _Asked:
    """What is judged: each requirement as planned and in each failure, and why what is impossible is so, by its place."""

    plan: Plan
    cases: list[Case]
    planned: dict[int, Asked]
    failed: dict[int, Asked]
    impossible: dict[tuple[int, Case], str]

    @classmethod
    def of(cls, plan: Plan, cases: list[Case], most: int, own: bool, network: Scenario) -> _Asked:
        """What is judged of a plan, whose network without a seed this is."""
        found = cls(plan, cases, {}, {}, {})
        base = Case(seconds=cases[0].seconds)
        for place, one in enumerate(plan.requirements):
            rule = verifying.rule_of(one, most, own)
            reason = arithmetic.impossible(plan, one, [base], network)
            for case in [base, *cases]:
                if reason or (one.outage is not None and (alone := arithmetic.impossible(plan, one, [case], network))):
                    found.impossible[place, case] = reason or alone
            left = [case for case in cases if (place, case) not in found.impossible]
            if not reason:
                found.planned[place] = Asked(place, one, rule, [base], each=True)
            if left:
                found.failed[place] = Asked(place, one, rule, left, each=True)
        return found

    @property
    def base(self) -> Case:
        """No failure."""
        return Case(seconds=self.cases[0].seconds)

    @property
    def all(self) -> list[Asked]:
        """All that needs draws."""
        return [*self.planned.values(), *self.failed.values()]


@dataclass(frozen=True, eq=False)
class _Rows:
    """The rows of a requirement."""

    asked: _Asked
    draws: Draws
    network: Scenario
    place: int

    @property
    def requirement(self) -> Requirement:
        """The requirement."""
        return self.asked.plan.requirements[self.place]

    def rows(self) -> list[list[Any]]:
        """A row for each failure in which something is left to judge it by."""
        planned = self._planned()
        found = self._judged()
        rows = []
        for case in self.asked.cases:
            reason = self.asked.impossible.get((self.place, case))
            if reason is not None:
                rows.append(self._impossible(case, planned))
            elif case in found:
                rows.append(self._row(case, found[case], planned))
        return rows

    def _planned(self) -> Judgement | None:
        """The verdict without a failure; None where it is impossible, or there is nothing to judge it by."""
        one = self.asked.planned.get(self.place)
        units = self.draws.by_case(one)[""] if one is not None else []
        return judging.judge(one.rule, units) if one is not None and units else None

    def _judged(self) -> dict[Case, Judgement]:
        one = self.asked.failed.get(self.place)
        if one is None:
            return {}
        units = self.draws.by_case(one)
        left = [case for case in one.cases if units[case.failed]]
        return dict(zip(left, judging.judgements(one.rule, *(units[case.failed] for case in left)))) if left else {}

    def _row(self, case: Case, found: Judgement, planned: Judgement | None) -> list[Any]:
        whom = [name for name in found.broken if planned is None or name not in planned.broken]
        seconds = self._seconds(case, found, whom) if whom else 0.0
        rule, value = self.asked.failed[self.place].rule, math.nan if planned is None else planned.value
        return [
            case.failed, self.requirement.name, found.verdict, NOT_DECIDED if planned is None else planned.verdict, bool(whom), whom, seconds,
            found.value, value, verifying.unit(rule, self.requirement), found.low, found.high, rule.bound, found.worst, found.draws, found.packets,
        ]  # fmt: skip

    def _seconds(self, case: Case, found: Judgement, whom: list[str]) -> float:
        """For how long it does not hold; NaN where it does not to the end."""
        one = self.asked.failed[self.place]
        if not watching.is_of_packets(self.requirement):
            return math.nan if self.requirement.years is not None or not math.isfinite(found.value) else found.value
        place = self.draws.tasks[case].places.index(self.place)
        drawn = [draw[-1]["later"][place] for draw in self.draws.found[case][: found.draws]]
        steps = watching.steps_broken(one.rule, drawn, whom)
        step = watching.step_seconds(case.seconds, self.network.seconds, self.network.frame_seconds)
        return math.nan if steps is None else steps * step

    def _impossible(self, case: Case, planned: Judgement | None) -> list[Any]:
        """The row of a failure in which arithmetic says that no run meets it; that breaks it, where it can be met as planned."""
        is_alone = (self.place, self.asked.base) not in self.asked.impossible
        rule = verifying.rule_of(self.requirement, 1, False)
        streams = self.asked.plan.streams_of(self.requirement.streams, self.requirement.tag) if is_alone else []
        whom = [stream.name for stream in streams if stream.source != case.failed]
        verdict = IMPOSSIBLE if planned is None else planned.verdict
        value = math.nan if planned is None else planned.value
        return [
            case.failed, self.requirement.name, IMPOSSIBLE, verdict, is_alone, whom, math.nan if is_alone else 0.0, math.nan, value,
            verifying.unit(rule, self.requirement), math.nan, math.nan, rule.bound, "", 0, 0,
        ]  # fmt: skip


def joined(cell: Any) -> Any:
    """Names as a cell of a table has them; what is no list stays."""
    return _BETWEEN.join(cell) if isinstance(cell, list) else cell


def _by_node(asked: _Asked, draws: Draws, network: Scenario, rows: list[list[Any]], cut_off: dict[str, list[str]]) -> pd.DataFrame:
    """A row for each node that fails."""
    ranks = {host.node: host.rank for host in asked.plan.hosts}
    before = [draw[-1] for draw in draws.found.get(asked.base, [])]
    found: list[dict[str, Any]] = []
    for case in asked.cases:
        ours = [dict(zip(REQUIREMENTS, row)) for row in rows if row[0] == case.failed]
        broken = [row for row in ours if row["breaks"]]
        drawn = [draw[-1] for draw in draws.found.get(case, [])]
        frames = int(min(case.duration, network.seconds - case.seconds) / network.frame_seconds)
        longest = [row["broken_seconds"] for row in broken]
        silent, seconds = _silent(_means(before), _means(drawn))
        found.append({
            "failed": case.failed, "role": "node" if case.failed not in ranks else "host" if ranks[case.failed] == 0 else "backup",
            "breaks": len(broken), "requirements": [row["requirement"] for row in broken],
            "whom": list(dict.fromkeys(name for row in broken for name in row["whom"])),
            "broken_seconds": math.nan if any(map(math.isnan, longest)) else max(longest, default=0.0), "silent": silent, "silent_seconds": seconds,
            "cut_off": cut_off[case.failed],
            "lost": [name for name in cutting.lost([one["searched"] for one in before], [one["searched"] for one in drawn], frames) if name != case.failed],
            "undecided": sum(row["verdict"] == NOT_DECIDED for row in ours), "draws": len(drawn),
        })  # fmt: skip
    found.sort(key=lambda row: (-row["breaks"], -len(row["cut_off"]), -len(row["lost"]), -_number(row["silent_seconds"]), natural(row["failed"])))
    return pd.DataFrame([{name: joined(cell) for name, cell in row.items()} for row in found], columns=NODES)


def _number(value: float) -> float:
    return -1.0 if math.isnan(value) else value


def _means(drawn: Sequence[dict[str, Any]]) -> dict[str, float]:
    """For how long each stream was silent, on average over the draws in which it had packets."""
    several = [one["silent"] for one in drawn]
    found = {name: [one[name] for one in several if one.get(name) is not None] for name in dict.fromkeys(name for one in several for name in one)}
    return {name: sum(values) / len(values) for name, values in found.items() if values}


def _silent(before: dict[str, float], means: dict[str, float]) -> tuple[str, float]:
    """The stream that was silent longest, beyond what it is without a failure, and for how long."""
    longest = max(means, key=lambda name: means[name] - before.get(name, 0.0), default="")
    return longest, means.get(longest, math.nan)
