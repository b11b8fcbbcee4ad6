"""What a relay mends at each candidate place of a plan. `planning` has all answers in one place.

It is judged as by `verifying`: the same draws, intervals and verdicts. Tested, not proved.
"""

from __future__ import annotations

import html
import math
import os
from collections.abc import Sequence
from dataclasses import dataclass, field, replace
from typing import Any, TextIO

import numpy as np
import pandas as pd

from ..common import arguments
from ..many import sweep
from ..model.scenario import Scenario
from ..plan.errors import known
from ..plan.model import Node
from ..plan.naming import natural
from ..plan.plan import Plan
from . import arithmetic, cases, judging, running, verifying
from .cases import Case
from .failing import SEEDS, joined
from .judging import MET, Rule, Unit
from .running import Asked, Draws

PLACES = ["candidate", "x", "y", "floor", "mended", "gain", "met", "whom", "draws"]
REQUIREMENTS = [
    "candidate", "requirement", "verdict", "before", "mended", "broken", "value", "value_before", "unit", "low", "high", "wanted", "worst", "draws", "packets",
]  # fmt: skip
# In so many of the failures that break a requirement a relay is tried, those first in which the most breaks.
_CASES_MOST = 8
_IDS_MOST = 200
# A unit that does not hold: the requirement, the failure, and its name.
Weak = tuple[int, str, str]


@dataclass(frozen=True, repr=False, eq=False)
class Relays:
    """What a relay mends at each candidate place (docs/FAILURES.md). A stream or node is broken where its value, on average over the draws, is not as a
    requirement that is not met wants it; it is mended where it is so with a relay. Several names have semicolons between them.

    plan            the plan, with the places of the grid where there is one
    broken          how many streams and nodes are broken, over all requirements and their failures
    places          a row for each candidate, those first that mend the most:
      candidate, x, y, floor    its name and place
      mended          how many of the broken are mended
      gain            how much nearer the broken come to what is wanted, 0 to 1, on average: 1 where all are mended
      met             how many requirements are met with it, of those that are not without
      whom            what is mended
      draws           how many draws were made, of all failures together
    requirements    a row for each candidate and requirement that is not met: `verdict`, that `before`, how many of its streams and nodes are `broken` and
                    `mended`, and what `planning.verdicts` has, over the failures that break it
    """

    plan: Plan = field(repr=False)
    broken: int
    places: pd.DataFrame = field(repr=False)
    requirements: pd.DataFrame = field(repr=False)
    told: tuple[str, ...] = ()

    def __repr__(self) -> str:
        best = f", the best mends {self.places['mended'].max()}" if len(self.places) else ""
        return f"<Relays: {len(self.places)} places, {self.broken} broken{best}>"

    def _repr_html_(self) -> str:
        shown: str = self.places.to_html(index=False, border=0, na_rep="–", float_format=lambda number: f"{number:.3g}")
        return "".join(f"<p>{html.escape(remark)}</p>" for remark in self.remarks()) + shown

    def remarks(self) -> list[str]:
        """What to know of the tables, in sentences."""
        return list(self.told)

    def status(self) -> int:
        """The exit status of `foldcairn relays`: 10 if something is broken and no place mends all of it, else 0."""
        return 10 if self.broken > int(self.places["mended"].max() if len(self.places) else 0) else 0


def relays(
    plan: Plan,
    candidates: Sequence[str] | None = None,
    grid: float | None = None,
    seeds: int | None = None,
    jobs: int | None = None,
    folder: str | os.PathLike[str] | None = None,
    *,
    executor: Any = None,
    progress: bool | TextIO = True,
) -> Relays:
    """What a relay mends at each candidate place, of the requirements that a plan does not meet (docs/FAILURES.md).

    The requirements are judged as by `planning.verdicts`, in each of their failures. Then the failures that break one, at most 8 of them, are drawn again
    with a node at each of the places in turn, by the same seeds.

    Parameters
    ----------
    plan : Plan
        The plan.
    candidates : sequence of str, optional
        The names of candidates, those nodes of the plan that have `candidate = true`; all without it.
    grid : float, optional
        In place of that, places on a grid with so many metres between them, on each floor, where positions give ratios: within the `extent` of
        the plan, or among its nodes. Such a relay is as a node on mains.
    seeds : int, optional
        How many draws of each there may be, 1 to 10,000; without it 32, or those of the plan if they are fewer.
    jobs : int, optional
        How many draws are made at a time; a process for each processor without it.
    folder : path, optional
        Keeps each draw in a file as soon as it is there: what was stopped goes on from there.
    executor : optional
        An executor of `concurrent.futures`, or a client of `distributed`, in place of processes.
    progress : bool or file
        A bar on standard error or on the stream that is given, a line a minute where that is no terminal; False: none.

    Returns
    -------
    Relays
        A table by place and one by requirement, with times by plan.

    Raises
    ------
    ArgumentError
        Where it is no plan, it has no requirement or no place, or an argument is out of its range.
    PlanError
        Where a name is none of a candidate or no network can be made of the plan.
    sweep.SweepStopped
        Where the executor breaks down.
    program.ProgramError
        As `program.execute` does.
    """
    if not isinstance(plan, Plan):
        raise arguments.ArgumentError(f"`plan` is a {type(plan).__name__}, and has to be a Plan; write foldcairn.plan.Plan.read(..) of a plan file")
    if not plan.requirements:
        raise arguments.ArgumentError(f"{plan.path or 'the plan'} has no [[requirement]], so there is nothing to mend")
    plan, names = _places(plan, candidates, grid)
    most = min(plan.settings.seeds, SEEDS) if seeds is None else arguments.whole("seeds", seeds, 1, verifying.SEEDS_MOST)
    jobs = None if jobs is None else arguments.whole("jobs", jobs, 1)
    own, network = verifying.networks(plan)
    asked, told = _asked(plan, most, own, network)

    def drawn(several: list[Asked]) -> Draws:
        return running.draw_alone(plan, several, most, executor=executor, jobs=jobs, folder=folder, progress=progress)

    before = _Found.of(asked, drawn(asked))
    tried = {name: before.with_relay(name) for name in names} if before.weak else {}
    draws = drawn([one for several in tried.values() for one in several]) if tried else None
    found = {name: _Found.of(tried[name], draws) for name in tried if draws is not None}
    return _result(plan, names, before, found, told, sweep.origin(range(1, most + 1), {"plan": network}))


def _places(plan: Plan, candidates: Sequence[str] | None, grid: float | None) -> tuple[Plan, list[str]]:
    """The plan with its places, and the names of those that are tried."""
    if grid is not None:
        if candidates is not None:
            raise arguments.ArgumentError("`candidates` and `grid` are both given; keep one of these")
        return _with_grid(plan, arguments.real("grid", grid, above=0))
    names = plan.candidates if candidates is None else [candidates] if isinstance(candidates, str) else list(dict.fromkeys(candidates))
    known("", "candidates", names, plan.candidates, "candidate")
    if not names:
        raise arguments.ArgumentError(
            "there is no candidate: write `candidate = true` below [[node]] for each place where a relay may be put, or ask for a `grid`, as grid=15"
        )
    return plan, names


def _with_grid(plan: Plan, metres: float) -> tuple[Plan, list[str]]:
    """The plan with candidates on a grid. Raises `ArgumentError` where positions give no ratios, or they are too many."""
    if plan.losses.source not in ("positions", "both"):
        raise arguments.ArgumentError(f"`grid` needs ratios of positions, and `from` of [losses] is {plan.losses.source}; write positions or both")
    there = [node for node in plan.nodes.values() if node.x is not None and node.y is not None]
    if not there:
        raise arguments.ArgumentError(f"`grid` is {metres:g}, and no node has a place; write `x` and `y` of each")
    box = plan.extent() or [op(getattr(node, axis) for node in there) for op in (min, max) for axis in "xy"]
    columns, rows = (_along(low, high, metres) for low, high in ((box[0], box[2]), (box[1], box[3])))
    floors = sorted({node.floor for node in there if not node.candidate})
    spots = [(x, y, floor) for floor in floors for y in rows for x in columns]
    of_several = len(floors) > 1
    added = [Node(f"{x:g}, {y:g}" + f" on {floor}" * of_several, x=x, y=y, floor=floor, powered="mains", candidate=True) for x, y, floor in spots]
    if len(added) + len(plan.nodes) > _IDS_MOST:
        room = _IDS_MOST - len(plan.nodes)
        raise arguments.ArgumentError(f"`grid` is {metres:g}, which makes {len(added):,} places, and there is room for {room}; write more metres")
    made = replace(plan, nodes={**plan.nodes, **{node.name: node for node in added}})
    made.check()
    return made, [node.name for node in added]


def _along(low: float, high: float, metres: float) -> list[float]:
    """Places along an axis, in the middle of it."""
    count = max(1, int((high - low) / metres))
    return [round(float(one), 2) for one in np.linspace(low, high, 2 * count + 1)[1::2]]


def _asked(plan: Plan, most: int, own: bool, network: Scenario) -> tuple[list[Asked], list[str]]:
    """What is judged without a relay, and what is left out, in sentences."""
    asked, told = [], []
    for place, one in enumerate(plan.requirements):
        several = cases.of(plan, one)
        if reason := arithmetic.impossible(plan, one, several, network):
            told.append(f"{one.name} is impossible, with a relay or without: {reason}.")
        else:
            asked.append(Asked(place, one, verifying.rule_of(one, most, own), several, each=True))
    return asked, told


@dataclass(frozen=True, eq=False)
class _Found:
    """What draws say: of each requirement that was judged, by its place, the units in each failure; and which of them do not hold."""

    asked: dict[int, Asked]
    units: dict[int, dict[Case, list[Unit]]]
    draws: int

    @classmethod
    def of(cls, asked: Sequence[Asked], draws: Draws) -> _Found:
        """What these draws say of what was asked."""
        several = {case for one in asked for case in one.cases}
        return cls({one.place: one for one in asked}, {one.place: _units(one, draws) for one in asked}, sum(len(draws.found[case]) for case in several))

    @property
    def weak(self) -> dict[Weak, float]:
        """The units that do not hold, of requirements that are not met, with their values."""
        return {key: value for place in self.asked if not self.is_met(place) for key, value in self.values(place).items() if self._is_weak(place, value)}

    def _is_weak(self, place: int, value: float) -> bool:
        return not self.asked[place].rule.holds(value)

    def values(self, place: int) -> dict[Weak, float]:
        """The mean values of the units of a requirement, of those that have one."""
        return {
            (place, case.failed, unit.name): sum(unit.known) / len(unit.known)
            for case, units in self.units[place].items() for unit in units if unit.known
        }  # fmt: skip

    def judged(self, place: int, only: Sequence[str] | None = None) -> judging.Judgement | None:
        """The verdict on a requirement, in all its failures or in these; None where there is nothing to judge it by."""
        several = [units for case, units in self.units[place].items() if units and (only is None or case.failed in only)]
        return judging.judge(self.asked[place].rule, *several) if several else None

    def is_met(self, place: int) -> bool:
        """Whether a requirement is met."""
        found = self.judged(place)
        return found is None or found.verdict == MET

    def with_relay(self, name: str) -> list[Asked]:
        """What is asked with a relay at a candidate: each requirement with weak units, in the failures that have the most of these."""
        found = []
        for place, one in self.asked.items():
            counts = {case: sum(key[:2] == (place, case.failed) for key in self.weak) for case in one.cases}
            worst = sorted((case for case in one.cases if counts[case]), key=lambda case: -counts[case])[:_CASES_MOST]
            if worst:
                found.append(replace(one, cases=[replace(case, relay=name) for case in worst]))
        return found


def _units(one: Asked, draws: Draws) -> dict[Case, list[Unit]]:
    """The units of a requirement, by its failures."""
    found = draws.by_case(one)
    return {case: [replace(unit, name=_called(unit.name, case)) for unit in found[case.failed]] for case in one.cases}


def _called(name: str, case: Case) -> str:
    return f"{name} without {case.failed}" if case.failed else name


def _result(plan: Plan, names: Sequence[str], before: _Found, found: dict[str, _Found], told: list[str], origin: dict[str, Any]) -> Relays:
    """The tables."""
    tried = {key: value for key, value in before.weak.items() if any(key in one.values(key[0]) for one in found.values())}
    requirements = [row for name in names if name in found for row in _rows(name, before, found[name], tried)]
    rows = []
    for name in names if found else []:
        values = {key: value for place in found[name].asked for key, value in found[name].values(place).items()}
        rules = {key: before.asked[key[0]].rule for key in tried}
        mended = [key for key in tried if key in values and rules[key].holds(values[key])]
        gains = [_near(rules[key], values.get(key, value)) - _near(rules[key], value) for key, value in tried.items()]
        node, met = plan.nodes[name], sum(row[0] == name and row[2] == MET for row in requirements)
        gain = sum(gains) / sum(1 - _near(rules[key], value) for key, value in tried.items())
        rows.append([name, node.x, node.y, node.floor, len(mended), gain, met, joined([key[2] for key in mended]), found[name].draws])
    rows.sort(key=lambda row: (-row[4], -row[5], natural(row[0])))
    places = pd.DataFrame(rows, columns=PLACES).astype({"x": float, "y": float})
    table = pd.DataFrame(requirements, columns=REQUIREMENTS)
    for one in (places, table):
        one.attrs.update(origin)
    return Relays(plan, len(tried), places, table, (*_remarks(before, len(tried)), *told))


def _rows(name: str, before: _Found, found: _Found, tried: dict[Weak, float]) -> list[list[Any]]:
    """The rows of a candidate."""
    rows = []
    for place, one in found.asked.items():
        failures = [case.failed for case in one.cases]
        old, new = before.judged(place, failures), found.judged(place)
        if old is not None and new is not None:
            values, ours = found.values(place), [key for key in tried if key[0] == place]
            mended = sum(key in values and one.rule.holds(values[key]) for key in ours)
            rows.append([
                name, one.requirement.name, new.verdict, old.verdict, mended, len(ours), new.value, old.value, verifying.unit(one.rule, one.requirement),
                new.low, new.high, one.rule.bound, new.worst, new.draws, new.packets,
            ])  # fmt: skip
    return rows


def _near(rule: Rule, value: float) -> float:
    """How near a value comes to what is wanted, 0 to 1."""
    if rule.holds(value):
        return 1.0
    return max(0.0, value / rule.wanted) if rule.at_least else rule.wanted / value if math.isfinite(value) else 0.0


def _remarks(before: _Found, tried: int) -> list[str]:
    """What is broken without a relay."""
    told = []
    for place, one in before.asked.items():
        weak = [key[2] for key in before.weak if key[0] == place]
        judged = before.judged(place)
        if weak and judged is not None:
            named = ", ".join(weak[:6]) + f" and {len(weak) - 6} more" * (len(weak) > 6)
            told.append(f"{one.requirement.name} is {judged.verdict}: it does not hold for {named}.")
    if not told:
        return ["Nothing is broken: what is not met has values as they are wanted, so no relay is asked for."]
    more = len(before.weak) - tried
    return [*told, *([f"{more} of them are in failures beyond the {_CASES_MOST} in which most is broken, and are left out."] if more else [])]
