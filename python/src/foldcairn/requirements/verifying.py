"""Verdicts on the requirements of a plan: a table with a row for each. `planning` has all answers in one place. Tested, not proved."""

from __future__ import annotations

import math
import os
from collections.abc import Sequence
from concurrent.futures import Executor
from dataclasses import dataclass, replace
from typing import Any, TextIO

import pandas as pd

from ..common import arguments, progress as bars
from ..many import sweep
from ..model.scenario import Scenario
from ..plan.model import Requirement
from ..plan.plan import Plan
from ..runs import kept
from . import arithmetic, cases, helping, measuring, running
from .judging import IMPOSSIBLE, MET, NOT_DECIDED, NOT_MET, Judgement, Rule, judge
from .running import Asked, Draws

SEEDS_MOST = 10_000
COLUMNS = ["requirement", "when", "verdict", "value", "unit", "low", "high", "wanted", "worst", "draws", "packets", "needs", "helps"]
# By how much the ratio of a link differs between so many draws, 0 to 1, where each draw has a network of its own.
_OWN, COMPARED = 0.1, 4


def verdicts(
    plan: Plan,
    seeds: int | None = None,
    jobs: int | None = None,
    folder: str | os.PathLike[str] | None = None,
    *,
    executor: Any = None,
    progress: bool | TextIO = True,
) -> pd.DataFrame:
    """Whether a plan meets its requirements, and how sure that is.

    A draw is the network of a seed (its ratios, times and events as the plan draws them) with the losses that the seed draws by its
    ratios; seeds go from 1 on. Draws are added, look by look, until each requirement is decided or `seeds` of them are there; what the
    repeated looks cost is paid for by alpha spending (`foldcairn.requirements.looks`). The intervals are those of
    `foldcairn.requirements.limits`, and the verdict holds for each stream, node and failure of a requirement
    (`foldcairn.requirements.judging`). Times are by plan (docs/REQUIREMENTS.md).

    Parameters
    ----------
    plan : Plan
        The plan.
    seeds : int, optional
        How many draws there may be, 1 to 10,000; those of the plan without it.
    jobs : int, optional
        How many draws are made at a time; a process for each processor without it.
    folder : path, optional
        Keeps each draw in a file as soon as it is there; a later call, also one with other thresholds, takes what is there.
    executor : optional
        An executor of `concurrent.futures`, or a client of `distributed`, in place of processes.
    progress : bool or file
        A bar on standard error or on the stream that is given, a line a minute where that is no terminal; False: none.

    Returns
    -------
    pandas.DataFrame
        A row for each requirement, in the order of the plan.

        requirement, when
            its name, and when it has to hold
        verdict
            "met", "not met", "not decided", or "impossible", where arithmetic says that no run meets it
        value, unit
            the value of the worst stream or node: the part of its packets, "of packets"; "years"; "s"; or with `in` the part of the draws
            in which all hold, "of draws"; missing where it is impossible or nothing was counted
        low, high
            the interval of that stream's or node's true value; both verdicts together are wrong in the part 1 - `confidence` of all cases
            at most
        wanted
            what is required, in the unit of the value
        worst
            the stream or node, and the failure where there are several, of this value
        draws, packets
            how many draws of this case were made, and how many packets of all streams and cases are behind the verdict
        needs
            how many draws a decision takes if they go on as they were; missing where none that could be named does
        helps
            what would help first, as a sentence; of a requirement that several failures break it names these

    Raises
    ------
    ArgumentError
        Where it is no plan, it has no requirement or an argument is out of its range.
    PlanError
        Where no network can be made of it.
    sweep.SweepStopped
        Where the executor breaks down.
    program.ProgramError
        As `program.execute` does.
    """
    return judged(plan, seeds, jobs, folder, executor=executor, progress=progress).table


@dataclass(frozen=True, eq=False)
class Judged:
    """The verdicts on a plan and what is behind them.

    table   the table of `verdicts`
    asked   the requirements that were drawn: those that are not impossible
    draws   what was measured of them
    own     whether each draw has a network of its own
    """

    table: pd.DataFrame
    asked: list[Asked]
    draws: Draws
    own: bool


def judged(
    plan: Plan,
    seeds: int | None = None,
    jobs: int | None = None,
    folder: str | os.PathLike[str] | None = None,
    *,
    executor: Any = None,
    progress: bool | TextIO = True,
) -> Judged:
    """The verdicts on a plan with the draws behind them; given and raised is what `verdicts` is given and raises."""
    if not isinstance(plan, Plan):
        raise arguments.ArgumentError(f"`plan` is a {type(plan).__name__}, and has to be a Plan; write foldcairn.plan.Plan.read(..) of a plan file")
    if not plan.requirements:
        raise arguments.ArgumentError(f"{plan.path or 'the plan'} has no [[requirement]], so there is nothing to verify")
    most = plan.settings.seeds if seeds is None else arguments.whole("seeds", seeds, 1, SEEDS_MOST)
    jobs = None if jobs is None else arguments.whole("jobs", jobs, 1)
    with running.runner_of(executor, jobs) as runner, bars.bar(0, "draws", progress) as bar:
        return verified(plan, most, runner, bar, kept.Store(folder))


def verified(plan: Plan, most: int, runner: Executor, bar: Any, store: kept.Store, is_search: bool = False) -> Judged:
    """The verdicts on a plan with the draws behind them, by a runner, with a bar and where draws are kept. In a search it ends with the first
    requirement that is not met, others are not decided then, and nothing is said of what would help."""
    own, network = networks(plan)
    asked = [Asked(place, one, rule_of(one, most, own), cases.of(plan, one)) for place, one in enumerate(plan.requirements)]
    reasons = {one.place: arithmetic.impossible(plan, one.requirement, one.cases, network) for one in asked}
    possible = [one for one in asked if not reasons[one.place]]
    draws = running.draw(plan, possible, most, runner=runner, bar=bar, store=store, give_up=is_search)
    looked: dict[cases.Case, helping.Looked] | None = None if is_search else {}
    with measuring.quiet():
        rows = [_impossible(one, reasons[one.place]) if reasons[one.place] else _row(one, draws, looked) for one in asked]
    table = pd.DataFrame(rows, columns=COLUMNS).astype({"needs": "Int64"})
    table.attrs.update(sweep.origin(range(1, most + 1), {"plan": network}))
    return Judged(table, possible, draws, own)


def networks(plan: Plan) -> tuple[bool, Scenario]:
    """Whether each draw of a plan has a network of its own, and the one without a seed, both without the plan's events. Raises `PlanError` where no
    network can be made of it."""
    with measuring.quiet():
        drawer = replace(plan, events=[]).drawer()
        return has_own_networks([drawer.network(seed) for seed in range(1, 1 + COMPARED)]), drawer.network()


def rule_of(requirement: Requirement, most: int, own_networks: bool) -> Rule:
    """The rule of a requirement, of which so many draws may be made."""
    share = requirement.share if requirement.share is not None else requirement.ratio
    at_most = requirement.joined if requirement.joined is not None else requirement.outage
    wanted = share if share is not None else at_most if at_most is not None else requirement.years or 0.0
    return Rule(wanted, share is not None, at_most is None, requirement.part, requirement.confidence, most, own_networks)


def has_own_networks(networks: Sequence[Scenario]) -> bool:
    """Whether each draw has a network of its own, by the networks of some draws without their events: links or ids are others, or the ratio of a
    link differs by more than 0.1."""
    first = networks[0]
    if any(one.labels != first.labels or one.links != first.links for one in networks):
        return True
    ratios = ([one.prr.get(link, 1.0) for one in networks] for link in first.links)
    return any(max(of_link) - min(of_link) > _OWN for of_link in ratios)


def unit(rule: Rule, requirement: Requirement) -> str:
    """The unit of the values of a requirement."""
    if rule.part is not None:
        return "of draws"
    return "of packets" if rule.is_share else "years" if requirement.years is not None else "s"


def _impossible(one: Asked, reason: str) -> list[Any]:
    return [
        one.requirement.name, one.requirement.when, IMPOSSIBLE, math.nan, unit(one.rule, one.requirement), math.nan, math.nan, one.rule.bound, "", 0, 0,
        None, reason,
    ]  # fmt: skip


def _row(one: Asked, draws: Draws, looked: dict[cases.Case, helping.Looked] | None) -> list[Any]:
    """The row of a requirement that was drawn."""
    requirement, rule, units = one.requirement, one.rule, draws.named(one)
    if not units:
        nothing = "no stream or node is left to judge it by: what it names has failed, or has no battery"
        return [requirement.name, requirement.when, NOT_DECIDED, math.nan, unit(rule, requirement), math.nan, math.nan, rule.bound, "", 0, 0, None, nothing]
    found = judge(rule, *units.values())
    return [
        requirement.name, requirement.when, found.verdict, found.value, unit(rule, requirement), found.low, found.high, rule.bound, found.worst,
        found.draws, found.packets, found.needs, "" if looked is None else _helps(one, draws, found, looked),
    ]  # fmt: skip


def _helps(one: Asked, draws: Draws, found: Judgement, looked: dict[cases.Case, helping.Looked]) -> str:
    """What would help first; draws that are `looked` at are kept there."""
    if found.verdict == MET:
        return ""
    case, worst = draws.case_of(one, found.worst)
    if math.isnan(found.value):
        return f"no packet of {worst} was due in any draw: give it packets, or take it out"
    asked = helping.Wanted(one.requirement, one.rule, found, worst, looked.setdefault(case, helping.Looked(draws.plan, case)))
    told = helping.broken(one.rule, draws.by_case(one)) if cases.is_of_several(one.requirement) else ""
    more = [] if one.rule.is_reached_by(found.value) else [helping.help_for(asked)]
    more += [helping.more_draws(asked)] if found.verdict == NOT_DECIDED else []
    return told + "; ".join(more)


def status(table: pd.DataFrame) -> int:
    """The exit status of `foldcairn verify`.

    Parameters
    ----------
    table : pandas.DataFrame
        What `verdicts` gives.

    Returns
    -------
    int
        It is 0 if all are met, 10 if some are not met or impossible, and 11 if some are not decided.
    """
    found = set(table["verdict"])
    return 10 if found & {NOT_MET, IMPOSSIBLE} else 11 if NOT_DECIDED in found else 0
