"""What a search has found: a table of the settings, the best of them, and what limits it. Tested, not proved."""

from __future__ import annotations

import math
from collections import Counter
from collections.abc import Sequence
from dataclasses import dataclass
from typing import Any

import pandas as pd

from ..plan.plan import Plan
from ..requirements.judging import IMPOSSIBLE, MET, NOT_DECIDED, NOT_MET
from . import halving, space
from .results import OUTDONE, VERDICTS, Value
from .trying import Tried

# How many requirements a sentence names.
_NAMED_MOST = 3
COLUMNS = ("verdict", "requirement", "life_years", "life_low", "life_high", "margin", "margin_low", "margin_high", "worst", "draws", "why")


@dataclass(frozen=True, repr=False, eq=False)
class Found:
    """What `planning.search` has found.

    Attributes
    ----------
    table : pandas.DataFrame
        A row for each setting, the best first: a column for each word that is searched, and these.

        verdict
            "met", "not met", "not decided", "outdone" (others looked better, so it got no more draws), or "impossible", where arithmetic says so,
            and nothing was run
        requirement
            the first requirement that fails, or that its draws missed; empty where none did
        life_years, life_low, life_high
            how long the battery lasts that is empty first, and the interval; as if nodes had batteries where all are on mains
        margin, margin_low, margin_high
            by how much the worst share of packets is above what is wanted, of the requirement of which that is least, and its interval: below 0 it
            is missed; missing where no requirement is one of packets
        worst
            the stream of that share
        draws
            how many draws there were of what is as planned, those of its verdict included
        why
            why it is impossible
    best : Plan or None
        The plan with the setting that meets all requirements at the longest life; where none is known to, with one of which that is not decided;
        None where there is neither.
    nearest : Plan
        The plan with the setting of the first row.
    setting : dict
        The setting of that row.
    verdicts : pandas.DataFrame or None
        The verdicts of the best, as those of `planning.verdicts` for this plan; None where there is none.
    limits : list of str
        What limits it, in sentences.
    """

    table: pd.DataFrame
    best: Plan | None
    nearest: Plan
    setting: space.Setting
    verdicts: pd.DataFrame | None
    limits: list[str]

    def __repr__(self) -> str:
        counts = Counter(self.table["verdict"])
        told = ", ".join(f"{counts[verdict]:,} {verdict}" for verdict in VERDICTS if counts[verdict])
        return f"<Found: {len(self.table):,} settings, {told}; the best: {space.shown(self.setting)}>"

    @property
    def status(self) -> int:
        """The exit status of `foldcairn search`: 0 if a setting meets all, 11 if that is not decided of the best, 10 if there is none."""
        return 10 if self.best is None else 0 if self.table["verdict"].iloc[0] == MET else 11


def of(plan: Plan, tried: Sequence[Tried], attributes: dict[str, Any]) -> Found:
    """What a search of a plan has found by what it tried, one setting or more."""
    ordered = [tried[place] for place in _order(tried)]
    first = ordered[0]
    table = pd.DataFrame([_row(one) for one in ordered], columns=[*first.setting, *COLUMNS])
    table.attrs.update(attributes)
    is_best = first.verdict in (MET, NOT_DECIDED)
    return Found(table, first.plan if is_best else None, first.plan, first.setting, first.table if is_best else None, limits(ordered))


def _order(tried: Sequence[Tried]) -> list[int]:
    """The places of the settings from the best to the worst: those that are met, then those that may be, then the others by what they miss."""
    places = {place: rank for rank, place in enumerate(halving.order([one.seen for one in tried]))}
    ranks = {MET: 0, NOT_DECIDED: 1, OUTDONE: 2, NOT_MET: 3, IMPOSSIBLE: 4}

    def rank(one: Tried) -> int:
        return ranks[NOT_MET if one.verdict == OUTDONE and not one.seen.is_good else one.verdict]

    return sorted(range(len(tried)), key=lambda place: (rank(tried[place]), places[place]))


def _row(one: Tried) -> list[Any]:
    setting = [space.shown_value(value) if isinstance(value, tuple) else value for value in one.setting.values()]
    seen, tight, failing = one.seen, one.seen.tightest, _failing(one)
    ends = [value - tight.wanted for value in (tight.value, tight.low, tight.high)] if tight else [math.nan] * 3
    draws = one.count + (0 if one.table is None else int(one.table["draws"].max()))
    return [
        *setting, one.verdict, failing, seen.life.years, seen.life.low, seen.life.high, *ends, tight.worst if tight else "", draws, one.excluded[1],
    ]  # fmt: skip


def _failing(one: Tried) -> str:
    """The first requirement that fails, or that its draws missed."""
    if not one.is_possible:
        return one.excluded[0]
    found = one.seen.failing
    return "" if found is None or (one.verdict == OUTDONE and found.miss == 0) else found.name


# What limits the best.


def limits(ordered: Sequence[Tried]) -> list[str]:
    """What keeps the best from a longer life, or where there is none, what no setting meets; the settings are from the best to the worst."""
    first = ordered[0]
    if first.verdict not in (MET, NOT_DECIDED):
        return _none(ordered)
    longer = [one for one in ordered[1:] if one.is_possible and one.seen.life.years > first.seen.life.years]
    missed = Counter(name for one in longer if (name := _failing(one)))
    told = [f"{len(longer)} settings live longer, and miss {_counted(missed)}" if missed else "no setting that was tried lives longer"]
    if longer and not missed:
        told = [f"{len(longer)} settings live longer by fewer draws, and others looked better"]
    tight, undecided = first.seen.tightest, first.seen.failing
    if tight is not None:
        told.append(f"the least margin is that of {tight.name}: {_part(tight.value)} where {_part(tight.wanted)} is wanted, of {tight.worst}")
    if first.verdict == NOT_DECIDED and undecided is not None:
        told.append(f"{undecided.name} is not decided: {_shown(undecided)}; more `seeds` decide it")
    return told


def _none(ordered: Sequence[Tried]) -> list[str]:
    possible = [one for one in ordered if one.is_possible]
    if not possible:
        reasons = Counter(one.excluded for one in ordered)
        (name, why), count = reasons.most_common(1)[0]
        return [f"arithmetic excludes each setting, {count} of {len(ordered)} by {name}: {why}"]
    never = [value for value in possible[0].seen.values if value.miss > 0 and all(_misses(one, value.name) for one in possible)]
    told = []
    for value in never[:_NAMED_MOST]:
        nearest = min((other for one in possible for other in one.seen.values if other.name == value.name), key=lambda other: other.miss)
        told.append(f"no setting meets {value.name}: the nearest has {_shown(nearest)}")
    failing = Counter(_failing(one) for one in possible if _failing(one))
    return told or [f"no setting meets all requirements: of {len(possible)} that are possible {_counted(failing)}"]


def _misses(one: Tried, name: str) -> bool:
    """Whether the draws of a setting miss a requirement, or say nothing of it."""
    return all(value.miss > 0 for value in one.seen.values if value.name == name)


def _counted(names: Counter[str]) -> str:
    """The requirements by how many settings miss them."""
    return ", ".join(f"{name} ({count})" for name, count in names.most_common(_NAMED_MOST))


def _part(value: float) -> str:
    return f"{100 * value:.4g} %"


def _shown(value: Value) -> str:
    """A value with what is wanted."""
    if value.is_part:
        return f"{_part(value.value)} where {_part(value.wanted)} is wanted"
    unit = "years" if value.at_least else "s"
    return f"{value.value:.3g} {unit} where {value.wanted:g} {unit} {'are' if value.at_least else 'at most are'} wanted"
