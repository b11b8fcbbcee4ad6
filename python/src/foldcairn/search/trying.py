"""The settings that are tried: which of them arithmetic excludes, and what the draws of the others say. Tested, not proved."""

from __future__ import annotations

import functools
from collections.abc import Callable, Sequence
from concurrent.futures import Executor
from dataclasses import dataclass, field, replace
from typing import Any

import pandas as pd

from ..many import executors
from ..many.sweep import SweepStopped
from ..plan.errors import PlanError
from ..plan.model import Requirement, Search
from ..plan.plan import Plan
from ..plan.words import BATTERY
from ..requirements import arithmetic, cases, judging, measuring
from ..requirements.cases import Case
from ..requirements.judging import IMPOSSIBLE, NOT_MET
from ..requirements.running import Asked, Draws, Work
from ..requirements.verifying import rule_of
from ..runs import kept, program
from . import space
from .results import LIFE, OUTDONE, Life, Seen, of_draws
from .space import Setting

# The seeds of a search, which are none of `verify`: what is called met is so by draws that had no part in choosing it.
FIRST_SEED = 10_001
# A requirement with more cases, as that any one node fails, is judged of those alone that come to be verified.
_CASES_MOST = 4
# The requirement by which lives are measured has a name that none of a plan has.
_LIFE = "\nlife"


@dataclass(eq=False)
class Tried:
    """A setting that is tried.

    plan       the plan with it
    excluded   the requirement that no run of it meets and why, or empty texts
    asked      what is asked of its draws: requirements, and its life last
    count      how many draws each case has, by the search alone
    seen       what they say, or once it was verified what the verdicts say
    table      its verdicts, where it was verified
    """

    setting: Setting
    plan: Plan
    excluded: tuple[str, str] = ("", "")
    asked: list[Asked] = field(default_factory=list)
    draws: Draws | None = None
    count: int = 0
    seen: Seen = field(default_factory=Seen)
    table: pd.DataFrame | None = None

    @property
    def is_possible(self) -> bool:
        """Whether arithmetic does not exclude it."""
        return self.excluded == ("", "")

    @property
    def verdict(self) -> str:
        """What becomes of it."""
        if not self.is_possible:
            return IMPOSSIBLE
        return self.seen.verdict if self.table is not None or self.seen.verdict == NOT_MET else OUTDONE


def measured(plan: Plan) -> Plan:
    """The plan with a requirement more, whose value is its life; where all nodes are on mains, it is as if they had batteries, and so says how
    long radios are on."""
    nodes = plan.nodes
    if all(node.is_on_mains for node in nodes.values() if not node.candidate):
        nodes = {name: replace(node, powered=BATTERY) for name, node in nodes.items()}
    return replace(plan, nodes=nodes, requirements=[*plan.requirements, Requirement(_LIFE, years=1.0)], search=Search(), source=None)


def excluded(plan: Plan) -> tuple[str, str]:
    """The first requirement that arithmetic says no run of a plan meets, and why; "the plan" where no network can be made of it, and else empty
    texts. The plan has no events. In the process of a worker."""
    with measuring.quiet():
        try:
            network = plan.drawer().network()
        except PlanError as error:
            return "the plan", error.what
        for one in plan.requirements:
            if reason := arithmetic.impossible(plan, one, cases.of(plan, one), network):
                return one.name, reason
    return "", ""


@dataclass(eq=False)
class Trials:
    """All that are tried, in the order in which that began: by one runner, and with one store of what is kept."""

    plan: Plan
    own_networks: bool
    most: int
    runner: Executor
    bar: Any
    store: kept.Store
    tried: list[Tried] = field(default_factory=list)

    def add(self, settings: Sequence[Setting]) -> list[Tried]:
        """Begins to try some settings, of which those that arithmetic excludes are known then. Raises `SweepStopped` where the runner breaks down."""
        new = [Tried(setting, space.applied(self.plan, setting)) for setting in settings]
        keys = [self._key(one.plan) for one in new]
        ahead: list[tuple[int, Callable[[], tuple[str, str]]]] = []
        for place, (one, key) in enumerate(zip(new, keys)):
            told = self.store.take(key)
            if told is not None:
                one.excluded = told[0], told[1]
            else:
                ahead.append((place, functools.partial(excluded, replace(one.plan, events=[], search=Search(), source=None))))
        try:
            for place, found in executors.done(self.runner, ahead[::-1]):
                new[place].excluded = found
                self.store.keep(keys[place], list(found))
        except executors.BrokeDown as error:
            raise SweepStopped(f"the executor broke down: {error}") from error
        for one in new:
            if one.is_possible:
                self._begin(one)
        self.tried += new
        return new

    def _key(self, plan: Plan) -> str:
        """A name for what arithmetic says of a plan."""
        if self.store.folder is None:
            return ""
        whole = [repr(getattr(plan, name)) for name in ("settings", "nodes", "links", "streams", "hosts", "events", "losses", "battery", "requirements")]
        return kept.digest("excluded", kept.FORM, whole, program.versions())

    def _begin(self, one: Tried) -> None:
        plan = measured(one.plan)
        several = [(place, required, cases.of(plan, required)) for place, required in enumerate(plan.requirements)]
        one.asked = [
            Asked(place, required, LIFE if required.name == _LIFE else rule_of(required, self.most, self.own_networks), found)
            for place, required, found in several if len(found) <= _CASES_MOST
        ]  # fmt: skip
        one.draws = Draws(plan, one.asked, self.store, FIRST_SEED)

    def draw(self, some: Sequence[Tried], count: int, left: int) -> None:
        """Lets some have so many draws; the first is of what is as planned alone, which tells most. So many more draws are `left` after these."""
        wanted = [(one.draws, case, count) for one in some if one.draws is not None for case in _open(one, count)]
        work = Work(wanted)
        self.bar.total = self.bar.n + len(work) + left
        self.bar.refresh()
        work.make(self.runner, self.bar)
        for one in some:
            one.count = max(one.count, count)
            one.seen = _seen(one)


def _open(one: Tried, count: int) -> list[Case]:
    """The cases that are drawn, where each has so many draws."""
    found = list(dict.fromkeys(case for asked in one.asked for case in asked.cases))
    return [case for case in found if count > 1 or case == Case()]


def _seen(one: Tried) -> Seen:
    """What the draws of one say."""
    draws = one.draws
    assert draws is not None
    drawn = {case: len(found) for case, found in draws.found.items()}
    draws.counts.update({(asked.place, case): drawn[case] for asked in one.asked for case in asked.cases if case in drawn})
    values, life = [], Life()
    for asked in one.asked:
        units = list(draws.named(asked).values()) if all(case in drawn for case in asked.cases) else []
        if units:
            told = judging.judge(asked.rule, *units)
            if asked.requirement.name == _LIFE:
                life = Life(told.value, told.low, told.high, told.worst)
            else:
                values.append(of_draws(asked, told))
    return Seen(values, life)
