"""The draws of a plan's requirements: made in parallel, kept in a folder, and added until each requirement is decided. Tested, not proved."""

from __future__ import annotations

import functools
import os
from collections.abc import Callable, Iterator, Mapping, Sequence
from concurrent.futures import Executor
from dataclasses import dataclass, field, replace
from typing import TYPE_CHECKING, Any, TextIO

from ..common import progress as bars
from ..many import executors
from ..many.sweep import SweepStopped
from ..plan.model import Requirement
from ..runs import kept, program
from . import cases, judging, looks, measuring
from .cases import Case
from .judging import Rule, Unit
from .measuring import Task

if TYPE_CHECKING:
    from ..plan.plan import Plan

# How many draws are a piece of work: so few that those of a look keep all processors busy.
_PIECE = 2
# What of a plan draws depend on.
_TABLES = ("nodes", "links", "streams", "hosts", "events", "losses", "floor", "battery")


@dataclass(frozen=True)
class Measured:
    """What is measured of draws: a `word` for it, and the call that measures draws of a task by their seeds: of each a list, which begins with
    the values of the requirements."""

    word: str
    call: Callable[[Task, Sequence[int]], list[Any]]


def _measure(task: Task, seeds: Sequence[int]) -> list[Any]:
    """What requirements measure of draws, by the call that `measuring` has at the time."""
    return measuring.measure(task, seeds)


MEASURED = Measured("verify", _measure)


@dataclass(frozen=True, eq=False)
class Asked:
    """A requirement to be judged: its `place` in the plan, its `rule`, and the `cases` in which it has to hold. Where `each` case is asked for,
    draws are added until all are decided; else one in which it does not hold is enough."""

    place: int
    requirement: Requirement
    rule: Rule
    cases: list[Case]
    each: bool = False


@dataclass(eq=False)
class Draws:
    """The draws of a plan in each case, in the order of seeds from `first` on: what was measured of each requirement, and by how many of them each
    is judged, by its place and the case. `store` keeps them, by the word for what is measured."""

    plan: Plan
    asked: Sequence[Asked]
    store: kept.Store
    first: int = 1
    measured: Measured = MEASURED
    found: dict[Case, list[list[Any]]] = field(default_factory=dict)
    counts: dict[tuple[int, Case], int] = field(default_factory=dict)

    @functools.cached_property
    def tasks(self) -> Mapping[Case, Task]:
        """What is measured in each case."""
        places: dict[Case, list[int]] = {}
        for one in self.asked:
            for case in one.cases:
                places.setdefault(case, []).append(one.place)
        whole = [repr(replace(self.plan.settings, seeds=1, name="", site="")), *(repr(getattr(self.plan, name)) for name in _TABLES)]
        base = kept.digest(whole)
        return {
            case: Task(
                self.plan, case, tuple(there),
                kept.digest(self.measured.word, kept.FORM, whole, repr(case), self._measured(there), program.versions()), base,
            ) for case, there in places.items()
        }  # fmt: skip

    def _measured(self, places: Sequence[int]) -> list[str]:
        """What the draws of a case depend on of these requirements."""
        return [repr(_measured(self.plan.requirements[place])) for place in places]

    def by_case(self, one: Asked) -> dict[str, list[Unit]]:
        """What was measured of the units of a requirement, by what has failed: of each the values of all draws."""
        return {case.failed: self._units(one, case) for case in one.cases}

    def named(self, one: Asked) -> dict[Case, list[Unit]]:
        """The same by cases with some unit; where there are several the name of a unit says which."""
        several = cases.is_of_several(one.requirement)
        found = {case: self._units(one, case) for case in one.cases}
        return {case: [replace(unit, name=_called(unit.name, case.failed)) if several else unit for unit in units] for case, units in found.items() if units}

    def case_of(self, one: Asked, called: str) -> tuple[Case, str]:
        """The case and the name of a unit of `units`."""
        several = cases.is_of_several(one.requirement)
        for case in one.cases:
            for unit in self._units(one, case):
                if called == (_called(unit.name, case.failed) if several else unit.name):
                    return case, unit.name
        raise KeyError(called)

    def _units(self, one: Asked, case: Case) -> list[Unit]:
        place = self.tasks[case].places.index(one.place)
        # A case may have more draws, for another requirement.
        drawn = [draw[place] for draw in self.found[case][: self.counts[one.place, case]]]
        names = dict.fromkeys(name for values in drawn for name in values)
        rows = {name: [values.get(name, (None, 0)) for values in drawn] for name in names}
        return [Unit(name, [value for value, _ in row], [count for _, count in row]) for name, row in rows.items()]

    def lacking(self, case: Case, count: int, there: frozenset[str]) -> tuple[dict[int, list[Any]], list[list[int]]]:
        """What is kept of the draws that a case needs to have so many, by their seeds, and the seeds of the others, in pieces; the keys of what is
        kept are `there`."""
        seeds = range(self.first + len(self.found.setdefault(case, [])), self.first + count)
        taken = dict(self._taken(case, seeds, there))
        left = [seed for seed in seeds if seed not in taken]
        return taken, [left[place : place + _PIECE] for place in range(0, len(left), _PIECE)]

    def _taken(self, case: Case, seeds: Sequence[int], there: frozenset[str]) -> Iterator[tuple[int, list[Any]]]:
        """The draws that are kept."""
        for seed in seeds:
            key = f"{self.tasks[case].key}-{seed}" if there else ""
            if key in there and (one := self.store.take(key)) is not None:
                yield seed, one


def _called(name: str, failed: str) -> str:
    """A unit where one of several nodes fails."""
    return f"{name} without {failed}"


def _measured(requirement: Requirement) -> Requirement:
    """A requirement without what is judged only."""
    plain = replace(requirement, name="", part=None, confidence=0.95, where="")
    return replace(plain, share=requirement.share and 1.0, ratio=requirement.ratio and 1.0, years=requirement.years and 1.0, outage=requirement.outage and 1.0)


# Draws, a case of theirs, and how many it is to have.
Wanted = tuple[Draws, Case, int]


class Work:
    """The draws that several plans and cases need to have as many as is wanted of each, made all at a time."""

    def __init__(self, wanted: Sequence[Wanted]) -> None:
        there: dict[int, frozenset[str]] = {}
        self.wanted = wanted
        self._new: list[dict[int, list[Any]]] = []
        self._pieces: list[tuple[int, list[int]]] = []
        for place, (draws, case, count) in enumerate(wanted):
            if id(draws.store) not in there:
                there[id(draws.store)] = draws.store.keys()
            taken, pieces = draws.lacking(case, count, there[id(draws.store)])
            self._new.append(taken)
            self._pieces += [(place, piece) for piece in pieces]

    def __len__(self) -> int:
        """How many draws are to be made; others are kept."""
        return sum(len(piece) for _, piece in self._pieces)

    def make(self, runner: Executor, bar: Any) -> None:
        """Makes them, keeps each, and puts them to the others. Raises `SweepStopped` where the executor breaks down, and what a draw raises."""
        ahead: list[tuple[tuple[int, list[int]], Callable[[], list[Any]]]] = []
        # Seed by seed, so that what a worker draws of a seed serves several cases.
        for place, piece in sorted(self._pieces, key=lambda one: one[1]):
            draws, case, _ = self.wanted[place]
            ahead.append(((place, piece), functools.partial(draws.measured.call, draws.tasks[case], piece)))
        try:
            for (place, piece), told in executors.done(runner, ahead[::-1]):
                draws, case, _ = self.wanted[place]
                for seed, one in zip(piece, told, strict=True):
                    draws.store.keep(f"{draws.tasks[case].key}-{seed}", one)
                    self._new[place][seed] = one
                bar.update(len(piece))
        except executors.BrokeDown as error:
            raise SweepStopped(f"the executor broke down: {error}") from error
        for (draws, case, _), new in zip(self.wanted, self._new):
            draws.found[case] += [new[seed] for seed in sorted(new)]


def draw(
    plan: Plan, asked: Sequence[Asked], most: int, *, runner: Executor, bar: Any, store: kept.Store, give_up: bool = False,
    measured: Measured = MEASURED,
) -> Draws:  # fmt: skip
    """Adds draws, look by look, until each requirement is decided or has `most` of them; with `give_up` until one is not met. Raises
    `SweepStopped` where the executor breaks down, and what a draw raises."""
    draws = Draws(plan, asked, store, measured=measured)
    still = [(one, list(one.cases)) for one in asked]
    for count in looks.looks(most):
        wanted = dict.fromkeys(case for _, left in still for case in left)
        if not wanted:
            break
        work = Work([(draws, case, count) for case in wanted])
        bar.total = max(bar.total, bar.n + len(work))
        bar.refresh()
        work.make(runner, bar)
        draws.counts.update({(one.place, case): count for one, left in still for case in left})
        if give_up and any(judging.NOT_MET in _told(one, draws) for one, _ in still):
            break
        still = [(one, left) for one, _ in still if (left := _undecided(one, draws))]
    return draws


def draw_alone(
    plan: Plan, asked: Sequence[Asked], most: int, *, executor: Any, jobs: int | None, folder: str | os.PathLike[str] | None, progress: bool | TextIO,
    measured: Measured = MEASURED,
) -> Draws:  # fmt: skip
    """What `draw` gives, with an executor, a bar and a folder of its own."""
    with runner_of(executor, jobs) as runner, bars.bar(0, "draws", progress) as bar:
        return draw(plan, asked, most, runner=runner, bar=bar, store=kept.Store(folder), measured=measured)


def _told(one: Asked, draws: Draws) -> list[str]:
    """The verdict of each case of a requirement that has some unit."""
    found = draws.named(one)
    return judging.verdicts_of(one.rule, list(found.values())) if found else []


def _undecided(one: Asked, draws: Draws) -> list[Case]:
    """The cases of a requirement that need more draws; none where it is decided."""
    told = _told(one, draws)
    is_done = judging.NOT_MET in told and not one.each
    return [] if is_done else [case for case, verdict in zip(draws.named(one), told) if verdict == judging.NOT_DECIDED]


def runner_of(executor: Any, jobs: int | None) -> Any:
    """The executor that is given, or so many processes, or one for each processor, for `with`."""
    return executors.running(executor) if executor is not None else executors.processes(jobs)
