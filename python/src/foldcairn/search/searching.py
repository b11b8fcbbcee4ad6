"""The search: which settings of a plan meet its requirements at the longest life. `planning` has all answers in one place.

Tested, not proved.
"""

from __future__ import annotations

import os
from collections.abc import Iterator, Mapping, Sequence
from dataclasses import replace
from typing import Any, TextIO

from ..common import arguments, progress as bars
from ..common.arguments import ArgumentError
from ..plan.demands import AS_PLANNED
from ..plan.plan import Plan
from ..requirements import looks, measuring, running, verifying
from ..requirements.judging import MET, NOT_DECIDED, NOT_MET
from ..runs import kept, program
from . import found, halving, proposing, space as spaces
from .found import Found
from .halving import Round
from .results import Seen, of_verdicts
from .space import Setting, Space
from .trying import Tried, Trials

# So many settings that can't be decided are verified; more of them would tell no more.
_UNDECIDED_MOST = 3
_SETTINGS_MOST = 10_000


def search(
    plan: Plan,
    space: Mapping[str, Any] | None = None,
    *,
    settings: int | None = None,
    seeds: int | None = None,
    jobs: int | None = None,
    folder: str | os.PathLike[str] | None = None,
    executor: Any = None,
    progress: bool | TextIO = True,
) -> Found:
    """Which settings of a plan meet all its requirements at the longest battery life.

    What is not searched stays as the plan has it (docs/SEARCH.md):

        planning.search(plan, {"profile": [1, 2], "sends": [1, 2, 3], "interval": [0.4, 0.8], "backups": ["B-101", "R-202"]})

    Settings that arithmetic excludes are never run. The others get draws by successive halving: after 1, 2, 4 and 8 draws fewer go on, and where
    there are few they begin with more. Those that remain are verified from the longest life on, until one meets all, as `planning.verdicts` does
    it and by its seeds, which had no part in choosing. Where there are more than `settings`, optuna proposes which are tried.

    Parameters
    ----------
    plan : Plan
        The plan.
    space : mapping, optional
        Values by the keys of `[search]`, in place of the plan's: profile, sends, contend, interval (parts of the period), keep_alive, hosts,
        backups, relays, relays_most and settings.
    settings : int, optional
        How many settings are tried at most, 1 to 10,000; those of `[search]` without it.
    seeds : int, optional
        How many draws there may be of a setting that is verified, 1 to 10,000; those of the plan without it.
    jobs : int, optional
        How many draws are made at a time; a process for each processor without it.
    folder : path, optional
        Keeps each draw in a file as soon as it is there: what was stopped goes on from there.
    executor : optional
        An executor of `concurrent.futures`, or a client of `distributed`, in place of processes.
    progress : bool or file
        A bar on standard error or on the stream that is given, a line a minute where that is no terminal; False: none.

    Returns
    -------
    Found
        The table of settings, the best, its verdicts, and what limits it.

    Raises
    ------
    ArgumentError
        Where it is no plan, it has no requirement, or there is nothing to search.
    PlanError
        Where the space names what is not in the plan.
    ModuleNotFoundError
        Where optuna is needed and missing.
    sweep.SweepStopped
        Where the executor breaks down.
    program.ProgramError
        As `program.execute` does.
    """
    if not isinstance(plan, Plan):
        raise ArgumentError(f"`plan` is {arguments.kind(plan)}, and has to be a Plan; write foldcairn.plan.Plan.read(..) of a plan file")
    if not plan.requirements:
        raise ArgumentError(f"{plan.path or 'the plan'} has no [[requirement]], so each setting meets all of them")
    wide = spaces.of(plan, space)
    tries = wide.search.settings if settings is None else arguments.whole("settings", settings, 1, _SETTINGS_MOST)
    most = plan.settings.seeds if seeds is None else arguments.whole("seeds", seeds, 1, verifying.SEEDS_MOST)
    jobs = None if jobs is None else arguments.whole("jobs", jobs, 1)
    with running.runner_of(executor, jobs) as runner, bars.bar(0, "draws", progress) as bar:
        trials = Trials(plan, _own_networks(plan), halving.LAST_DRAWS, runner, bar, kept.Store(folder))
        _go_on(trials, _try(trials, Space.of(wide), tries))
        _verify(trials, most)
        attributes: dict[str, Any] = {**program.versions(), "seeds": list(range(1, most + 1))}
        return found.of(plan, trials.tried, attributes)


def _own_networks(plan: Plan) -> bool:
    """Whether each draw has a network of its own; the same is taken for all settings, and verdicts look anew."""
    with measuring.quiet():
        drawer = replace(plan, events=[], search=replace(plan.search, relays=None)).drawer()
        return verifying.has_own_networks([drawer.network(seed) for seed in range(1, 1 + verifying.COMPARED)])


def _try(trials: Trials, space: Space, most: int) -> list[Round]:
    """The first round: of all settings, or where there are too many of those that are proposed. Gives the later rounds."""
    several = list(space.all()) if space.combinations <= spaces.COUNTED_MOST else []
    if space.combinations > spaces.COUNTED_MOST or len(several) > most:
        return _propose(trials, space, most)
    if not several:
        raise ArgumentError("the search has no setting: each node that may be a backup is the host; name other `hosts` or `backups`")
    possible = [one for one in trials.add(several) if one.is_possible]
    first, *later = halving.rounds(len(possible))
    trials.draw(possible, first.draws, _draws(later, trials.plan))
    return later


def _propose(trials: Trials, space: Space, most: int) -> list[Round]:
    """The first round of so many settings that are proposed by what those before them gave."""
    first, *later = halving.rounds(most)

    def look(settings: Sequence[Setting]) -> list[Seen | None]:
        new = trials.add(settings)
        left = first.draws * max(0, most - len(trials.tried)) + _draws(later, trials.plan)
        trials.draw([one for one in new if one.is_possible], first.draws, left)
        return [one.seen if one.is_possible else None for one in new]

    proposing.propose(space, most, look)
    return later


def _draws(rounds: Sequence[Round], plan: Plan) -> int:
    """How many draws some rounds have at most, and the verdicts after them at least."""
    cases = 1 + len({(one.when, one.at) for one in plan.requirements if one.when != AS_PLANNED})
    return cases * (sum(one.settings * one.draws // 2 for one in rounds) + 4 * looks.FIRST)


def _go_on(trials: Trials, rounds: Sequence[Round]) -> None:
    """The later rounds."""
    alive = [one for one in trials.tried if one.is_possible]
    for place, one in enumerate(rounds):
        alive = [alive[place] for place in halving.going_on([other.seen for other in alive], one.settings)]
        trials.draw(alive, one.draws, _draws(rounds[place + 1 :], trials.plan))


def _verify(trials: Trials, most: int) -> None:
    """Verifies those that are left, from the longest life on, and then whatever looks good, until one meets all."""
    undecided = 0
    for one in _candidates(trials):
        with measuring.quiet():
            one.table = verifying.verified(one.plan, most, trials.runner, trials.bar, trials.store, is_search=True).table
        rules = [running.Asked(place, required, verifying.rule_of(required, most, False), []) for place, required in enumerate(one.plan.requirements)]
        one.seen = Seen(of_verdicts(rules, one.table), one.seen.life)
        undecided += one.seen.verdict == NOT_DECIDED
        if one.seen.verdict == MET or undecided == _UNDECIDED_MOST:
            return


def _candidates(trials: Trials) -> Iterator[Tried]:
    """Those that may meet all: of the last round by their lives, then the others that look good."""
    possible = [one for one in trials.tried if one.is_possible and one.seen.verdict != NOT_MET]
    ranked = [possible[place] for place in halving.order([one.seen for one in possible])]
    alive = [one for one in ranked if one.count == halving.LAST_DRAWS]
    yield from sorted(alive, key=lambda one: -one.seen.life.years)
    yield from (one for one in ranked if one not in alive and one.seen.is_good)
