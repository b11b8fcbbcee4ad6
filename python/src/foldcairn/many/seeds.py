"""Many seeds of one network or of several: dealt out in pieces to an executor, kept seed by seed, and put together again.

What the program's `sample` writes for a seed depends on the network and the seed alone, so it is the same however the seeds are dealt
out. Tested, not proved.
"""

from __future__ import annotations

import functools
import os
from collections.abc import Callable, Iterable, Iterator, Sequence
from dataclasses import dataclass
from typing import Any, TextIO

from ..common import arguments, progress as bars
from ..model import lines, networks
from ..model.scenario import Scenario
from ..runs import kept, program
from . import executors
from .sweep import SweepStopped

# What is measured of a network with some seeds: for each seed in turn numbers, texts, lists and mappings of such.
Measure = Callable[[Scenario, Sequence[int]], "list[Any]"]

# How many seeds are a piece of work at most: what a stop loses, and what it costs to start the program, are both little then.
_PIECE = 8


@dataclass(frozen=True)
class Question:
    """What is asked of each seed of a network: `measure` is called in the process of a worker, and `about` names it, with all that it
    depends on beside the network and the program. Losses that were drawn before are left out."""

    scenario: Scenario
    measure: Measure
    about: str

    def __post_init__(self) -> None:
        object.__setattr__(self, "scenario", networks.network("scenario", self.scenario))

    def key(self) -> str:
        """A name for the question by all that its answers depend on but the seed."""
        return kept.digest(self.about, kept.content(self.scenario), program.versions())


def checked(seeds: Any) -> list[int]:
    """The seeds as whole numbers, of a list, a range, an array or a generator. Raises `ArgumentError` where there is none, one is out of
    its range or comes twice, or there are more than `lines.SEEDS_MOST`, before all are listed."""
    if arguments.index(seeds) is not None:
        raise arguments.ArgumentError(f"`seeds` is {seeds!r}, and has to be several; write range(1, {seeds + 1}) for so many, or [{seeds}] for one")
    if isinstance(seeds, (str, bytes)) or not isinstance(seeds, Iterable):
        raise arguments.ArgumentError(f"`seeds` is {seeds!r}, and has to be several whole numbers, as range(1, 101)")
    listed: list[int] = []
    known: set[int] = set()
    for seed in seeds:
        listed.append(arguments.whole("seeds", seed, 0, lines.SEED_MOST))
        if listed[-1] in known:
            raise arguments.ArgumentError(f"`seeds` has the seed {listed[-1]} twice")
        known.add(listed[-1])
        if len(listed) > lines.SEEDS_MOST:
            raise arguments.ArgumentError(f"`seeds` has more than {lines.SEEDS_MOST:,} seeds, and so many at most are taken")
    if not listed:
        raise arguments.ArgumentError("`seeds` has no seed; write range(1, 101) for a hundred")
    return listed


def answers(
    questions: Sequence[Question], seeds: Iterable[int], *, executor: Any = None, results: str | os.PathLike[str] | None = None,
    progress: bool | TextIO = True,
) -> list[list[Any]]:  # fmt: skip
    """For each question the answers of all seeds, in the order of the seeds.

    `executor`, `results` and `progress` are those of `sweep.sweep`; in the folder of `results` each seed has a file. Raises
    `ArgumentError` where the seeds are none, `SweepStopped` where the executor breaks down, and what a measure raises. Stopped by
    Ctrl-C it loses nothing of what is in `results`: the next call makes the rest, also of other seeds.
    """
    listed, store = checked(seeds), kept.Store(results)
    keys = [question.key() if results is not None else "" for question in questions]
    found = [_kept(store, key, listed) for key in keys]
    ahead: list[tuple[tuple[int, list[int]], Callable[[], list[Any]]]] = [
        ((place, piece), functools.partial(question.measure, question.scenario, piece))
        for place, question in enumerate(questions) for piece in _pieces(seed for seed in listed if seed not in found[place])
    ]  # fmt: skip
    total, there = len(questions) * len(listed), sum(map(len, found))
    with executors.running(executor) as runner, bars.bar(total, "seeds" if len(questions) == 1 else "runs", progress, there) as bar:
        try:
            for (place, piece), told in executors.done(runner, ahead[::-1]):
                for seed, one in zip(piece, told, strict=True):
                    store.keep(f"{keys[place]}-{seed}", one)
                    found[place][seed] = one
                bar.update(len(piece))
        except executors.BrokeDown as error:
            raise SweepStopped(f"the executor broke down, with {total - sum(map(len, found))} runs still to make: {error}") from error
    return [[ours[seed] for seed in listed] for ours in found]


def _kept(store: kept.Store, key: str, seeds: Sequence[int]) -> dict[int, Any]:
    """The answers that are kept, by their seeds."""
    there = store.keys()
    told = {seed: store.take(f"{key}-{seed}") for seed in seeds if f"{key}-{seed}" in there}
    return {seed: one for seed, one in told.items() if one is not None}


def _pieces(seeds: Iterable[int]) -> Iterator[list[int]]:
    """The seeds in pieces of some that follow each other, in ascending order: the program takes a first seed and a number of them."""
    piece: list[int] = []
    for seed in sorted(seeds):
        if piece and (seed != piece[-1] + 1 or len(piece) == _PIECE):
            yield piece
            piece = []
        piece.append(seed)
    if piece:
        yield piece
