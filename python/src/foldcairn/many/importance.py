"""Which links and nodes matter most: each is cut in turn, over several seeds. `planning` has all answers in one place.

Tested, not proved.
"""

from __future__ import annotations

import functools
import os
from collections.abc import Iterable, Iterator, Sequence
from concurrent.futures import Executor
from typing import Any, TextIO

import numpy as np
import pandas as pd
from numpy.typing import NDArray

from ..common import arguments
from ..common.arguments import ArgumentError
from ..model import networks
from ..model.events import Put
from ..model.receivers import Receivers, meant
from ..model.scenario import Scenario
from ..runs import program
from . import intervals, seeds as many, sweep, tallies

Cut = tuple[int, int] | int


def importance(
    scenario: Scenario,
    what: str = "links",
    *,
    candidates: Iterable[Cut] | None = None,
    seeds: Iterable[int] = (1, 2, 3, 4),
    receivers: Receivers = None,
    executor: Executor | None = None,
    results: str | os.PathLike[str] | None = None,
    progress: bool | TextIO = True,
) -> pd.DataFrame:
    """How much less is delivered without each link or node.

    Each candidate is cut for the whole run, once for each seed. The losses are drawn anew for each cut, as `results.outcome` does with
    the reception ratios (`prr`, `ratios`) of the scenario, whose run may be as long as there: losses that were drawn for one network and
    kept for another rank links wrongly. Losses that were drawn before, as of the scenario of a log, are left out. A node is cut by
    cutting all its links, and is then no source and no receiver, neither with the cut nor without it.

    A network without ratios loses nothing by chance, so its changes are exact: then p is 0 where a cut changes anything, and 1 where it
    does not. It takes a run of the bus for each candidate and seed.

    Parameters
    ----------
    scenario : Scenario
        The network.
    what : {"links", "nodes"}
        What is cut: both directions of a pair, or a node.
    candidates : iterable, optional
        A pair of ids that a link joins, or an id; without it all pairs of linked nodes, or all nodes. One that is there twice is cut
        once.
    seeds : iterable of int
        The seeds of the losses.
    receivers : optional
        For whom packets are meant, in the forms of `foldcairn.receivers`; without it what the scenario says.
    executor : concurrent.futures.Executor, optional
        What runs them; without it a process for each processor.
    results : path, optional
        A folder that keeps each run, so that a call that was stopped goes on where it was, as in `sweep.sweep`.
    progress : bool or file
        A bar on standard error or on the stream that is given, a line a minute where that is no terminal; False: none.

    Returns
    -------
    pandas.DataFrame
        A row for each cut, the most harmful first. The measure is the part, 0 to 1, of what was put that was delivered, over all pairs of
        a packet and a node that it is meant for. The table's `attrs` say where it comes from (`sweep.origin`).

        one, other, node
            what is cut
        packets
            of how many packets `ratio` and `ratio_cut` are, of all seeds together
        ratio
            the measure without the cut, the mean over the seeds
        ratio_cut
            the measure with it, the mean over the seeds
        change
            `ratio_cut` less `ratio`; below 0 the cut does harm
        spread
            the sample standard deviation over the seeds of the change; missing for one seed
        least, greatest
            the least and the greatest change of any seed
        error
            the standard error of `change`: `spread` over the square root of the number of seeds
        low, high
            the interval that has the change of all seeds with a confidence of 95 %, by Student's distribution, which for few seeds is
            much wider than two errors; for this cut alone. Missing where the changes of all seeds are the same, which says nothing of how
            far others lie from it
        p
            how likely a change so far from 0 would be of one of all these cuts if none changed anything (Holm's method, for each change
            as `intervals.chance` has it): a cut of p below 0.05 matters. Missing where the seeds are too few to tell: those of all the
            same change have to be six

    Raises
    ------
    ArgumentError
        Where `what` is another word, a candidate is no link or no node, the seeds are none, or nothing is put.
    ValueError
        Where a run fails.
    """
    scenario, listed = networks.network("scenario", scenario), many.checked(seeds)
    arguments.one_of("what", what, ("links", "nodes"))
    if not any(isinstance(line, Put) for line in scenario.script):
        raise ArgumentError("nothing is put in this scenario, so nothing can be delivered")
    whom = meant(scenario, receivers)
    cuts = _candidates(scenario, what, candidates)
    nodes = [cut for cut in cuts if isinstance(cut, int)]
    asked = [_question(scenario, receivers, None, [None, *nodes])]
    asked += [_question(scenario, receivers, cut, [cut if isinstance(cut, int) else None]) for cut in cuts]
    whole, *told = many.answers(asked, listed, executor=executor, results=results, progress=progress)
    rows = []
    for cut, ratios in zip(cuts, told):
        place = 1 + nodes.index(cut) if isinstance(cut, int) else 0
        before, after = np.array(whole, dtype=np.float64)[:, place], np.array(ratios, dtype=np.float64)[:, 0]
        packets = len(listed) * tallies.packets_meant(scenario, whom, cut if isinstance(cut, int) else None)
        rows.append((*(cut if isinstance(cut, tuple) else (cut,)), packets, before.mean(), after.mean(), *_summary(after - before, scenario.is_to_be_drawn)))
    names = ["one", "other"] if what == "links" else ["node"]
    columns = [*names, "packets", "ratio", "ratio_cut", "change", "spread", "least", "greatest", "error", "low", "high", "p"]
    table = pd.DataFrame(rows, columns=columns)
    table["p"] = intervals.adjusted(table["p"])
    table.attrs.update(sweep.origin(listed, {"scenario": scenario}))
    return table.sort_values("change", ignore_index=True)


def _summary(changes: NDArray[np.float64], drawn: bool) -> tuple[float, ...]:
    """The numbers of a row, of changes by losses that were drawn, or of exact ones."""
    spread = float(changes.std(ddof=1)) if len(changes) > 1 else float("nan")
    mean, low, high = intervals.of_mean(changes)
    chance = intervals.chance(changes)
    if len(changes) > 1 and np.ptp(changes) == 0:
        low, high, chance = (float("nan"), float("nan"), chance) if drawn else (low, high, float(mean == 0))
    error = spread / len(changes) ** 0.5
    return mean, spread, float(changes.min()), float(changes.max()), error, low, high, chance


def _candidates(scenario: Scenario, what: str, candidates: Iterable[Cut] | None) -> list[Cut]:
    if candidates is not None:
        # Each once, a pair in either order, as it comes first.
        return list({frozenset(cut) if isinstance(cut, tuple) else cut: cut for cut in reversed(list(_given(scenario, what, candidates)))}.values())[::-1]
    if what == "nodes":
        return sorted(scenario.nodes)
    return sorted({(min(link), max(link)) for link in scenario.links})


def _given(scenario: Scenario, what: str, candidates: Iterable[Any]) -> Iterator[Cut]:
    """The candidates that are given. Raises `ArgumentError` where one is none."""
    for cut in candidates:
        if what == "nodes":
            yield scenario.id(cut)
        elif isinstance(cut, (tuple, list)) and len(cut) == 2:
            yield _pair(scenario, scenario.id(cut[0]), scenario.id(cut[1]))
        else:
            raise ArgumentError(f"`candidates` has {cut!r}, and for links has to have pairs of nodes, as (1, 2)")


def _pair(scenario: Scenario, one: int, other: int) -> tuple[int, int]:
    """A pair of nodes that a link joins."""
    if (one, other) in scenario.links or (other, one) in scenario.links:
        return one, other
    near = {node: sorted({link[link[0] == node] for link in scenario.links if node in link}) for node in (one, other)}
    told = " and ".join(
        f"node {scenario.name(node)} with {', '.join(map(scenario.name, joined[:4]))}{', ..' * (len(joined) > 4)}" if joined else
        f"node {scenario.name(node)} with none" for node, joined in near.items()
    )  # fmt: skip
    raise ArgumentError(f"`candidates` has {scenario.name(one)}-{scenario.name(other)}, and no link joins these; links join {told}")


def _word(cut: Cut | None) -> str:
    """A cut in words."""
    return "a cut" if cut is None else "-".join(map(str, cut)) if isinstance(cut, tuple) else str(cut)


def _question(scenario: Scenario, receivers: Receivers, cut: Cut | None, without: Sequence[int | None]) -> many.Question:
    """What is asked of each seed with a cut: the measure, where each of some nodes (or none) is neither a source nor a receiver."""
    about = f"importance {receivers!r} {without}"
    return many.Question(_without(scenario, cut), functools.partial(_ratios, receivers, without, _word(cut)), about)


def _without(scenario: Scenario, cut: Cut | None) -> Scenario:
    """The scenario with this cut, whose losses are to be drawn."""
    changed = scenario.copy()
    if isinstance(cut, tuple):
        return changed.unlink(*cut)
    for link in sorted(scenario.links) if cut is not None else []:
        if cut in link:
            changed.unlink(*link)
    return changed


def _ratios(
    receivers: Receivers, without: Sequence[int | None], cut: str, scenario: Scenario, seeds: Sequence[int]
) -> list[list[float]]:  # fmt: skip
    """For each seed the measure, without each of some nodes; in the process of a worker."""
    try:
        came = tallies.arrivals(scenario, receivers, seeds)
    except program.ProgramError as error:
        which = f"with seeds {seeds[0]} to {seeds[-1]} failed: {type(error).__name__}: {error}"
        raise ValueError(f"the run without {cut} {which}") from error
    found: list[list[float]] = np.stack([came.ratios(node) for node in without], axis=1).tolist()
    return found
