"""How many more streams a network takes. `planning` has all answers in one place. Tested, not proved."""

from __future__ import annotations

import functools
import os
from collections.abc import Iterable, Sequence
from concurrent.futures import Executor
from typing import Any, TextIO

import pandas as pd

from ..common import arguments, progress as bars
from ..common.arguments import ArgumentError
from ..model import lines, networks
from ..model.events import Put, Stream
from ..model.receivers import Receivers, meant
from ..model.scenario import Scenario
from ..runs import losses, results as runs
from . import seeds as many, sweep

# A stream asks for its slots that much more often than its packets come, so that its queue drains.
_SLACK = 1.15
_STREAMS_OF_A_NODE = 4
# The longest interval, in seconds, that a stream may ask for.
_INTERVAL_MOST = 120
# By how much the streams of the network may deliver less, as a part of what they put.
_NO_LESS = 0.02


def capacity(
    scenario: Scenario,
    every: float = 60.0,
    *,
    interval: int | None = None,
    sources: Iterable[int | str] | None = None,
    ratio: float = 0.9,
    start_seconds: float | None = None,
    seeds: Iterable[int] = (1,),
    receivers: Receivers = None,
    executor: Executor | None = None,
    results: str | os.PathLike[str] | None = None,
    progress: bool | TextIO = True,
) -> pd.DataFrame:
    """What is left for further streams, and how many more of a kind a run still serves.

    So many further streams are served if in each run, one for each of the `seeds`, this holds from `start_seconds` on, when all should
    have been accepted: as many packets of each further stream are delivered as the part `ratio` of those that it puts, but for one, and
    those of the network's own streams together are no fewer than without the further ones, up to two hundredths. So queues that filled
    before may still drain. Take a network without failures: what is lost for want of a host is not lost for want of room. Losses that
    were drawn before, as of the scenario of a log, are left out. It takes some six runs of the bus a seed, which may be as long as those
    of `results.outcome`.

    Parameters
    ----------
    scenario : Scenario
        The network.
    every : float
        The seconds from packet to packet of a further stream.
    interval : int, optional
        The seconds from slot to slot that it asks for; without it some 15 % sooner than its packets come.
    sources : iterable of int or str, optional
        The nodes that get a new stream, in turn; all but the first host without it. A node has four streams.
    ratio : float
        The part of its packets that has to be delivered.
    start_seconds : float, optional
        From when on it counts, by plan, in seconds from the start of the run; half of the run without it.
    seeds : iterable of int
        The seeds of the losses.
    receivers : optional
        For whom packets are meant, in the forms of `foldcairn.receivers`; without it what the scenario says.
    executor : concurrent.futures.Executor, optional
        What runs them; without it a process for each processor.
    results : path, optional
        A folder that keeps each run, so that a call that was stopped goes on where it was, as in `sweep.sweep`.
    progress : bool or file
        A bar on standard error or on the stream that is given, a line a minute where that is no terminal; False: none.

    Returns
    -------
    pandas.DataFrame
        One row. Its `attrs` are those of `importance`.

        streams, streams_left
            how many streams are requested at a time at most, and how many more a host has room for, of 32
        slots, slots_left
            how many data slots a frame they ask for, and how many more a round has, of 40
        every_seconds, interval
            the kind of further stream
        further
            the largest number of them that is served, found by halving: that more are not served where some are not is taken for granted
        limit
            what forbids one more: "streams of a host", "slots of a round", "streams of nodes", or "the run"

    Raises
    ------
    ArgumentError
        Where a source is there twice or is no node (then `ScenarioError`), the seeds are none, another argument is out of its range, or
        the run is too short.
    ValueError
        Where a run fails.
    """
    scenario, listed = networks.network("scenario", scenario), many.checked(seeds)
    every, ratio = arguments.real("every", every, above=0), arguments.real("ratio", ratio, 0, 1, above=0)
    interval = None if interval is None else arguments.whole("interval", interval, 1, _INTERVAL_MOST)
    asked = _asked_at_most(scenario)
    wanted = max(1, min(_INTERVAL_MOST, int(every / _SLACK))) if interval is None else interval
    places = _places(scenario, sources)
    slot = scenario.frame_seconds / wanted
    left = {
        "streams of a host": lines.STREAMS_OF_A_HOST - asked[0],
        "slots of a round": int((lines.DATA_SLOTS - asked[1]) / slot + 1e-9),
        "streams of nodes": len(places),
    }
    limit = min(left, key=lambda name: left[name])
    most = max(0, left[limit])
    search = _Search(scenario, places, every, wanted, ratio, start_seconds, listed, receivers)
    further = search.largest(most, executor, results, progress)
    row = {
        "streams": asked[0], "streams_left": max(0, lines.STREAMS_OF_A_HOST - asked[0]), "slots": asked[1],
        "slots_left": max(0.0, lines.DATA_SLOTS - asked[1]), "every_seconds": float(every), "interval": wanted, "further": further,
        "limit": limit if further == most else "the run",
    }  # fmt: skip
    table = pd.DataFrame([row])
    table.attrs.update(sweep.origin(listed, {"scenario": scenario}))
    return table


def _asked_at_most(scenario: Scenario) -> tuple[int, float]:
    """How many streams are requested at a time at most, and how many slots a frame they come to at most."""
    from ..model import cautions

    return cautions.most_asked(scenario)


def _places(scenario: Scenario, sources: Iterable[int | str] | None) -> list[tuple[int, int]]:
    """Where further streams may be, as nodes and streams, the nodes in turn."""
    hosts = scenario.hosts.get(0)
    nodes = sorted(scenario.nodes.keys() - {hosts}) if sources is None else [scenario.id(node) for node in _listed(sources)]
    if twice := [node for place, node in enumerate(nodes) if node in nodes[:place]]:
        raise ArgumentError(f"`sources` has node {scenario.name(twice[0])} twice; a node that is named once gets all streams that it has room for")
    taken = {(event.node, event.stream) for event in scenario.script if isinstance(event, (Put, Stream))}
    free = {node: [stream for stream in range(_STREAMS_OF_A_NODE) if (node, stream) not in taken] for node in nodes}
    # Nodes without a stream come first: they are what a planner has in mind.
    order = sorted(nodes, key=lambda node: _STREAMS_OF_A_NODE - len(free[node]))
    return [(node, free[node][turn]) for turn in range(_STREAMS_OF_A_NODE) for node in order if turn < len(free[node])]


def _listed(sources: Any) -> list[int | str]:
    """The sources as a list. Raises `ArgumentError` where they are none."""
    if isinstance(sources, (str, bytes)) or not isinstance(sources, Iterable):
        raise ArgumentError(f"`sources` is {sources!r}, and has to be several nodes; write [{sources!r}] for one")
    listed = list(sources)
    if not listed:
        raise ArgumentError("`sources` has no node; leave it out for all nodes but the first host")
    return listed


class _Search:
    """The largest number of further streams, by halving."""

    def __init__(self, scenario: Scenario, places: list[tuple[int, int]], every: float, interval: int, ratio: float,
                 start_seconds: float | None, seeds: Sequence[int], receivers: Receivers) -> None:  # fmt: skip
        meant(scenario, receivers)
        self.scenario, self.seeds, self.ratio = scenario, tuple(seeds), ratio
        start = scenario.seconds / 2 if start_seconds is None else arguments.real("start_seconds", start_seconds)
        if not 0 <= start <= scenario.seconds - 2 * every:
            raise ArgumentError(
                f"from {start:g} s to the end of a run of {scenario.seconds} s there are not two packets with {every:g} s between them; take a "
                "longer run"
            )
        self.build = functools.partial(_with_further, scenario, places, every, interval)
        self.measure = functools.partial(_counts, receivers, start)
        self.before: dict[int, float] = {}

    def largest(
        self, most: int, executor: Executor | None, results: str | os.PathLike[str] | None, progress: bool | TextIO
    ) -> int:
        """The largest number up to `most` that is served."""
        with bars.bar(1 + most.bit_length(), "numbers of streams", progress) as bar:

            def served(count: int) -> bool:
                cases = [{"further": count, "seed": seed} for seed in self.seeds]
                table = sweep.sweep(
                    self.build, cases, self.measure, executor=executor, results=results, progress=False,
                    name=f"capacity {self.measure.args!r}",
                )  # fmt: skip
                bar.update()
                if (table["status"] != "ok").any():
                    first = table[table["status"] != "ok"].iloc[0]
                    raise ValueError(f"the run with {count} further streams failed: {first['status']}: {first['message']}")
                return self._is_served(table, count)

            served(0)
            low, high = 0, most
            while low < high:
                middle = (low + high + 1) // 2
                low, high = (middle, high) if served(middle) else (low, middle - 1)
            return low

    def _is_served(self, table: pd.DataFrame, count: int) -> bool:
        new = [node * _STREAMS_OF_A_NODE + stream for node, stream in self.build.args[1][:count]]
        is_new = (table["source"] * _STREAMS_OF_A_NODE + table["stream"]).isin(new)
        old = table[~is_new].groupby("seed")[["put", "delivered"]].sum()
        shares = (old["delivered"] / old["put"].where(old["put"] > 0)).fillna(1.0).to_dict()
        if not count:
            self.before = shares
        kept = all(share >= self.before.get(seed, 1.0) - _NO_LESS for seed, share in shares.items())
        further = table[is_new & (table["put"] > 0)]
        return kept and bool((further["delivered"] >= self.ratio * further["put"] - further["one"]).all())


def _with_further(
    scenario: Scenario, places: list[tuple[int, int]], every: float, interval: int, further: int, seed: int
) -> losses.Outcome:
    """The scenario with so many further streams, of which the report is asked; in the process of a worker."""
    made = scenario.copy()
    for number, (node, stream) in enumerate(places[:further]):
        start = every * number / max(1, further)
        made.stream(node, interval, stream=stream, seconds=start).every(every, node, stream=stream, start=start)
    return losses.Outcome(made, seed)


def _counts(receivers: Receivers, start: float, report: runs.Report) -> pd.DataFrame:
    """How many packets of each stream are put from `start` on, and delivered from then on, and what one packet counts."""
    from ..answers import delivery, fates

    whom = _for_all(receivers if receivers is not None else report.scenario.receivers)
    table = delivery.delivery_ratio(report, receivers=whom, start_seconds=start)[["source", "stream", "put"]]
    came = delivery.latencies(report, receivers=whom)
    came = came[came["planned_delivered_seconds"] >= start].groupby(["source", "stream"]).size().rename("delivered")
    packets = fates.packets(report)
    packets = packets[packets["put_seconds"] >= start].groupby(["source", "stream"]).size().rename("packets")
    table = table.join(came, on=["source", "stream"]).join(packets, on=["source", "stream"]).fillna(0)
    table["one"] = (table["put"] / table["packets"].where(table["packets"] > 0)).fillna(0.0)
    # A network without streams has a row too.
    none = pd.DataFrame({"source": [0], "stream": [0], "put": [0], "delivered": [0], "one": [0.0]})
    return pd.concat([none, table[list(none)]], ignore_index=True)


def _for_all(receivers: Receivers) -> Receivers:
    """The receivers, where streams that a mapping does not name are meant for the host that serves."""
    return {"others": "hosts", **receivers} if isinstance(receivers, dict) else receivers
