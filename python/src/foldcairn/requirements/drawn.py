"""What draws of a plan show beside its verdicts: how late packets come, what becomes of each stream, and how long batteries last. Tested, not
proved."""

from __future__ import annotations

import functools
from collections.abc import Callable, Mapping, Sequence
from dataclasses import dataclass, replace
from typing import TYPE_CHECKING, Any, TextIO

import numpy as np
import pandas as pd
from numpy.typing import NDArray

from ..answers.arrivals import Came
from ..common import progress as bars
from ..many import executors
from ..many.sweep import SweepStopped
from ..model.receivers import ALL, HOSTS
from ..model.scenario import Scenario
from ..plan.model import Stream
from ..runs.numbers import Cost, Numbers
from . import counting, measuring, membership

if TYPE_CHECKING:
    from ..plan.plan import Plan

# For the sums of floats.
_LITTLE = 1e-9
# A packet that has no deadline and is put so many frames before the end may still wait then.
_WAITING_FRAMES = 12
# How many draws a worker makes at a time: what they have in common is made once.
_PIECE = 5


@dataclass(frozen=True, eq=False)
class Drawn:
    """What draws show. A packet counts as for requirements (docs/REQUIREMENTS.md), with the deadline of its stream, and times are by plan.

    seeds       the draws
    latencies   stream, seed, seconds: a row for each packet and each receiver that it came to, with how long that took
    streams     stream, seed, packets, in_time, arrived: of each draw how many packets were due, the part of them that came by the deadline
                (missing where the stream has none), and the part that came at all
    batteries   node, seed, years: of each draw how long the battery of a node lasts, of those that have one
    packets     stream, put_seconds, seconds: the packets of the first draw that were due, with how long each took to its last receiver; missing
                where it did not come to all
    """

    seeds: tuple[int, ...]
    latencies: pd.DataFrame
    streams: pd.DataFrame
    batteries: pd.DataFrame
    packets: pd.DataFrame


def drawn(plan: Plan, seeds: Sequence[int], *, executor: Any = None, jobs: int | None = None, progress: bool | TextIO = False) -> Drawn:
    """What these draws of a plan show, as planned; `executor`, `jobs` and `progress` are as in `verdicts`. Raises what that raises."""
    bare = replace(plan, requirements=[])
    found: dict[int, dict[str, pd.DataFrame]] = {}
    pieces = [list(seeds[place : place + _PIECE]) for place in range(0, len(seeds), _PIECE)]
    ahead: list[tuple[int, Callable[[], Any]]] = [(len(piece), functools.partial(_of_seeds, bare, piece, seeds[0])) for piece in pieces]
    runner = executors.running(executor) if executor is not None else executors.processes(jobs)
    with runner as pool, bars.bar(len(seeds), "draws", progress) as bar:
        try:
            for count, told in executors.done(pool, ahead[::-1]):
                found |= told
                bar.update(count)
        except executors.BrokeDown as error:
            raise SweepStopped(f"the executor broke down: {error}") from error
    tables = {name: pd.concat([found[seed][name] for seed in seeds], ignore_index=True) for name in ("latencies", "streams", "batteries")}
    return Drawn(tuple(seeds), packets=found[seeds[0]]["packets"], **tables)


def _of_seeds(plan: Plan, seeds: Sequence[int], first: int) -> dict[int, dict[str, pd.DataFrame]]:
    """The tables of these draws, with the packets of the first one. In the process of a worker."""
    with measuring.quiet():
        drawer = plan.drawer()
        return {seed: _of_draw(plan, drawer.network(seed), seed, seed == first) for seed in seeds}


def _of_draw(plan: Plan, network: Scenario, seed: int, with_packets: bool) -> dict[str, pd.DataFrame]:
    ids = {name: node for node, name in network.labels.items()}
    whom = {stream.name: _receivers(stream, ids) for stream in plan.streams.values()}
    hosts = set(network.hosts.values())
    # That a host hosted its own packet is seen by any delivery.
    is_seen_anywhere = any(whom[stream.name] is None and ids[stream.source] in hosts for stream in plan.streams.values())
    wanted = set(network.nodes) if is_seen_anywhere else hosts.union(*(one for one in whom.values() if one is not None))
    came = counting.came(network, seed, nodes=wanted)
    lives = _years(plan, network, seed, came.cost, ids)
    keys = {stream.name: (ids[stream.source], stream.number or 0) for stream in plan.streams.values()}
    ours = came.by_stream({keys[name]: receivers for name, receivers in whom.items()})
    seen = {name: _Seen.of(ours[keys[name]], stream, len(whom[name] or [0]), network) for name, stream in plan.streams.items()}
    found = {
        "latencies": pd.concat([pd.DataFrame({"stream": name, "seed": seed, "seconds": one.took}) for name, one in seen.items()] or [pd.DataFrame()]),
        "streams": pd.DataFrame([(name, seed, *one.shares()) for name, one in seen.items()], columns=["stream", "seed", "packets", "in_time", "arrived"]),
        "batteries": pd.DataFrame([(name, seed, years) for name, years in lives.items()], columns=["node", "seed", "years"]),
    }
    if with_packets:
        each = [pd.DataFrame({"stream": name, "put_seconds": one.put[one.due], "seconds": one.last[one.due]}) for name, one in seen.items()]
        found["packets"] = pd.concat(each or [pd.DataFrame()], ignore_index=True)
    return found


def _receivers(stream: Stream, ids: Mapping[str, int]) -> frozenset[int] | None:
    """The nodes that packets are meant for, or None for whichever host serves."""
    if stream.to == HOSTS:
        return None
    names = ids if stream.to == ALL else [stream.to] if isinstance(stream.to, str) else stream.to
    return frozenset(ids[name] for name in names if name in ids and name != stream.source)


@dataclass(frozen=True, eq=False)
class _Seen:
    """The packets of a stream: when each was put, whether its deadline lies in the run (or it could still come), how long it took to its last
    receiver (missing where it did not come to all), and how long each delivery took; and of how many receivers it is."""

    put: Numbers
    due: NDArray[np.bool_]
    last: Numbers
    took: Numbers
    parts: tuple[float, float]

    @classmethod
    def of(cls, came: Came, stream: Stream, several: int, network: Scenario) -> _Seen:
        """What came of a stream, each of whose packets is meant for so many receivers."""
        put, of, took = came.put, came.of, came.seconds - came.put[came.of]
        last = np.full(len(put), -np.inf)
        np.maximum.at(last, of, took)
        last[np.bincount(of, minlength=len(last)) < several] = np.nan
        wait = _WAITING_FRAMES * network.frame_seconds
        due = put <= network.seconds - (wait if stream.deadline is None else stream.deadline) + _LITTLE
        late = put <= network.seconds - wait + _LITTLE
        in_time = float("nan") if stream.deadline is None else _part(due[of] & (took <= stream.deadline + _LITTLE), due, several)
        return cls(put, due, last, took, (in_time, _part(late[of], late, several)))

    def shares(self) -> tuple[int, float, float]:
        """How many packets were due, and the parts of them that came in time and at all."""
        return int(self.due.sum()), *self.parts


def _part(came: NDArray[np.bool_], due: NDArray[np.bool_], several: int) -> float:
    """The part of the packets that came, of pairs of a packet and a receiver; missing where there is none."""
    return float(came.sum() / (due.sum() * several)) if due.any() else float("nan")


def _years(plan: Plan, network: Scenario, seed: int, cost: Cost, ids: Mapping[str, int]) -> dict[str, float]:
    """How many years the battery of each node lasts that has one."""
    words = {name: value for name in ("receive_ma", "transmit_ma", "sleep_ma") if (value := getattr(plan.battery, name)) is not None}
    capacities = {node: plan.capacity_mah(name) for name, node in ids.items()}
    lives = membership.years(network, seed, cost, capacities, words)
    return {name: lives[node] for name, node in ids.items() if capacities[node] is not None}
