"""What is counted of each seed of a sample: of each stream, at each receiver and of the whole network, the packets that were put and
delivered and their latencies; the fates of packets, and the cost of radios. Tested, not proved."""

from __future__ import annotations

import functools
from collections import Counter
from collections.abc import Mapping, Sequence
from dataclasses import dataclass
from typing import Any

import numpy as np
import pandas as pd
from numpy.typing import NDArray

from ..answers import puts
from ..answers.arrivals import Sums, of_seed
from ..common import arguments
from ..model import lines, moments
from ..model.events import Put
from ..model.receivers import HOSTS, Meant, Receivers, meant
from ..model.scenario import Scenario
from ..runs import results
from . import counts
from .seeds import Question

Numbers = NDArray[np.float64]
Places = NDArray[np.int64]

# The numbers of a group, in the order in which they are kept.
_NUMBERS = ("put", "delivered", "in_time", "median", "p90")
_FATES = ["put", "dropped", "sent", "waiting", "cleared"]
_COST = ["transmit_ticks", "window_ticks", "scanned_frames"]
# For the sums of floats.
_LITTLE = 1e-9


@dataclass(frozen=True)
class Groups:
    """Numbers of the streams, of the receivers or of all together: of each an array with a row for each seed and a column for each."""

    numbers: Mapping[str, Numbers]

    def __getitem__(self, name: str) -> Numbers:
        return self.numbers[name]

    def ratio(self, part: str, whole: str) -> Numbers:
        """One number as a part of another; missing where that is 0."""
        found: Numbers = self[part] / np.where(self[whole] > 0, self[whole], np.nan)
        return found


@dataclass(frozen=True)
class Tallies:
    """What was counted of all seeds: `groups` by "stream", "node" and "all"; `fates`, by seed, stream with packets and fate (first how many
    were put); and `cost`, by seed, node and kind. `rows` has the keys of their rows, by the same words, "fates" and "nodes", and `given` how
    many packets each stream gets in a run."""

    groups: Mapping[str, Groups]
    fates: Numbers
    cost: Numbers
    rows: Mapping[str, pd.DataFrame]
    given: Numbers

    def packets(self, by: str) -> Numbers:
        """Of how many packets the numbers of the groups are, by seed and group: pairs of a packet and each of several receivers are one."""
        found: Numbers = self.groups["node"]["put"]
        if by != "node":
            found = np.minimum(self.groups["stream"]["put"], self.given)
        whole: Numbers = found.sum(axis=1, keepdims=True)
        return whole if by == "all" else found

    @classmethod
    def of(cls, told: Sequence[Mapping[str, Any]], scenario: Scenario, whom: Meant) -> Tallies:
        """The tallies of the answers to `question`."""
        groups = {}
        for by in ("stream", "node", "all"):
            table = np.array([one[by] for one in told], dtype=np.float64)
            groups[by] = Groups({name: table[:, place] for place, name in enumerate(_NUMBERS)})
        fates, cost = (np.array([one[name] for one in told], dtype=np.float64) for name in ("fates", "cost"))
        put = fated(scenario, whom)
        rows = {
            "stream": pd.DataFrame(list(whom.by_stream), columns=["source", "stream"]), "node": pd.DataFrame({"node": sorted(whom.nodes())}),
            "all": pd.DataFrame(index=[0]), "fates": pd.DataFrame(put, columns=["source", "stream"]),
            "nodes": pd.DataFrame({"node": sorted(scenario.nodes)}),
        }  # fmt: skip
        return cls(groups, fates, cost, rows, np.array([one["given"] for one in told], dtype=np.float64))


def question(scenario: Scenario, receivers: Receivers, deadline: float | None) -> Question:
    """What is asked of each seed. Raises `ArgumentError` where nothing is put in the scenario."""
    if scenario.by_seed() is None and not any(isinstance(event, Put) for event in scenario.script):
        raise arguments.ArgumentError("nothing is put in this network, so nothing can be delivered; give it packets by `put` or `every`")
    about = f"sample with packets {receivers!r} {deadline!r}"
    return Question(scenario, functools.partial(_tally, receivers, deadline), about)


def fated(scenario: Scenario, whom: Meant) -> list[tuple[int, int]]:
    """The streams of whose packets the fates are counted: those with packets, or where seeds draw packets all streams."""
    if scenario.by_seed() is not None:
        return list(whom.by_stream)
    return sorted({(event.node, event.stream) for event in scenario.script if isinstance(event, Put)})


def packets(scenario: Scenario) -> dict[tuple[int, int], int]:
    """How many packets each stream gets in a run, without those that keep it alive."""
    given = (event for event in scenario.script if isinstance(event, Put))
    return Counter((event.node, event.stream) for event in given if puts.counts(scenario, event))


def packets_meant(scenario: Scenario, whom: Meant, without: int | None = None) -> int:
    """How many packets of a run are meant for somebody, where one node is neither a source nor a receiver."""
    given = packets(scenario)
    return sum(
        given.get(stream, 0) for stream, nodes in whom.by_stream.items() if stream[0] != without and (nodes == HOSTS or set(nodes) - {stream[0], without})
    )


def most_seconds(scenario: Scenario, frames: Places, early: Numbers) -> Numbers:
    """The time from a put to a delivery in the `frames`-th frame after that in which it was handed over, at most: by then the last data slot
    ends that the round of that frame may have, by plan and by the slowest clock, and the put was given `early` seconds before its frame."""
    round_seconds = results.ROUND_SECONDS + (1 + lines.DATA_SLOTS) * lines.slot_ticks(scenario.profile) / results.TICKS_A_SECOND
    return frames * float(scenario.frame_seconds) + round_seconds + moments.late_seconds(scenario) + early


def arrivals(scenario: Scenario, receivers: Receivers, seeds: Sequence[int], found: counts.Counts | None = None) -> Sums:
    """What arrived with the losses of these seeds, which follow each other: by the counts of the program's `sample`, which may be given, or
    where packets keep streams alive, which these count too, by the deliveries of each seed. Raises what `program.execute` raises."""
    whom = meant(scenario, receivers)
    if scenario.keep_alive:
        return Sums.of_runs([of_seed(scenario, seed) for seed in seeds], whom)
    return Sums.of_counts(counts.of(scenario, seeds[0], len(seeds)) if found is None else found, whom)


def _tally(receivers: Receivers, deadline: float | None, scenario: Scenario, seeds: Sequence[int]) -> list[dict[str, Any]]:
    """What is counted of each of these seeds; in the process of a worker."""
    varied = scenario.by_seed()
    if varied is not None:
        return [_of_seed(scenario, varied(seed), meant(scenario, receivers), deadline, seed) for seed in seeds]
    return tally(counts.of(scenario, seeds[0], len(seeds)), receivers, deadline)


def _of_seed(scenario: Scenario, drawn: Scenario, whom: Meant, deadline: float | None, seed: int) -> dict[str, Any]:
    """The same of a seed that draws more than the losses: of the network that it has drawn, in the order of the streams and nodes of the
    scenario. The same nodes have the same names in both, and maybe other ids."""
    ids = {node: drawn.id(name) for node, name in scenario.labels.items()}
    by_stream: dict[tuple[int, int], str | frozenset[int]] = {
        (ids[source], stream): nodes if isinstance(nodes, str) else frozenset(ids[node] for node in nodes) for (source, stream), nodes in whom.by_stream.items()
    }  # fmt: skip
    theirs = Meant(drawn, by_stream)
    found = counts.of(drawn, seed, 1)
    told = tally(found, theirs, deadline)[0]
    receivers, nodes = sorted(theirs.nodes()), sorted(drawn.nodes)
    order = [receivers.index(ids[node]) for node in sorted(whom.nodes())]
    told["node"] = [[numbers[place] for place in order] for numbers in told["node"]]
    told["cost"] = [told["cost"][nodes.index(ids[node])] for node in sorted(scenario.nodes)]
    fates = dict(zip(found.puts[["source", "stream"]].itertuples(index=False, name=None), told["fates"]))
    told["fates"] = [fates.get(stream, [0] * len(_FATES)) for stream in by_stream]
    return told


def tally(found: counts.Counts, receivers: Receivers, deadline: float | None) -> list[dict[str, Any]]:
    """The answer to `question` of each seed of some counts."""
    scenario, seeds = found.scenario, found.seeds
    came = arrivals(scenario, receivers, seeds, found)
    given = moments.early_seconds(scenario)
    early = np.array([given.get(stream, 0.0) for stream in came.streams], dtype=np.float64)
    table = came.table.assign(seconds=most_seconds(scenario, came.table["frames"].to_numpy(), early[came.table["group"].to_numpy()]))
    groups = {
        "stream": (table["group"], came.put.sum(axis=2)), "node": (table["at"], came.put.sum(axis=1)[:, :-1]),
        "all": (0 * table["group"], came.put.sum(axis=(1, 2))[:, None]),
    }  # fmt: skip
    told: dict[str, NDArray[Any]] = {by: _numbers(table, group.to_numpy(), put, deadline) for by, (group, put) in groups.items()}
    told["fates"] = found.puts[_FATES].to_numpy().reshape(len(seeds), -1, len(_FATES))
    told["cost"] = found.cost[_COST].to_numpy().reshape(len(seeds), -1, len(_COST))
    # How many packets each stream gets, in the order of the groups.
    numbers = packets(scenario)
    told["given"] = np.array([[numbers.get(stream, 0) for stream in came.streams]] * len(seeds))
    return [{name: part[place].tolist() for name, part in told.items()} for place in range(len(seeds))]


def _numbers(table: pd.DataFrame, group: Places, put: Numbers, deadline: float | None) -> NDArray[Any]:
    """The numbers of each seed and group, in the order of `_NUMBERS`: an array by seed, number and group. The table has `place`, that of the
    seed, and the `seconds` and the `count` of deliveries."""
    seeds, groups = put.shape
    cell = table["place"].to_numpy() * groups + group
    order = np.lexsort((table["seconds"].to_numpy(), cell))
    cell, seconds, count = cell[order], table["seconds"].to_numpy()[order], table["count"].to_numpy(dtype=np.float64)[order]
    delivered = np.bincount(cell, count, seeds * groups)
    in_time = np.bincount(cell, count * (seconds <= (-1.0 if deadline is None else deadline) + _LITTLE), seeds * groups)
    # The least latency that the part of all deliveries does not exceed, among those of a cell, which follow each other.
    by_then, before = count.cumsum(), delivered.cumsum() - delivered
    reached = [np.searchsorted(by_then, before + part * delivered - _LITTLE) for part in (0.5, 0.9)]
    times = [np.where(delivered > 0, np.append(seconds, np.nan)[np.minimum(place, len(seconds))], np.nan) for place in reached]
    return np.stack([put, *(one.reshape(seeds, groups) for one in (delivered, in_time, *times))], axis=1)
