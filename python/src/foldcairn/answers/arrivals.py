"""What was put and what arrived, worked out in one place for all answers: packet by packet of a log, of a report without one, of a seed and of a
draw (`Arrivals`), and summed up over many seeds (`Sums`).

For whom a packet is meant is the rule of `model.receivers`. A delivery counts where its node is one of these; of a packet that is meant for
whichever host serves, that is the host of the round in which its node transmitted it first, and it counts where the host received it in that
round. The rows of `fates`, the pairs of `delivery`, the numbers of `many.tallies`, and what `requirements` measure of draws are views of this.
Tested, not proved.
"""

from __future__ import annotations

from collections.abc import Mapping, Sequence
from dataclasses import dataclass
from functools import cached_property
from typing import Any, Protocol

import numpy as np
import pandas as pd
from numpy.typing import NDArray

from ..common.arguments import ArgumentError
from ..model import moments
from ..model.receivers import HOSTS, NO_HOST, Meant, hosts_of
from ..model.scenario import Scenario
from ..runs import numbers, program as programs, results
from ..runs.results import PACKET, Log, Report, ReturnReport, plain_rows
from . import puts

Places = NDArray[np.int64]
Numbers = NDArray[np.float64]
Truths = NDArray[np.bool_]
# Columns by their names, as a table or as arrays.
Columns = Mapping[str, Any]

# When and where a packet was first transmitted by its node.
SENT = ["sent_frame", "rank", "sent_slot"]


@dataclass(frozen=True, eq=False)
class Came:
    """What came of the packets of a stream that count and are meant for somebody: of each when it was `put`, in seconds; and of each delivery at a
    node that it is meant for which packet it is `of`, `at` which node, and by when the node had received it at the latest, in `seconds` by plan."""

    put: Numbers
    of: Places
    at: Places
    seconds: Numbers


@dataclass(frozen=True, eq=False)
class Arrivals:
    """What was put and what arrived in one run.

    told   the `put` lines in the order in which they happen, with what the script says of each when the run was asked for
    put    a row for each of them, with the columns of `results.fates`; of a draw `frame`, `source`, `stream`, `boot`, `number`, `sent_frame` and
           `rank`, the last two -1 also where nothing is known of a delivery
    came   a row for each delivery of one of these packets, with the index and in the order of the deliveries that were given: `place`, the row
           of the packet in `put`, the `node`, the `frame` and `slot`, and `host`, the node that hosts the round in which it came if that is
           the one in which the packet was sent, else `receivers.NO_HOST`
    """

    scenario: Scenario
    told: puts.Puts
    put: pd.DataFrame
    came: pd.DataFrame

    @classmethod
    def of(cls, scenario: Scenario, told: puts.Puts, put: pd.DataFrame, deliveries: Columns) -> Arrivals:
        """What arrived by these deliveries, whose columns are those of `results.Report`. Those of packets that were not put are left out."""
        return cls._joined(scenario, told, put, deliveries, _rows_of(results.codes(put), results.codes(deliveries)))

    @classmethod
    def _joined(cls, scenario: Scenario, told: puts.Puts, put: pd.DataFrame, deliveries: Columns, place: Places) -> Arrivals:
        """The same, where the row in `put` of the packet of each delivery is known, or -1."""
        known, place = np.flatnonzero(place >= 0), place[place >= 0]
        frame, rank, slot, node = (np.asarray(deliveries[name], dtype=np.int64)[known] for name in ("frame", "rank", "slot", "node"))
        in_round = (frame == put["sent_frame"].to_numpy()[place]) & (rank == put["rank"].to_numpy()[place])
        host = np.where(in_round, hosts_of(scenario, rank), NO_HOST)
        index = deliveries.index[known] if isinstance(deliveries, pd.DataFrame) else None
        return cls(scenario, told, put, pd.DataFrame({"place": place, "node": node, "frame": frame, "slot": slot, "host": host}, index=index))

    @property
    def counted(self) -> Truths:
        """Which of the packets count: all but those that keep a stream alive."""
        return self.told.counted(self.scenario)

    @cached_property
    def put_seconds(self) -> Numbers:
        """When each packet was put, in seconds (`Scenario.put_seconds`)."""
        return self.told.put_seconds(self.scenario)

    def meant(self, whom: Meant) -> pd.DataFrame:
        """The rows of `came` that count: of packets that count, at nodes that they are meant for; of a packet that a node delivered twice, as a
        recorded log may say, the first."""
        return self.came.iloc[self._meant(whom)]

    def _meant(self, whom: Meant) -> Places:
        """The places in `came` of these rows."""
        source, stream = self.told.columns["source"], self.told.columns["stream"]
        place, node, host = (self.came[name].to_numpy() for name in ("place", "node", "host"))
        rows = np.flatnonzero(self.counted[place] & whom.is_for(source[place], stream[place], node, host))
        once: Places = rows[~pd.Series(_pair(place[rows], node[rows])).duplicated().to_numpy()]
        return once

    def pairs(self, whom: Meant) -> pd.DataFrame:
        """A row for each packet that counts and each node that it is meant for, by both: `place`, the row of the packet in `put`, the `node`, and
        `delivery`, the row in `meant` that delivered it there, -1 where none did."""
        rows = np.flatnonzero(self.counted)
        pairs = whom.pairs(self.put.iloc[rows])
        pairs["place"] = rows[pairs["place"].to_numpy()]
        came = self.meant(whom)
        pairs["delivery"] = _rows_of(*(_pair(table["place"].to_numpy(), table["node"].to_numpy()) for table in (came, pairs)))
        return pairs

    def by_stream(self, whom: Meant) -> dict[tuple[int, int], Came]:
        """What came of each stream that is meant for somebody."""
        source, stream = self.told.columns["source"], self.told.columns["stream"]
        group = whom.groups_of(source, stream)
        packets = np.flatnonzero(self.counted & whom.is_for_any(source, stream, hosts_of(self.scenario, self.put["rank"].to_numpy(dtype="int64"))))
        came, put, found, number = self._meant(whom), self.put_seconds, {}, np.zeros(len(group), dtype=np.int64)
        place, node, frame, slot = (self.came[name].to_numpy()[came] for name in ("place", "node", "frame", "slot"))
        seconds = planned_seconds(self.scenario, frame, slot)
        for key, some, there in zip(whom.by_stream, _parts(group[packets], len(whom.by_stream)), _parts(group[place], len(whom.by_stream))):
            ours = packets[some]
            number[ours] = np.arange(len(ours))
            found[key] = Came(put[ours], number[place[there]], node[there], seconds[there])
        return found

    def at_nodes(self) -> pd.Series:
        """How many nodes delivered each packet."""
        place = self.came.drop_duplicates(["place", "node"])["place"]
        return pd.Series(np.bincount(place, minlength=len(self.put)), self.put.index)

    def at_hosts(self) -> pd.Series:
        """Whether the host of the round in which a packet was sent delivered it in this round."""
        at_host = self.came["node"].to_numpy() == self.came["host"].to_numpy()
        place = self.came["place"].to_numpy()[at_host]
        found = np.zeros(len(self.put), dtype=bool)
        found[place] = self.put["source"].to_numpy()[place] != self.came["host"].to_numpy()[at_host]
        return pd.Series(found, self.put.index)


def _pair(place: Places, node: Places) -> Places:
    """One number for each packet and node."""
    return place * 1_024 + node


def _parts(group: Places, count: int) -> list[Places]:
    """The places at which each of so many groups is, from 0 on."""
    order = np.argsort(group, kind="stable")
    return np.split(order, np.searchsorted(group[order], np.arange(1, count)))


def planned_seconds(scenario: Scenario, frame: Any, slot: Any) -> Any:
    """By when nodes had received what they delivered in these slots, at the latest, in seconds by plan: a slot ends where the next one starts, and
    clocks may be late."""
    return results.slot_seconds(scenario.profile, frame, slot + 1) + moments.late_seconds(scenario)


def _rows_of(codes: Places, wanted: Places) -> Places:
    """The first row in which each number that is wanted is among the codes, -1 where it is none of them."""
    order = np.argsort(codes, kind="stable")
    place = np.searchsorted(codes, wanted, sorter=order)
    row = np.append(order, -1)[place]
    found: Places = np.where(np.append(codes, -1)[row] == wanted, row, -1)
    return found


# Of a report.


def of_report(report: Report) -> Arrivals:
    """What was put and what arrived in the run of a report. What became of packets is asked of the program, for the scenario of the report, or
    for its network and seed where losses were drawn as the bus ran (`results.outcome`).

    Of a log it is `by_lines` where there is no program with the command `fates`, and where the log's own lines are others, as those that a
    testbed recorded. Raises `ArgumentError` for a `results.ReturnReport`, whose run is not that of its scenario, and for a report without a log
    whose deliveries or drops are not those of its scenario; else what `program.execute` raises.
    """
    found: Arrivals | None = report.__dict__.get("_arrivals")
    if found is None:
        found = report.__dict__["_arrivals"] = _of_report(report)
    return found


def _of_report(report: Report) -> Arrivals:
    if isinstance(report, ReturnReport):
        raise ArgumentError(
            "a ReturnReport tells nothing of single packets, since its run is not that of its scenario: add the lines of the returns to the "
            "scenario (docs/RETURN.md), and take the log of that"
        )
    if isinstance(report, Log) and not _can_be_asked():
        return by_lines(report)
    # By the script as it is now, since a line that is added to the scenario later was not in the run.
    found = Arrivals.of(report.scenario, puts.of_script(report.scenario), results.fates_of(report), report.deliveries)
    if _agree(report, found):
        return found
    if isinstance(report, Log):
        return by_lines(report)
    raise ArgumentError("the deliveries or drops of the report are not those of its scenario and seed, so nothing says what became of each packet")


def _can_be_asked() -> bool:
    """Whether there is a program with the command `fates`."""
    try:
        return programs.has_command("fates", programs.find_planner())
    except programs.NotFound:
        return False


def _agree(report: Report, found: Arrivals) -> bool:
    """Whether these fates are those of the report, by its deliveries, its drops, and, in a log, its transmissions."""
    put, dropped = found.put, (found.put["became"] == "dropped").sum()
    if len(found.came) != len(report.deliveries) or len(report.drops) != dropped:
        return False
    if not found.at_nodes().equals(put["deliveries"]) or not found.at_hosts().equals(put["host_delivered"]):
        return False
    if not isinstance(report, Log):
        return True
    sent = set(plain_rows(put[put["became"] == "sent"], *PACKET, *SENT))
    return set(plain_rows(sent_of(report), *PACKET, *SENT)) == sent


def sent_of(log: Log) -> pd.DataFrame:
    """When each packet was first transmitted by its node: the frame, the rank and the data slot, and the time (`sent_seconds`)."""
    data = log.initiations[log.initiations["kind"] == "data"]
    names = {"origin": "source", "frame": "sent_frame", "slot": "sent_slot", "start_seconds": "sent_seconds"}
    return data.rename(columns=names)[[*PACKET, *SENT, "sent_seconds"]].drop_duplicates(PACKET)


def by_lines(log: Log) -> Arrivals:
    """What was put and what arrived by the lines of a log and the script of its scenario."""
    told, put = _by_script(log.scenario, plain_rows(log.drops, "frame", "node", "stream"))
    dropped, cleared = (np.array([why != "" for why in words], dtype=bool) for words in (told.dropped, told.cleared))
    put = put.merge(sent_of(log)[[*PACKET, *SENT]], how="left", on=PACKET)
    became = np.select([dropped, put["sent_frame"].notna().to_numpy(), cleared], ["dropped", "sent", "cleared"], "waiting")
    put["became"] = pd.Categorical(became, categories=results.FATES)
    put["cleared_frame"] = np.where(became == "cleared", told.cleared_frame, -1)
    put = put.fillna(dict.fromkeys(SENT, -1))
    found = Arrivals.of(log.scenario, told, put, log.deliveries)
    put["deliveries"], put["host_delivered"] = found.at_nodes(), found.at_hosts()
    return Arrivals(log.scenario, told, put.astype(results.FATE_TYPES)[list(results.FATE_TYPES)], found.came)


def _by_script(scenario: Scenario, drops: Sequence[tuple[int, ...]]) -> tuple[puts.Puts, pd.DataFrame]:
    """The `put` lines by the script of a scenario and the `drop` lines of its run, and a row for each: `frame`, `source`, `stream`, and `boot` and
    `number`, which are -1 where it was dropped."""
    told = puts.of_script(scenario)
    puts.drop_by_full_queues(told, drops)
    boot = np.where(told.queued(), told.columns["boot"], -1)
    return told, pd.DataFrame({**told.columns, "boot": boot, "number": told.numbers()})


# Of a seed, and of a draw.


def of_seed(scenario: Scenario, seed: int) -> Arrivals:
    """What was put and what arrived with the losses of a seed, by the numbers in the lines of the program's `outcome` and `fates`, which is
    sooner than by their tables. Raises what `numbers.outcome` raises."""
    deliveries = numbers.outcome(scenario, seed).deliveries
    text, planner = scenario.network_text(warn=False).encode(), programs.find_planner()
    rows = results.fate_rows(programs.execute(["fates", str(seed)], text, program=planner))
    return Arrivals.of(scenario, puts.of_script(scenario), pd.DataFrame(rows, columns=list(results.FATE_TYPES)), deliveries)


def of_draw(scenario: Scenario, outcome: numbers.Outcome) -> Arrivals:
    """What was put and what arrived by the lines of `outcome` and the script alone, without a call of `fates`, which takes as long: so of a packet that
    no delivery is of nobody knows whether and when it was sent. Raises `program.CutOutput` where a delivery is of a packet that was not put, as
    where drops are missing."""
    told, put = _by_script(scenario, outcome.drops)
    place = _rows_of(results.codes(put), results.codes(outcome.deliveries))
    if (place < 0).any():
        raise programs.CutOutput("the output of `outcome` has packets that the scenario has not, or some of its drops are missing")
    for name, of in (("sent_frame", "frame"), ("rank", "rank")):
        column = np.full(len(put), -1, dtype=np.int64)
        column[place] = outcome.deliveries[of]
        put[name] = column
    return Arrivals._joined(scenario, told, put, outcome.deliveries, place)


# Of many seeds.


class Counted(Protocol):
    """The counts of the program's `sample`, as `many.counts.Counts` has them."""

    @property
    def seeds(self) -> Sequence[int]:
        """The seeds, which ascend."""

    @property
    def puts(self) -> pd.DataFrame:
        """How many packets were put and sent, by seed and stream."""

    @property
    def hosted(self) -> pd.DataFrame:
        """How many were sent in rounds that a node hosts, by seed, stream and this node."""

    @property
    def latencies(self) -> pd.DataFrame:
        """How many were delivered, by seed, stream, node and frames since the put."""

    @property
    def hosts(self) -> pd.DataFrame:
        """The same of those that came at the host of the round in which they were sent."""


@dataclass(frozen=True)
class Sums:
    """What was put and what arrived in some seeds, at nodes that it was meant for, summed up.

    streams, nodes   the streams, each by its source and number, and the nodes that some stream is meant for
    put              how many pairs of a packet and a receiver there are, by seed, stream and node; the last place is for packets that
                     are meant for whichever host serves, and were never sent
    table            a row for each latency: `place` of the seed, of the stream (`group`), and of the node (`at`), `frames` and `count`
    """

    streams: Sequence[tuple[int, int]]
    nodes: Sequence[int]
    put: Numbers
    table: pd.DataFrame

    def ratios(self, without: int | None = None) -> Numbers:
        """The part of what was put that was delivered, of each seed, where one node is neither a source nor a receiver; missing where
        nothing was put."""
        table = self.table
        _, streams, places = self.put.shape
        place = (table["place"] * streams + table["group"]) * places + table["at"]
        delivered = np.bincount(place, table["count"], self.put.size).reshape(self.put.shape)
        kept = np.outer([source != without for source, _ in self.streams], [node != without for node in (*self.nodes, NO_HOST)])
        whole = (self.put * kept).sum(axis=(1, 2))
        found: Numbers = (delivered * kept).sum(axis=(1, 2)) / np.where(whole > 0, whole, np.nan)
        return found

    @classmethod
    def of_runs(cls, runs: Sequence[Arrivals], whom: Meant) -> Sums:
        """The sums of what arrived in each of some runs."""
        grid = _Grid.of(whom)
        put, tables = np.zeros((len(runs), *grid.shape)), [grid.empty()]
        for place, run in enumerate(runs):
            pairs, source = run.pairs(whom), run.put[["source", "stream", "frame"]]
            np.add.at(put[place], grid.places(source.iloc[pairs["place"].to_numpy()], pairs["node"]), 1)
            came = run.meant(whom)
            of_put = source.iloc[came["place"].to_numpy()]
            group, at = grid.places(of_put, came["node"])
            tables.append(pd.DataFrame({"place": place, "group": group, "at": at, "frames": came["frame"].to_numpy() - of_put["frame"].to_numpy(), "count": 1}))
        return cls(grid.streams, grid.nodes, put, pd.concat(tables, ignore_index=True))

    @classmethod
    def of_counts(cls, found: Counted, whom: Meant) -> Sums:
        """The sums by the counts of the program's `sample`."""
        grid, seeds = _Grid.of(whom), np.array(found.seeds)

        def meant(table: pd.DataFrame, of_hosts: bool) -> pd.DataFrame:
            """The rows at nodes that packets are meant for, with their places; `of_hosts`: each row is of packets that were sent in rounds that its
            node hosts, and only those count that are meant for the host."""
            source, stream, node = (table[name].to_numpy(dtype="int64") for name in ("source", "stream", "node"))
            rows = table[whom.is_for(source, stream, node, node if of_hosts else np.full_like(node, NO_HOST))]
            group, at = grid.places(rows, rows["node"])
            rows = rows.assign(place=np.searchsorted(seeds, rows["seed"]), group=group, at=at)
            return rows[grid.to_hosts[group]] if of_hosts else rows

        packets, sent = np.zeros((2, len(seeds), len(grid.streams)))
        at = np.searchsorted(seeds, found.puts["seed"]), grid.groups(found.puts)
        packets[at], sent[at] = found.puts["put"], found.puts["sent"]
        put = packets[..., None] * grid.named
        put[..., -1] = (packets - sent) * grid.to_hosts
        hosted = meant(found.hosted, True)
        put[hosted["place"], hosted["group"], hosted["at"]] = hosted["count"]
        came = pd.concat([meant(found.latencies, False), meant(found.hosts, True)], ignore_index=True)
        return cls(grid.streams, grid.nodes, put, came[list(grid.empty())])


@dataclass(frozen=True)
class _Grid:
    """The places of the streams and of the nodes that some stream is meant for, with one more for `NO_HOST`; whether each stream is meant for
    whichever host serves; and else for which nodes it is, by both places."""

    streams: list[tuple[int, int]]
    nodes: list[int]
    to_hosts: Truths
    named: Truths

    @classmethod
    def of(cls, whom: Meant) -> _Grid:
        """The places of all that is meant for somebody."""
        streams, nodes = list(whom.by_stream), sorted(whom.nodes())
        to_hosts = np.array([whom.by_stream[stream] == HOSTS for stream in streams], dtype=bool)
        source, stream = np.repeat(np.array(streams, dtype=np.int64).reshape(-1, 2), len(nodes), axis=0).T
        named = whom.is_for(source, stream, np.tile(np.array(nodes, dtype=np.int64), len(streams)), np.full(len(source), NO_HOST))
        named = named.reshape(len(streams), len(nodes))
        return cls(streams, nodes, to_hosts, np.pad(named, ((0, 0), (0, 1))))

    @property
    def shape(self) -> tuple[int, int]:
        """How many places there are of streams and of nodes."""
        return len(self.streams), len(self.nodes) + 1

    def groups(self, packets: pd.DataFrame) -> Places:
        """The places of the streams of packets."""
        known = {4 * source + stream: place for place, (source, stream) in enumerate(self.streams)}
        found: Places = (4 * packets["source"].astype("int64") + packets["stream"].astype("int64")).map(known).to_numpy(dtype="int64")
        return found

    def places(self, packets: pd.DataFrame, nodes: pd.Series) -> tuple[Places, Places]:
        """The places of the streams of packets, and of nodes, `NO_HOST` among them."""
        known: Mapping[int, int] = {**{node: place for place, node in enumerate(self.nodes)}, NO_HOST: len(self.nodes)}
        return self.groups(packets), nodes.map(known).to_numpy(dtype="int64")

    def empty(self) -> pd.DataFrame:
        """The table of no latency."""
        return pd.DataFrame(columns=["place", "group", "at", "frames", "count"], dtype="int64")
