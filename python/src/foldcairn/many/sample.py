"""How likely it is: a network with the losses of many seeds, and how its answers spread over them. `planning` has all answers in one
place.

One draw of the losses is one sample: packets, power and changes of ratios come at the same times in each seed, and an interval says nothing
of other times. `sample` runs the program's `sample` for each seed, and gives tables with means, standard errors, intervals and quantiles
over the seeds. What the program counts of a seed is proved; the statistics are Python's: tested, not proved.
"""

from __future__ import annotations

import functools
import html
import os
from collections.abc import Iterable, Sequence
from dataclasses import dataclass, field
from pathlib import Path
from typing import Any, TextIO

import numpy as np
import pandas as pd
from numpy.typing import NDArray

from ..answers import findings, labels, power, radio
from ..common import arguments, display, files
from ..model import doubts, networks
from ..model.receivers import Receivers, meant
from ..model.scenario import Scenario
from ..runs.results import TICKS_A_SECOND
from . import intervals, seeds as many, sweep, tallies
from .counts import Counts

Numbers = NDArray[np.float64]

_FATES = ("dropped", "sent", "waiting", "cleared")
_SEEDS = (
    "Seeds vary the losses alone: packets, power and changes of ratios come at the same times in each seed, so the intervals say nothing of other "
    "times."
)
_ALL = (
    "Each seed draws all that is by chance in the plan, which are the ratios of links, the times of sporadic packets, phases and the times of events, and "
    "then the losses: the intervals are over all of it."
)
# A share from here on is near 1, and `remarks` says how many packets it takes to show that one.
_NEAR, _SHOWN = 0.99, 0.999


@dataclass(frozen=True, repr=False, eq=False)
class Sample:
    """How the answers about a network spread over seeds, which vary the losses alone: packets, power and changes of ratios come at the same
    times in each seed, so no interval has in it what other times would bring.

    scenario, seeds    the network, and the seeds by which its losses were drawn
    receivers          for whom packets are meant, in words
    deadline_seconds   the deadline, or None
    runs               a row for each seed: `seed`, and the numbers of `network`
    origin             where it comes from (`sweep.origin`), which is also in the `attrs` of each table

    `network`, `delivery_ratio`, `deadline`, `latency`, `fates`, `duty_cycle`, `search` and `battery_life` give tables, and `tables` all of
    them. A row is told by the columns for which it is (`source` and `stream`, or `node`) and by `quantity`, the word of the number. Where
    that is a share of packets, `packets` says of how many, of all seeds together; it is 0 for other numbers in the same table. The other
    columns say how this number spreads over the seeds: `seeds`, `mean`, `error`, `low`, `high`, `least`, `p5`, `p50`, `p95` and
    `greatest`, as `intervals.over_seeds` has them. The interval from `low` to `high` has the mean of all seeds with 95 %; of 100 seeds
    90 lie from `p5` to `p95`. The seeds are taken for independent draws, and what the model leaves out is in no interval. A share that is
    the same in all seeds has the interval of its number of packets. `remarks` says what to know of the numbers, in sentences.
    """

    scenario: Scenario
    seeds: tuple[int, ...]
    receivers: str
    deadline_seconds: float | None
    origin: dict[str, Any]
    _tallies: tallies.Tallies = field(repr=False)

    def __repr__(self) -> str:
        many = f"{len(self.seeds):,} seed{'s' if len(self.seeds) > 1 else ''}"
        return f"<Sample: {len(self.scenario.nodes)} nodes, {self.scenario.seconds} s, {many}, text {self.origin['text']['scenario'][:12]}>"

    def _repr_html_(self) -> str:
        shown: str = self.network().to_html(index=False, border=0, na_rep="–", float_format=lambda number: f"{number:.3f}")
        return "".join(f"<p>{html.escape(remark)}</p>" for remark in self.remarks()) + shown

    def remarks(self) -> list[str]:
        """What to know of the numbers, in sentences: what seeds vary, and where a share near 1 is of too few packets."""
        first = _SEEDS if self.scenario.by_seed() is None else _ALL
        tables = [self.delivery_ratio(), *([self.deadline()] if self.deadline_seconds is not None else [])]
        needed = intervals.packets_to_show(_SHOWN)
        near = pd.concat(tables).query("mean >= @_NEAR and packets < @needed").sort_values("packets", kind="stable")
        if near.empty:
            return [first]
        row, count = near.iloc[0], len(near.drop_duplicates(["source", "stream"]))
        more = f", as {count - 1} more stream{'s' if count > 2 else ''} of few packets" if count > 1 else ""
        return [
            first,
            f"To show that {100 * _SHOWN:g} % are delivered takes some {needed:,} packets that all are (the rule of three), and stream {row['stream']} of node "
            f"{row['source']} has {row['packets']:,} in all seeds together{more}: take {-(-needed // max(1, row['packets']))} times as many seeds.",
        ]

    def write(self, path: str | os.PathLike[str], *, title: str = "How likely it is", **battery: Any) -> Path:
        """Writes a page with a map, all tables and where they come from into an HTML file that stands alone, and gives its path.
        `battery` has the words of `battery_life`."""
        return files.write(path, display.shown("sample", self, title, battery).encode())

    @functools.cached_property
    def runs(self) -> pd.DataFrame:
        """A row for each seed (see the class)."""
        return self._runs({})

    def network(self, **battery: Any) -> pd.DataFrame:
        """The numbers of the whole network.

        Parameters
        ----------
        **battery
            The words of `planning.battery_life`, as capacity_mah=2500.

        Returns
        -------
        pandas.DataFrame
            A row for each number, the `quantity`, with how it spreads over the seeds.

            ratio_of_put
                the part, 0 to 1, of what was put that was delivered, of pairs of a packet and a receiver that it is meant for
            within_deadline
                the part of what was put that was delivered within the deadline, if one is given
            latency_median_seconds, latency_p90_seconds
                the times, in seconds, that half and 90 % of the deliveries took at most
            dropped, sent, waiting, cleared
                the parts of the packets that were put with each fate (`fates`)
            duty_cycle, duty_cycle_in_rounds, on_seconds
                the means over the nodes that had power (`duty_cycle`)
            scanned_frames, searching_seconds
                the means over the nodes (`search`)
            days, days_in_rounds
                the shortest battery life of any node (`battery_life`, whose words may be given)
        """
        runs = self._runs(battery).drop(columns="seed") if battery else self.runs.drop(columns="seed")
        put = {name: self._tallies.packets("all") for name in runs if name.startswith(("ratio", "within"))}
        put |= dict.fromkeys(_FATES, self._tallies.fates[..., 0].sum(axis=1, keepdims=True))
        tables = [
            self._table("all", {name: runs[[name]].to_numpy()}, name in put or name.startswith("duty"), put.get(name, np.zeros((len(runs), 1))))
            for name in runs
        ]
        return self._told(pd.concat(tables, ignore_index=True))

    def delivery_ratio(self, by: str = "stream") -> pd.DataFrame:
        """The part, 0 to 1, of what was put that was delivered, of pairs of a packet and a receiver that it is meant for: `ratio_of_put`.

        `by` is "stream" (of each source and stream), "node" (at each receiver; of packets that are meant for whichever host serves, at
        the host of the round in which they were sent) or "all". Raises `ArgumentError` where it is another word."""
        found = self._of(by)
        return self._told(self._table(by, {"ratio_of_put": found.ratio("delivered", "put")}, True, self._tallies.packets(by)))

    def deadline(self, by: str = "stream") -> pd.DataFrame:
        """The part of what was put that was delivered within the deadline: `within_deadline`; `by` is as in `delivery_ratio`.

        A latency is counted as in `latency`, at most, so what comes by the deadline in the last round before it may count as late. A packet whose
        deadline lies after the end of the run counts as late too, unless it came: take a run that is long for the deadline.
        `planning.deadline` has both exactly, of one seed. Raises `ArgumentError` where no deadline was given."""
        if self.deadline_seconds is None:
            raise arguments.ArgumentError("no deadline was given; write planning.sample(.., deadline=30) for 30 seconds")
        return self._told(self._table(by, {"within_deadline": self._of(by).ratio("in_time", "put")}, True, self._tallies.packets(by)))

    def latency(self, by: str = "stream") -> pd.DataFrame:
        """The times from put to delivery in seconds: `latency_median_seconds` and `latency_p90_seconds`, which half and 90 % of the deliveries of a seed
        took at most. `by` is as in `delivery_ratio`; a seed without any delivery is left out.

        The program counts in frames, from that in which a packet is handed over to that of its delivery, so a latency here is a bound, and
        never below the real one. It counts from the earliest put of its stream within a frame to the end of the last data slot that the
        round of the delivery may have, by the slowest clock. So it is up to 1.4 s (profile 1) or 2.3 s (profile 2) more than
        `planning.latency` has where all puts are given as frames, and up to a frame more than that where they are given in seconds."""
        found = self._of(by)
        return self._told(self._table(by, {"latency_median_seconds": found["median"], "latency_p90_seconds": found["p90"]}))

    def fates(self, by: str = "stream") -> pd.DataFrame:
        """Which part of the packets that were put was `dropped` (it never was in a queue), `sent`, `waiting` at the end, and `cleared` (its
        queue was emptied before, as its node went off). Packets of `Scenario.stream(.., keep_alive=..)` count here. `by` is "stream" (of
        each that has packets) or "all". Raises `ArgumentError` where it is another word."""
        arguments.one_of("by", by, ("stream", "all"))
        found = self._tallies.fates if by == "stream" else self._tallies.fates.sum(axis=1, keepdims=True)
        parts = {name: _ratio(found[..., place], found[..., 0]) for place, name in enumerate(_FATES, 1)}
        return self._told(self._table("fates" if by == "stream" else "all", parts, True, found[..., 0]))

    def duty_cycle(self, by: str = "node") -> pd.DataFrame:
        """The part of the time with power in which each radio was on, `duty_cycle`, the same without searching for a host,
        `duty_cycle_in_rounds`, and the time itself, `on_seconds`: at most, each window as planned and each frame in which the node searches
        from its start to its end, as `planning.duty_cycle` has it of a report. `by` is "node", or "all" for the means over the nodes that
        had power. Raises `ArgumentError` where it is another word."""
        arguments.one_of("by", by, ("node", "all"))
        spent = self._spent
        parts = {name: spent[name] for name in ("duty_cycle", "duty_cycle_in_rounds", "on_seconds")}
        shares, rest = ({name: part for name, part in parts.items() if (name == "on_seconds") == whole} for whole in (False, True))
        return self._told(pd.concat([self._by_node(by, shares, share=True), self._by_node(by, rest)], ignore_index=True))

    def search(self, by: str = "node") -> pd.DataFrame:
        """How long each node searched for a host: `scanned_frames`, at whose start it searched, and `searching_seconds`, their time. `by`
        is "node", or "all" for the means over the nodes that had power. Raises `ArgumentError` where it is another word."""
        arguments.one_of("by", by, ("node", "all"))
        return self._told(self._by_node(by, {name: self._spent[name] for name in ("scanned_frames", "searching_seconds")}))

    def battery_life(self, by: str = "node", **battery: Any) -> pd.DataFrame:
        """How long a battery lasts if all its time is as this run was: `days`, and `days_in_rounds` if its node never searched. `by` is
        "node", or "all" for the shortest of all nodes. `battery` has the words of `planning.battery_life`, as capacity_mah=2500, but for
        those of a time and the target; a node on `mains` has no life. Raises `ArgumentError` where `by` is another word, or a current or
        the capacity is below 0."""
        arguments.one_of("by", by, ("node", "all"))
        lives = self._lives(battery)
        if by == "all":
            lives = {name: _least(part) for name, part in lives.items()}
        return self._told(self._table("nodes" if by == "node" else "all", lives))

    def tables(self, **battery: Any) -> dict[str, pd.DataFrame]:
        """All tables, by the names that the page and the command line have for them."""
        found = {"network": self.network(**battery)}
        for name, ask in (("delivery", self.delivery_ratio), ("deadline", self.deadline), ("latency", self.latency)):
            if name != "deadline" or self.deadline_seconds is not None:
                found |= {f"{name}-by-{by}": ask(by) for by in ("stream", "node")}
        return {
            **found, "fates-by-stream": self.fates(), "duty-cycle-by-node": self.duty_cycle(), "search-by-node": self.search(),
            "battery-life-by-node": self.battery_life("node", **battery),
        }  # fmt: skip

    # How the tables come about: each number is an array with a row for each seed and a column for each row of its table.

    def _of(self, by: str) -> tallies.Groups:
        return self._tallies.groups[arguments.one_of("by", by, ("stream", "node", "all"))]

    @functools.cached_property
    def _spent(self) -> dict[str, Numbers]:
        """What each radio cost: of each seed and node."""
        transmit, window, scanned = np.moveaxis(self._tallies.cost, -1, 0)
        boots = power.boots(self.scenario)
        powered = (boots["off_seconds"] - boots["on_seconds"]).groupby(boots["node"]).sum()
        powered = powered.reindex(sorted(self.scenario.nodes), fill_value=0.0).to_numpy(dtype="float64")
        had = np.where(powered > 0, powered, np.nan) * np.ones((len(self.seeds), 1))
        searching = scanned * self.scenario.frame_seconds
        on = window / TICKS_A_SECOND + searching
        nothing = np.isnan(had)
        return {
            "powered_seconds": had, "transmit_seconds": transmit / TICKS_A_SECOND, "on_seconds": np.where(nothing, np.nan, on),
            "searching_seconds": np.where(nothing, np.nan, searching), "scanned_frames": np.where(nothing, np.nan, scanned),
            "duty_cycle": on / had, "duty_cycle_in_rounds": (on - searching) / had,
        }  # fmt: skip

    def _lives(self, battery: dict[str, Any]) -> dict[str, Numbers]:
        """The battery lives, of each seed and node."""
        shape = self._spent["on_seconds"].shape
        table = pd.DataFrame({name: part.ravel() for name, part in self._spent.items()})
        table["node"] = np.tile(sorted(self.scenario.nodes), len(self.seeds))
        words: dict[str, Any] = {**battery, "mains": radio.on_mains(self.scenario, battery.get("mains", ()))}
        lives = radio.lives_of(table, **words)
        return {name: lives[name].to_numpy(dtype="float64").reshape(shape) for name in ("days", "days_in_rounds")}

    def _runs(self, battery: dict[str, Any]) -> pd.DataFrame:
        whole, fates = self._of("all"), self._tallies.fates.sum(axis=1)
        found = {"seed": np.array(self.seeds, dtype="int64"), "ratio_of_put": whole.ratio("delivered", "put")[:, 0]}
        if self.deadline_seconds is not None:
            found["within_deadline"] = whole.ratio("in_time", "put")[:, 0]
        found |= {"latency_median_seconds": whole["median"][:, 0], "latency_p90_seconds": whole["p90"][:, 0]}
        found |= {name: _ratio(fates[:, place], fates[:, 0]) for place, name in enumerate(_FATES, 1)}
        for name in ("duty_cycle", "duty_cycle_in_rounds", "on_seconds", "scanned_frames", "searching_seconds"):
            found[name] = _mean(self._spent[name])[:, 0]
        found |= {name: _least(part)[:, 0] for name, part in self._lives(battery).items()}
        return pd.DataFrame(found)

    def _by_node(self, by: str, parts: dict[str, Numbers], share: bool = False) -> pd.DataFrame:
        return self._table("nodes" if by == "node" else "all", parts if by == "node" else {name: _mean(part) for name, part in parts.items()}, share)

    def _table(self, rows: str, parts: dict[str, Numbers], share: bool = False, packets: Numbers | None = None) -> pd.DataFrame:
        """A row for each column of the arrays and each quantity, the quantities of one next to each other; `packets` has of how many packets
        each is."""
        keys = self._tallies.rows[rows]
        counted = None if packets is None else np.hstack([packets] * len(parts))
        spread = intervals.over_seeds(np.hstack(list(parts.values())), bounds=(0.0, 1.0 if share else np.inf), packets=counted)
        place = np.tile(np.arange(len(keys)), len(parts))
        table = pd.concat([keys.iloc[place].reset_index(drop=True), spread], axis=1)
        table.insert(len(keys.columns), "quantity", np.repeat(list(parts), len(keys)))
        return table.iloc[np.argsort(place, kind="stable")].reset_index(drop=True)

    def _told(self, table: pd.DataFrame) -> pd.DataFrame:
        """The table with the names of nodes, and where it comes from."""
        table = labels.named(self.scenario, table)
        table.attrs.update(self.origin)
        return table


def sample(
    network: Scenario,
    seeds: Iterable[int] = range(1, 101),
    *,
    receivers: Receivers = None,
    deadline: float | None = None,
    executor: Any = None,
    results: str | os.PathLike[str] | None = None,
    progress: bool | TextIO = True,
) -> Sample:
    """How the answers about a network spread over seeds.

    Each seed draws the losses anew from the reception ratios (`prr`, `ratios`), and the run may be as long as for `results.outcome`. Of a
    `foldcairn.plan.Plan` it draws all else that is by chance too. Times are by plan, in seconds.

    The answers do not depend on how the seeds are dealt out. A seed is kept by all that it depends on: the network's text with its
    ratios, the receivers, the deadline, the checksum of the program and the version of this package. A network whose losses were drawn,
    as that of a log, is sampled as it was before.

    Parameters
    ----------
    network : Scenario
        The network.
    seeds : iterable of int
        The seeds of the losses.
    receivers : optional
        For whom packets are meant, in the forms of `foldcairn.receivers`. Where streams have `keep_alive`, whose packets the program
        counts too, each seed is asked for its deliveries and fates in addition, which takes about three times as long.
    deadline : float, optional
        A time in seconds, for the part of the packets that is delivered within it (`Sample.deadline`).
    executor : optional
        An executor of `concurrent.futures`, or a client of `distributed`; without one a process for each processor.
    results : path, optional
        A folder that keeps each seed in a file as soon as it is there; a later call, also one of other seeds, takes what is there.
    progress : bool or file
        A bar on standard error or on the stream that is given, a line a minute where that is no terminal; False: none.

    Returns
    -------
    Sample
        The answers, as `Sample` says.

    Raises
    ------
    ArgumentError
        Where the network has no ratios (each seed would be the same), nothing is put, or an argument is out of its range.
    sweep.SweepStopped
        Where the executor breaks down.
    program.ProgramError
        As `program.execute` does.
    """
    network = networks.network("network", network)
    receivers = arguments.settled(receivers)
    meant(network, receivers)
    listed = many.checked(seeds)
    limit = None if deadline is None else arguments.real("deadline", deadline, above=0)
    doubts.warn(() if limit is None else doubts.of_deadline(network, limit))
    if not network.is_to_be_drawn and network.by_seed() is None:
        raise arguments.ArgumentError(
            "the network has no reception ratios: each seed would be the same; give its links a `prr`, or take foldcairn.outcome"
        )
    asked = tallies.question(network, receivers, limit)
    (told,) = many.answers([asked], listed, executor=executor, results=results, progress=progress)
    return of(network, listed, receivers, limit, told)


def of(network: Scenario, seeds: Sequence[int], receivers: Receivers, deadline: float | None, told: Sequence[Any]) -> Sample:
    """The sample of the answers to `tallies.question` of each of these seeds."""
    origin = sweep.origin(seeds, {"scenario": network})
    found = tallies.Tallies.of(told, network, meant(network, receivers))
    return Sample(network.copy(), tuple(seeds), findings.whom(network, receivers), deadline, origin, found)


def summary(found: Counts, receivers: Receivers) -> dict[str, float]:
    """The numbers of `planning.summary` that counts of one seed have, with the parts of the packets with each fate. Raises
    `ArgumentError` where they are of several."""
    if len(found.seeds) != 1:
        raise arguments.ArgumentError(f"a summary is of one seed, and these are counts of {len(found.seeds)}; take planning.sample for many")
    runs = of(found.scenario, found.seeds, receivers, None, tallies.tally(found, receivers, None)).runs
    names = ("ratio_of_put", "latency_median_seconds", "latency_p90_seconds", *_FATES, "duty_cycle", "duty_cycle_in_rounds")
    return {name: float(runs[name].iloc[0]) for name in names}


def _ratio(part: Numbers, whole: Numbers) -> Numbers:
    """A part of a whole; missing where there is none."""
    found: Numbers = part / np.where(whole > 0, whole, np.nan)
    return found


def _mean(part: Numbers) -> Numbers:
    """The means over the nodes that had power, in one column."""
    found: Numbers = pd.DataFrame(part).mean(axis=1).to_numpy()[:, None]
    return found


def _least(part: Numbers) -> Numbers:
    """The least over the nodes that had power, in one column."""
    found: Numbers = pd.DataFrame(part).min(axis=1).to_numpy()[:, None]
    return found
