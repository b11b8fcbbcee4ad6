"""How much was delivered, and how soon: delivery ratios and latencies. `planning` has all answers in one place.

What became of each packet is the answer of the planner's program (`foldcairn.answers.arrivals`), which is proved; a log adds the times. Each
answer takes a `results.Log`, or a report without a log, as `results.outcome` gives it for runs of hours. All times are seconds from
the start of the run, or spans of it. Those of a log are true time. A report without a log has no true times of packets: the columns
of its times begin with `planned_`, and are by plan. A latency counts from the time that was given for the put (`foldcairn.model.moments`);
with a log it is exact, without one it is at least the real one. This module is tested, not proved.
"""

from __future__ import annotations

import numpy as np
import pandas as pd

from ..common import arguments
from ..model import doubts
from ..model.receivers import NO_HOST, Meant, Receivers, meant, stream_index
from ..runs.results import PACKET, Log, Report
from . import arrivals, power
from .answering import report_answer
from .fates import packets


def _received(log: Report) -> pd.DataFrame:
    """The deliveries with `delivered_seconds`: when the node had received the packet, or by when at the latest where there is no log."""
    if isinstance(log, Log):
        return log.deliveries
    return log.deliveries.assign(delivered_seconds=arrivals.planned_seconds(log.scenario, log.deliveries["frame"], log.deliveries["slot"]))


# The columns by which rows are told, for each word that `by` may be.
_KEYS: dict[str, list[str]] = {"stream": ["source", "stream"], "node": ["node"], "pair": ["source", "stream", "node"], "all": []}


def _keys(by: str, *words: str) -> list[str]:
    return _KEYS[arguments.one_of("by", by, words)]


@report_answer
def delivery_ratio(
    log: Report,
    by: str = "stream",
    *,
    receivers: Receivers = None,
    start_seconds: float = 0.0,
    end_seconds: float | None = None,
) -> pd.DataFrame:
    """How much of what was put, and of what was sent, was delivered.

    Parameters
    ----------
    log : results.Report
        The run: its log, or a report without one.
    by : {"stream", "node", "pair", "all"}
        What has a row: each source and stream that is requested or gets packets, each receiving node, each of these pairs, or all
        together.
    receivers : optional
        For whom packets are meant, in the forms of `foldcairn.receivers`: "hosts" is whichever host serves, so a packet that was never
        sent is in no row of a node.
    start_seconds : float
        Only packets that were put from then on count, in seconds of true time from the start of the run.
    end_seconds : float, optional
        Only packets that were put before then count; without it the end of the run.

    Returns
    -------
    pandas.DataFrame
        Counts of pairs of a packet and a receiver of it.

        put, sent
            the packets that were put, and those of them that their node transmitted
        sent_while_on
            those that it transmitted in a frame in which the receiver had power
        delivered
            those that the receiver delivered
        ratio_of_put, ratio_of_sent, ratio_of_sent_while_on
            `delivered` as a part of each, 0 to 1; missing where there is none

    Raises
    ------
    ArgumentError
        Where `by` is another word, the time is no part of the run, or `receivers` names what the scenario does not have.
    """
    keys = _keys(by, *_KEYS)
    pairs = _within(log, _pairs(log, receivers), start_seconds, end_seconds)
    counts = ["put", "sent", "sent_while_on", "delivered"]
    table = _summed(log, pairs, by, keys, counts)
    for count in counts[:-1]:
        table[f"ratio_of_{count}"] = table["delivered"] / table[count].where(table[count] > 0)
    return table


def _summed(log: Report, pairs: pd.DataFrame, by: str, keys: list[str], counts: list[str]) -> pd.DataFrame:
    """The sums of these columns, which are truths, over pairs that are `inside`: a row for each group, also where it is 0."""
    if "node" in keys:
        pairs = pairs[pairs["node"] != NO_HOST]
    # As numbers: for truths in large tables pandas warns of the product.
    values = pairs[counts].astype("int64").mul(pairs["inside"].astype("int64"), axis=0)
    if not keys:
        return values.sum().astype("int64").to_frame().T
    table = values.astype("int64").groupby([pairs[key] for key in keys]).sum()
    if by == "stream":
        table = table.reindex(stream_index(log.scenario), fill_value=0)
    return table.reset_index()


def _within(log: Report, table: pd.DataFrame, start_seconds: float, end_seconds: float | None) -> pd.DataFrame:
    """The table with a column that tells whether a packet was put in this time."""
    start, end = arguments.window(start_seconds, end_seconds, log.scenario.seconds)
    return table.assign(inside=(table["put_seconds"] >= start) & (table["put_seconds"] < end))


def _pairs(log: Report, receivers: Receivers) -> pd.DataFrame:
    """A row for each packet that was put and each node that it is meant for, with what became of it there. What was worked out last is
    kept: several answers ask for the same."""
    whom = meant(log.scenario, receivers)
    kept: tuple[object, pd.DataFrame] | None = log.__dict__.get("_pairs")
    about = whom.by_stream, frozenset(log.scenario.keep_alive)
    if kept is None or kept[0] != about:
        kept = log.__dict__["_pairs"] = (about, _worked_out(log, whom))
    return kept[1]


def _worked_out(log: Report, whom: Meant) -> pd.DataFrame:
    run = arrivals.of_report(log)
    pairs, came = run.pairs(whom), _received(log).loc[run.meant(whom).index, "delivered_seconds"].to_numpy()
    place, delivery = pairs["place"].to_numpy(), pairs["delivery"].to_numpy()
    put, sent_frame = packets(log), run.put["sent_frame"].to_numpy()[place]
    power_of = power.powered(log.scenario)
    # A packet that was not sent has no frame; whatever the frame 0 says of it does not count.
    powered = power_of.to_numpy()[sent_frame.clip(min=0), power_of.columns.get_indexer(pairs["node"])]
    parts = {name: put[name].to_numpy()[place] for name in ("source", "stream", "put_seconds")}
    return pd.DataFrame({
        **parts, "node": pairs["node"], "delivered_seconds": np.append(came, np.nan)[delivery], "delivered": delivery >= 0,
        "put": True, "sent": sent_frame >= 0, "sent_while_on": (sent_frame >= 0) & powered,
    })  # fmt: skip


@report_answer
def deadline(
    log: Report,
    seconds: float,
    by: str = "stream",
    *,
    receivers: Receivers = None,
    start_seconds: float = 0.0,
    end_seconds: float | None = None,
) -> pd.DataFrame:
    """Which part of the packets is delivered within a deadline.

    A deadline counts from the time that was given for the put. Packets whose deadline lies after the end of the run are left out: nobody
    knows.

    Parameters
    ----------
    log : results.Report
        The run: its log, or a report without one.
    seconds : float
        The deadline: so many seconds after the put, above 0.
    by : {"stream", "node", "pair", "all"}
        What has a row, as in `delivery_ratio`.
    receivers : optional
        For whom packets are meant, in the forms of `foldcairn.receivers`; without it what the scenario says.
    start_seconds : float
        Only packets that were put from then on count, in seconds of true time from the start of the run.
    end_seconds : float, optional
        Only packets that were put before then count; without it the end of the run.

    Returns
    -------
    pandas.DataFrame
        Counts of pairs of a packet and a receiver of it, by true time, or by plan where there is no log (see `latencies`).

        due
            the packets whose deadline lies within the run
        in_time
            those that were delivered within it
        late
            those that were delivered after it
        never
            those that were not delivered by the end of the run
        share
            `in_time` as a part of `due`, 0 to 1; missing where none is due

    Raises
    ------
    ArgumentError
        Where the deadline is not above 0, and where `delivery_ratio` raises it.
    """
    keys = _keys(by, *_KEYS)
    seconds = arguments.real("seconds", seconds, above=0)
    doubts.warn(doubts.of_deadline(log.scenario, seconds), 5)
    pairs = _within(log, _pairs(log, receivers), start_seconds, end_seconds)
    pairs["due"] = pairs["put_seconds"] + seconds <= log.scenario.seconds
    pairs["in_time"] = pairs["due"] & (pairs["delivered_seconds"] - pairs["put_seconds"] <= seconds)
    pairs["late"] = pairs["due"] & pairs["delivered"] & ~pairs["in_time"]
    pairs["never"] = pairs["due"] & ~pairs["delivered"]
    table = _summed(log, pairs, by, keys, ["due", "in_time", "late", "never"])
    table["share"] = table["in_time"] / table["due"].where(table["due"] > 0)
    return table


@report_answer
def latencies(log: Report, *, receivers: Receivers = None) -> pd.DataFrame:
    """How long each packet took to each node that it is meant for.

    Parameters
    ----------
    log : results.Report
        The run: its log, or a report without one.
    receivers : optional
        For whom packets are meant, in the forms of `foldcairn.receivers`; without it what the scenario says.

    Returns
    -------
    pandas.DataFrame
        A row for each delivery, with the packet (`source`, `boot`, `stream`, `number`), the `node`, and times in seconds of true time
        from the start of the run.

        put_seconds
            the time that was given for its put, as `packets` has it
        delivered_seconds
            when the node had received it, see `results.Log`
        latency_seconds
            `delivered_seconds` less `put_seconds`

        A report without a log has `planned_delivered_seconds` and `planned_latency_seconds` in place of the last two: by when the node
        had received it at the latest, which is the end of its slot by plan and what the slowest clock of the scenario may lose (up to
        0.41 s in the longest runs), and this less `put_seconds`.

    Raises
    ------
    ArgumentError
        As `delivery_ratio` does.
    """
    clock = "" if isinstance(log, Log) else "planned_"
    run = arrivals.of_report(log)
    came = run.meant(meant(log.scenario, receivers))
    table = _received(log).loc[came.index, [*PACKET, "node", "delivered_seconds"]].astype(dict.fromkeys(PACKET, "int64"))
    table["put_seconds"] = packets(log)["put_seconds"].to_numpy()[came["place"].to_numpy()]
    table[f"{clock}latency_seconds"] = table["delivered_seconds"] - table["put_seconds"]
    return table.rename(columns={"delivered_seconds": f"{clock}delivered_seconds"}).reset_index(drop=True)


def waited(log: Report, receivers: Receivers = None) -> pd.Series:
    """The latency of each delivery of `latencies`, in seconds: of true time, or by plan where there is no log."""
    table = latencies(log, receivers=receivers)
    return table["latency_seconds" if isinstance(log, Log) else "planned_latency_seconds"]


@report_answer
def latency(log: Report, by: str = "stream", *, receivers: Receivers = None, start_seconds: float = 0.0,
            end_seconds: float | None = None) -> pd.DataFrame:  # fmt: skip
    """The time from put to delivery of what was delivered.

    `fates` says how many packets never came, `deadline` which part came in time, and `latencies` has each delivery.

    Parameters
    ----------
    log : results.Report
        The run: its log, or a report without one.
    by : {"stream", "node", "all"}
        What has a row: each source and stream, each receiving node, or all together.
    receivers : optional
        For whom packets are meant, in the forms of `foldcairn.receivers`; without it what the scenario says.
    start_seconds : float
        Only packets that were put from then on count, in seconds of true time from the start of the run.
    end_seconds : float, optional
        Only packets that were put before then count; without it the end of the run.

    Returns
    -------
    pandas.DataFrame
        The number of `deliveries`, and `min_seconds`, `median_seconds`, `p90_seconds`, `p99_seconds` and `max_seconds`, by true time, or
        where there is no log by plan and at least the real ones, as in `latencies`. A stream, or a receiver, that has no delivery is a
        row with 0 of them, and its times are missing.

    Raises
    ------
    ArgumentError
        As `delivery_ratio` does.
    """
    keys = _keys(by, "stream", "node", "all")
    table = _within(log, latencies(log, receivers=receivers), start_seconds, end_seconds)
    table["latency"] = waited(log, receivers)
    grouped = table[table["inside"]].groupby(keys or (lambda _: "all"))["latency"]
    summary = grouped.agg(
        deliveries="size", min_seconds="min", median_seconds="median", p90_seconds=lambda s: s.quantile(0.9),
        p99_seconds=lambda s: s.quantile(0.99), max_seconds="max",
    )  # fmt: skip
    whom = meant(log.scenario, receivers)
    rows = {
        "stream": stream_index(log.scenario),
        "node": pd.Index(sorted(whom.nodes()), name="node"),
        "all": pd.Index(["all"]),
    }[by]
    summary = summary.reindex(rows)
    summary["deliveries"] = summary["deliveries"].fillna(0).astype("int64")
    return summary.reset_index(drop=not keys)
