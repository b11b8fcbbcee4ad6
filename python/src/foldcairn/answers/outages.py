"""How long the network was without service. `planning` has all answers in one place. Tested, not proved."""

from __future__ import annotations

from typing import Any

import numpy as np
import pandas as pd

from ..common import arguments
from ..runs.results import Log
from . import fates, power, radio
from .answering import answer
from .rounds import TERM, rounds, terms
from .service import no_host_from

HOST, OWN_POWER, NO_PACKET = "host", "own power", "no packet"


@answer
def outages(log: Log, by: str = "host") -> pd.DataFrame:
    """How long the network was without service.

    Parameters
    ----------
    log : results.Log
        The run.
    by : {"host", "stream", "node"}
        What has a row, as below.

    Returns
    -------
    pandas.DataFrame
        Times are true time, in seconds from the start of the run.

        By "host": a row for each term but the first, by its first round, and one without `to_host` if nobody serves at the end.

        By "stream": the same for each term but the first and each `source` and `stream` that was delivered before it or in it, with the
        `cause`.

        By "node": a row for each time in which a node that had taken part in a round searched for a host again: `node`, `start_seconds`,
        `end_seconds`, `outage_seconds`, and `joined_again`, whether it was followed by a round and not by the end of the run or of the
        node's power.

        from_host, to_host
            the host of the term that began before it, and its own host; -1 if none takes over
        off_seconds
            when `from_host` lost power at last before this term began; missing if it never did
        last_round_seconds
            when the last round before this term's first one started
        first_round_seconds
            when the term's first round started
        last_delivery_seconds
            the last delivery in rounds of other terms before the term's first delivery, as `results.Log` has its time
        first_delivery_seconds
            the first delivery in rounds of the term
        ended
            whether there is one; an outage that has not ended lasts to the end of the run at least
        outage_seconds
            from the last delivery to the first, or to the end of the run; missing if there is none before
        since_off_seconds
            from `off_seconds` to `first_delivery_seconds`
        cause
            "own power" if the source itself had no power at some time of it, "no packet" if the source had no packet that could have been
            delivered earlier, and "host" else

    Raises
    ------
    ArgumentError
        Where `by` is another word.
    """
    arguments.one_of("by", by, ("host", "stream", "node"))
    if by == "node":
        return _searches(log)
    deliveries = _deliveries_by_term(log)
    keys = [] if by == "host" else ["source", "stream"]
    pieces = [_outages_of(change, deliveries, keys) for change in _changes(log).to_dict("records")]
    names = ["from_host", "to_host", *keys, "off_seconds", "last_round_seconds", "first_round_seconds", "last_delivery_seconds",
             "first_delivery_seconds", "ended", "outage_seconds", "since_off_seconds"]  # fmt: skip
    empty = pd.DataFrame(columns=names, dtype="float64")
    table = pd.concat(pieces, ignore_index=True) if pieces else empty
    table["ended"] = table["first_delivery_seconds"].notna()
    end = table["first_delivery_seconds"].fillna(float(log.scenario.seconds))
    table["outage_seconds"] = end - table["last_delivery_seconds"]
    table["since_off_seconds"] = table["first_delivery_seconds"] - table["off_seconds"]
    table = table[names].astype({name: "int64" for name in names[: 2 + len(keys)]})
    return table.assign(cause=_causes(log, table)) if keys else table


def _causes(log: Log, table: pd.DataFrame) -> pd.Categorical:
    """Why each stream was without deliveries."""
    put = fates.packets(log).rename(columns={"first_seconds": "delivered_seconds"})
    boots = power.boots_of(log)
    return pd.Categorical([_cause(log, row, put, boots) for row in table.itertuples()], categories=[HOST, OWN_POWER, NO_PACKET])


def _cause(log: Log, row: Any, put: pd.DataFrame, boots: pd.DataFrame) -> str:
    seconds = float(log.scenario.seconds)
    start = 0.0 if np.isnan(row.last_delivery_seconds) else row.last_delivery_seconds
    end = row.first_delivery_seconds if row.ended else seconds
    own = boots[(boots["node"] == row.source) & (boots["on_seconds"] <= start) & (boots["off_seconds"] >= end)]
    if own.empty:
        return OWN_POWER
    # A packet waits from the start of its frame on.
    put = put.assign(waits_from=put["frame"] * log.scenario.frame_seconds)
    waiting = put[(put["source"] == row.source) & (put["stream"] == row.stream) & (put["waits_from"] < end)]
    # What was put before the last delivery and came later, or never, was waiting all the time.
    waiting = waiting[waiting["delivered_seconds"].isna() | (waiting["delivered_seconds"] >= end)]
    back = seconds if np.isnan(row.first_round_seconds) else row.first_round_seconds
    return HOST if (waiting["waits_from"] < back).any() else NO_PACKET


def _changes(log: Log) -> pd.DataFrame:
    """A row for each term but the first, with the term before it, and one for the end if nobody serves then."""
    rows = [(*term, one.host, one.first_seconds) for term, one in terms(log).items()]
    table = pd.DataFrame(rows, columns=[*TERM, "to_host", "first_round_seconds"])
    silent = not np.isnan(no_host_from(log))
    if silent:
        table.loc[len(table)] = [-1, -1, -1, np.nan]
    starts = np.sort(rounds(log)["start_seconds"].to_numpy())
    table["from_host"] = table["to_host"].shift(fill_value=-1)
    if silent:
        table.loc[table.index[-1], "from_host"] = rounds(log).sort_values("start_seconds")["host"].iloc[-1]
    begun = table["first_round_seconds"].fillna(np.inf)
    before = np.searchsorted(starts, begun) - 1
    table["last_round_seconds"] = np.where(before >= 0, starts[before], np.nan)
    boots = power.boots_of(log)
    boots = boots[boots["off_seconds"] < log.scenario.seconds]
    table["off_seconds"] = [
        boots.loc[(boots["node"] == row.from_host) & (boots["off_seconds"] < first), "off_seconds"].max()
        for row, first in zip(table.itertuples(), begun)
    ]
    return table.iloc[1:]


def _deliveries_by_term(log: Log) -> pd.DataFrame:
    terms = rounds(log)[["frame", *TERM]].astype("int64")
    table = log.deliveries[["frame", "rank", "source", "stream", "delivered_seconds"]].astype({"frame": "int64", "rank": "int64"})
    return table.merge(terms, on=["frame", "rank"], how="left")


def _outages_of(change: dict[str, Any], deliveries: pd.DataFrame, keys: list[str]) -> pd.DataFrame:
    ours = (deliveries["rank"] == change["rank"]) & (deliveries["host_boot"] == change["host_boot"])
    group = keys or (lambda _: 0)
    first = deliveries[ours].groupby(group)["delivered_seconds"].min()
    earlier = deliveries[~ours]
    limit = first.reindex(pd.MultiIndex.from_frame(earlier[keys]) if keys else [0] * len(earlier)).fillna(np.inf).to_numpy()
    first_round = np.inf if np.isnan(change["first_round_seconds"]) else change["first_round_seconds"]
    begun = earlier["delivered_seconds"] < np.where(np.isinf(limit), first_round, limit)
    last = earlier[begun.to_numpy()].groupby(group)["delivered_seconds"].max()
    table = pd.DataFrame({"last_delivery_seconds": last, "first_delivery_seconds": first})
    if not keys and table.empty:
        table.loc[0] = np.nan
    for name in ("from_host", "to_host", "off_seconds", "last_round_seconds", "first_round_seconds"):
        table[name] = change[name]
    return table.reset_index() if keys else table


def _searches(log: Log) -> pd.DataFrame:
    """The times in which nodes searched again: tunings that search, those that meet taken as one, but the first of a boot."""
    table = radio.tunings(log)
    table = table[table["purpose"] == "searching"].sort_values(["node", "start_ticks"])
    before = table.groupby("node")["end_ticks"].shift()
    table["search"] = (before != table["start_ticks"]).cumsum()
    table = table.groupby(["node", "search"], as_index=False).agg({"start_seconds": "min", "end_seconds": "max"})
    boots = power.boots_of(log)
    begun, ended = (pd.MultiIndex.from_frame(boots[["node", name]]) for name in ("on_seconds", "off_seconds"))
    first = pd.MultiIndex.from_frame(table[["node", "start_seconds"]]).isin(begun)
    table = table[~first].drop(columns="search").reset_index(drop=True)
    table["outage_seconds"] = table["end_seconds"] - table["start_seconds"]
    table["joined_again"] = ~pd.MultiIndex.from_frame(table[["node", "end_seconds"]]).isin(ended)
    return table
