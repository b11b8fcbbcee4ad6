"""The times that pictures of a run show: its slots, rounds and searches. Tested, not proved."""

from __future__ import annotations

import numpy as np
import pandas as pd

from ..model import lines
from ..runs.results import TICKS_A_SECOND, Log
from . import power, radio
from .answering import answer


@answer
def slots(log: Log) -> pd.DataFrame:
    """A row for each slot of each round that took place, also of those without their host.

    frame, rank, slot    the slot and its round
    start_ticks, end_ticks, start_seconds, end_seconds   when it is by the host's clock, in true time; without a host by the
                         round before it (`radio.plans`)
    name                 "opening", "data 7.0" (of stream 0 of node 7, by its name if it has one), "contention" or "closing"
    """
    plans = radio.plans(log)
    windows = radio.tunings(log)
    windows = windows[windows["purpose"] != "searching"]
    frame = windows["start_ticks"] // lines.frame_ticks(log.scenario.profile)
    plans = plans.loc[plans.index.isin(pd.MultiIndex.from_arrays([frame, windows["rank"]]))]
    length = lines.slot_ticks(log.scenario.profile)
    rows = [
        (*place, slot, plan["start_ticks"] + slot * length, name)
        for place, plan in plans.iterrows()
        for slot, name in enumerate(_names(log, plan))
    ]
    table = pd.DataFrame(rows, columns=["frame", "rank", "slot", "start_ticks", "name"])
    table = table.astype({"frame": "int64", "rank": "int64", "slot": "int64", "start_ticks": "int64"})
    table["end_ticks"] = table["start_ticks"] + length
    for name in ("start", "end"):
        table[f"{name}_seconds"] = table[f"{name}_ticks"] / TICKS_A_SECOND
    return table.sort_values("start_ticks", ignore_index=True)


def _names(log: Log, plan: pd.Series) -> list[str]:
    owners = [f"data {log.scenario.stream_name(owner.node, owner.stream)}" for owner in plan["owners"]]
    return ["opening", *owners, *["contention"] * plan["contention_slots"], "closing"]


@answer
def spells(log: Log) -> pd.DataFrame:
    """The times with the radio on, without the pauses within a round: a row for each node and round, and one for each search.

    node, rank, start_seconds, end_seconds    who, at the channel of which rank, and when
    searching    whether the node searched; tunings of a search that meet are one
    """
    table = radio.tunings(log)
    table["searching"] = table["purpose"] == "searching"
    table["frame"] = (table["start_ticks"] // lines.frame_ticks(log.scenario.profile)).where(~table["searching"], -1)
    table = table.sort_values(["node", "start_ticks"], ignore_index=True)
    apart = table["searching"] & (table.groupby("node")["end_ticks"].shift() != table["start_ticks"])
    new = apart | (table[["node", "rank", "frame"]] != table[["node", "rank", "frame"]].shift()).any(axis=1)
    grouped = table.groupby(new.cumsum())
    return grouped.agg(
        node=("node", "first"), rank=("rank", "first"), start_seconds=("start_seconds", "min"),
        end_seconds=("end_seconds", "max"), searching=("searching", "first"),
    ).reset_index(drop=True)  # fmt: skip


@answer
def pauses(log: Log) -> pd.DataFrame:
    """When nodes had no power: `node`, `start_seconds`, `end_seconds`."""
    rows = []
    boots = power.boots_of(log)
    for node in sorted(log.scenario.nodes):
        ours = boots[boots["node"] == node]
        starts = [0.0, *ours["off_seconds"]]
        ends = [*ours["on_seconds"], float(log.scenario.seconds)]
        rows += [(node, start, end) for start, end in zip(starts, ends) if start < end]
    return pd.DataFrame(rows, columns=["node", "start_seconds", "end_seconds"]).astype({"node": "int64"})


def within(table: pd.DataFrame, start_seconds: float, end_seconds: float) -> pd.DataFrame:
    """The rows of a table with `start_seconds` and `end_seconds` that lie in this time, at least in part, cut to it."""
    inside = table[(table["end_seconds"] > start_seconds) & (table["start_seconds"] < end_seconds)].copy()
    inside["start_seconds"] = np.maximum(inside["start_seconds"], start_seconds)
    inside["end_seconds"] = np.minimum(inside["end_seconds"], end_seconds)
    return inside
