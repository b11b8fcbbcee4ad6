"""Which host serves when, how soon nodes were back, and how contention went. `planning` has all answers in one place; outages are in
`outages`. Tested, not proved.

All times are seconds of true time from the start of the run; `rounds` says what the term of a host is.
"""

from __future__ import annotations

import itertools
from collections import Counter
from collections.abc import Iterator, Mapping
from typing import Any

import numpy as np
import pandas as pd

from ..common import arguments
from ..runs.results import Log, plain_rows
from . import power
from .answering import answer
from .rounds import TERM, Term, joins, rounds, streams, terms


@answer
def hosts(log: Log, by: str = "term") -> pd.DataFrame:
    """Which host serves when.

    Parameters
    ----------
    log : results.Log
        The run.
    by : {"term", "at once"}
        What has a row: each term of a host, or each time in which two hosts served at once.

    Returns
    -------
    pandas.DataFrame
        A row for each term, by its first round. Times are true time, in seconds from the start of the run.

        rank, host, host_boot
            the term
        first_seconds, last_seconds
            when its first and its last round start
        rounds
            how many there are
        joined
            how many nodes joined it (see `joins`), the host among them
        all_joined_seconds
            when the last node joined that had power at the term's first round, or was switched on for the first time after it: power
            cycles have rows of their own (`power_cycles`). Missing if a node that had power all through the term never joined
        streams, accepted
            how many streams were requested by `stream` lines, and how many of them were accepted
        all_accepted_seconds
            when the last was accepted, streams of nodes that were switched on again during the term left out; missing if one never was
        at_once_seconds
            how long another host served at the same time. Nodes of one host receive nothing of the other: `results.returns` runs the rule
            by which a backup host goes back (docs/RETURN.md)

        With `by` = "at once" there is a row for each time in which two hosts served at once: the term of each, `start_seconds`,
        `end_seconds` and `seconds`.

    Raises
    ------
    ArgumentError
        Where `by` is another word.
    """
    arguments.one_of("by", by, ("term", "at once"))
    opened = terms(log)
    together = _at_once(opened, log.scenario.frame_seconds)
    if by == "at once":
        return together
    joined, asked = _by_term(log, opened, joins(log), "joined_seconds"), _by_term(log, opened, streams(log), "accepted_seconds")
    at_once = plain_rows(together, "rank", "host_boot", "other_rank", "other_host_boot", "seconds")
    rows = []
    for (rank, boot), one in opened.items():
        members, requests = joined.get((rank, boot), []), asked.get((rank, boot), [])
        nodes = {node for node, _, _ in members}
        everyone = _powered_all_through(log, one.first_seconds, one.last_seconds) <= nodes
        rows.append((
            rank, one.host, boot, one.first_seconds, one.last_seconds, one.rounds, len(nodes), _last(members) if everyone else np.nan,
            len(requests), sum(not np.isnan(seconds) for _, _, seconds in requests), _last(requests),
            sum((seconds for *both, seconds in at_once if [rank, boot] in (both[:2], both[2:])), 0.0),
        ))  # fmt: skip
    columns = ["rank", "host", "host_boot", "first_seconds", "last_seconds", "rounds", "joined", "all_joined_seconds", "streams",
               "accepted", "all_accepted_seconds", "at_once_seconds"]  # fmt: skip
    return pd.DataFrame(rows, columns=columns)


# A node, whether its boot is no power cycle within the term, and when it joined or was accepted.
_Member = tuple[int, bool, float]


def _by_term(log: Log, opened: Mapping[tuple[int, int], Term], table: pd.DataFrame, name: str) -> dict[tuple[int, int], list[_Member]]:
    """The rows of a table of nodes, boots and terms by their terms."""
    power_seconds = {(node, boot): seconds for node, boot, seconds in plain_rows(power.boots_of(log), "node", "boot", "on_seconds")}
    found: dict[tuple[int, int], list[_Member]] = {}
    for rank, host_boot, node, boot, seconds in plain_rows(table, *TERM, "node", "boot", name):
        if one := opened.get((rank, host_boot)):
            first = boot == 1 or power_seconds[node, boot] <= one.first_seconds
            found.setdefault((rank, host_boot), []).append((node, first, seconds))
    return found


def _last(members: list[_Member]) -> float:
    """The last time of those that are no power cycles; missing where there is none, or one has none."""
    times = [seconds for _, first, seconds in members if first]
    return max(times) if times and not np.isnan(times).any() else np.nan


def _at_once(opened: Mapping[tuple[int, int], Term], frame_seconds: int) -> pd.DataFrame:
    """The times in which two terms overlap. A host serves from its first round to the frame after its last one."""
    rows = []
    for (term, one), (other_term, other) in itertools.combinations(opened.items(), 2):
        start = max(one.first_seconds, other.first_seconds)
        last = min(one.last_seconds, other.last_seconds)
        if term[0] != other_term[0] and start <= last:
            end = last + frame_seconds
            rows.append((*term, one.host, *other_term, other.host, start, end, end - start))
    names = ["rank", "host_boot", "host", "other_rank", "other_host_boot", "other_host", "start_seconds", "end_seconds", "seconds"]
    table = pd.DataFrame(rows, columns=names)
    return table.astype({**{name: "int64" for name in names[:6]}, **{name: "float64" for name in names[6:]}})


@answer
def power_cycles(log: Log) -> pd.DataFrame:
    """How long a node took to be back after its power had been off.

    Parameters
    ----------
    log : results.Log
        The run.

    Returns
    -------
    pandas.DataFrame
        A row for each boot but the first of each node, by time. Times are true time, in seconds from the start of the run.

        node, boot
            the node and which of its boots
        off_seconds
            when its power went off before
        on_seconds
            when it came back
        host
            the host that it joined then; -1 if it joined none
        joined_seconds
            when it joined
        waited_seconds
            how long that was after `on_seconds`
    """
    boots = power.boots_of(log)
    boots["before"] = boots.groupby("node")["off_seconds"].shift()
    table = boots[boots["boot"] > 1].drop(columns="off_seconds").rename(columns={"before": "off_seconds"})
    first = joins(log).sort_values("joined_seconds").groupby(["node", "boot"], as_index=False).first()
    table = table.merge(first[["node", "boot", "host", "joined_seconds", "waited_seconds"]], how="left", on=["node", "boot"])
    table["host"] = table["host"].fillna(-1).astype("int64")
    columns = ["node", "boot", "off_seconds", "on_seconds", "host", "joined_seconds", "waited_seconds"]
    return table.sort_values(["on_seconds", "node"], ignore_index=True)[columns]


def _powered_all_through(log: Log, start_seconds: float, end_seconds: float) -> set[int]:
    boots = plain_rows(power.boots_of(log), "node", "on_seconds", "off_seconds")
    return {node for node, on_seconds, off_seconds in boots if on_seconds <= start_seconds and off_seconds >= end_seconds}


@answer
def contention(log: Log, by: str = "host") -> pd.DataFrame:
    """How contention went.

    Parameters
    ----------
    log : results.Log
        The run.
    by : {"host", "node", "slot"}
        What has a row: each term of a host, each node and boot that sent a request, or each contention slot in which a request was sent.

    Returns
    -------
    pandas.DataFrame
        Numbers of slots and requests.

        rounds
            the rounds of the term
        slots
            the contention slots of these rounds, and `used` those in which a request was sent
        collided
            those of the used in which several nodes sent one; by node: its requests in such slots. Where capture lets one through it is
            still acknowledged
        requests
            requests that were sent; relays don't count
        acknowledgements
            requests that closing schedules acknowledge
        success
            acknowledgements as a part of the requests, 0 to 1; missing where there was no request

        By slot there are `frame`, `rank`, `slot`, `slot_seconds` (when the first request started, in seconds of true time from the start
        of the run) and the ids of the `nodes`.

    Raises
    ------
    ArgumentError
        Where `by` is another word.
    """
    arguments.one_of("by", by, ("host", "node", "slot"))
    slots = _used_slots(log)
    acknowledged = Counter(_acknowledged(log, by))
    rows: list[tuple[Any, ...]] = []
    if by == "slot":
        rows = [(*place, min(starts), nodes, len(nodes), len(nodes) > 1) for place, (nodes, starts, _) in slots.items()]
        return pd.DataFrame(rows, columns=["frame", "rank", "slot", "slot_seconds", "nodes", "requests", "collided"]).astype({"collided": "bool"})
    if by == "node":
        boots = Counter(boot for _, _, boots in slots.values() for boot in boots)
        collided = Counter(boot for nodes, _, boots in slots.values() if len(nodes) > 1 for boot in boots)
        rows = [(*boot, count, collided[boot], acknowledged[boot]) for boot, count in sorted(boots.items())]
        return _with_success(pd.DataFrame(rows, columns=["node", "boot", "requests", "collided", "acknowledgements"]))
    of_term = {(frame, rank): boot for frame, rank, boot in plain_rows(rounds(log), "frame", "rank", "host_boot")}
    there = Counter[tuple[int, int]]()
    for rank, boot, count in plain_rows(rounds(log), *TERM, "contention_slots"):
        there[rank, boot] += count
    for term, one in terms(log).items():
        used = [nodes for (frame, rank, _), (nodes, _, _) in slots.items() if (rank, of_term.get((frame, rank))) == term]
        requests, several = sum(map(len, used)), sum(len(nodes) > 1 for nodes in used)
        rows.append((*term, one.host, one.rounds, there[term], len(used), several, requests, acknowledged[term]))
    columns = [*TERM, "host", "rounds", "slots", "used", "collided", "requests", "acknowledgements"]
    return _with_success(pd.DataFrame(rows, columns=columns))


# The nodes that sent a request in a slot, when they started, and their boots.
_Used = tuple[tuple[int, ...], list[float], list[tuple[int, int]]]


def _used_slots(log: Log) -> dict[tuple[int, int, int], _Used]:
    """The contention slots in which requests were sent, by frame, rank and slot."""
    asked = log.initiations[log.initiations["kind"] == "request"]
    found: dict[tuple[int, int, int], list[tuple[int, int, float]]] = {}
    for frame, rank, slot, node, boot, seconds in plain_rows(asked, "frame", "rank", "slot", "origin", "boot", "start_seconds"):
        found.setdefault((frame, rank, slot), []).append((node, boot, seconds))
    return {
        place: (tuple(sorted(node for node, _, _ in sent)), [seconds for _, _, seconds in sent], [(node, boot) for node, boot, _ in sent])
        for place, sent in sorted(found.items())
    }


def _acknowledged(log: Log, by: str) -> Iterator[tuple[int, int]]:
    """Of each acknowledgement the node and its boot, or the term."""
    closings = log.initiations[log.initiations["kind"] == "closing"]
    for rank, host_boot, packet in plain_rows(closings, *TERM, "decoded"):
        for one in packet.acknowledgements:
            yield (one.node, one.boot) if by == "node" else (rank, host_boot)


def _with_success(table: pd.DataFrame) -> pd.DataFrame:
    table = table.astype({"acknowledgements": "int64", "requests": "int64"})
    return table.assign(success=table["acknowledgements"] / table["requests"].where(table["requests"] > 0))


def no_host_from(log: Log) -> float:
    """From when on no host serves to the end of the run, in seconds; not a number if one serves at the end, or none ever did.

    It is when the last host lost power, or when the next round of that host was due."""
    opened = rounds(log)
    if opened.empty:
        return float("nan")
    # Where nobody knows the gap the next round may be due in the next frame.
    opened = opened.assign(due=opened["frame"] + opened["gap"].clip(lower=1))
    last = opened.sort_values("start_seconds").groupby(TERM).last()
    if (last["due"] >= log.scenario.frames).any():
        return float("nan")
    one = last.loc[last["start_seconds"].idxmax()]
    boots = power.boots_of(log)
    off = boots.loc[(boots["node"] == one["host"]) & (boots["on_seconds"] <= one["start_seconds"]), "off_seconds"].max()
    due = float(one["due"] * log.scenario.frame_seconds)
    return float(off) if off < log.scenario.seconds else due
