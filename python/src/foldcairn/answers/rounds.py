"""Rounds, hosts and joining: which host serves when, when nodes joined, when streams got their slots, how contention went,
and how long a change of hosts took. `planning` has all answers in one place. Tested, not proved.

A *term* is the time in which one host serves without a restart: it is told by the rank and the boot of the host, which its
schedules carry. All times are seconds of true time from the start of the run.
"""

from __future__ import annotations

from bisect import bisect_right
from operator import itemgetter
from typing import Any, NamedTuple, TypeAlias

import numpy as np
import pandas as pd
from numpy.typing import NDArray

from ..model import lines
from ..model.events import Stream
from ..runs.results import TICKS_A_SECOND, Log, plain_rows
from . import power
from .answering import answer

# The guard time: an initiator transmits this long after its window opens, so the opening of a round this long after its start.
GUARD_TICKS = 64_000
TERM = ["rank", "host_boot"]
STREAM = ["node", "boot", "stream"]
# The values of `STREAM`, or of `TERM` and `STREAM`.
Key: TypeAlias = tuple[int, ...]
_NEVER = float("nan")
# More than any rank, and than any boot.
_RANKS, _BOOTS = 16, 256


@answer
def rounds(log: Log) -> pd.DataFrame:
    """The rounds of a run.

    Parameters
    ----------
    log : results.Log
        The run.

    Returns
    -------
    pandas.DataFrame
        A row for each round that a host opened, by frame and rank.

        frame, rank, host, host_boot
            the host is a node, and `host_boot` tells which boot of it
        start_ticks, start_seconds
            when slot 0 starts by the host's clock, in true time
        data_slots, contention_slots
            how many the round has; its closing slot comes after them
        acknowledgements
            requests that its closing acknowledges
        gap
            frames to the next round, as its closing says; -1 where the log has no closing of it, as one that was recorded may lack it
    """
    schedules = log.initiations[log.initiations["kind"].isin(["opening", "closing"])]
    keys = ["frame", "rank"]
    opening = schedules[schedules["kind"] == "opening"].set_index(keys)
    closing = schedules[schedules["kind"] == "closing"].set_index(keys)
    table = pd.DataFrame(
        {
            "host": opening["node"],
            "host_boot": opening["host_boot"],
            "start_ticks": opening["start_ticks"] - GUARD_TICKS,
            "start_seconds": (opening["start_ticks"] - GUARD_TICKS) / TICKS_A_SECOND,
            "data_slots": pd.Series([len(one.owners) for one in opening["decoded"]], opening.index, dtype="int64"),
            "contention_slots": opening["contention_slots"],
        }
    )
    taken = [len(one.acknowledgements) for one in closing["decoded"]]
    table["acknowledgements"] = pd.Series(taken, closing.index, dtype="int64").reindex(table.index, fill_value=0)
    table["gap"] = closing["gap"].reindex(table.index, fill_value=-1)
    return table.reset_index().sort_values(keys, ignore_index=True)


class Term(NamedTuple):
    """The host of a term, when its first and its last round start, and how many there are."""

    host: int
    first_seconds: float
    last_seconds: float
    rounds: int


def terms(log: Log) -> dict[tuple[int, int], Term]:
    """The terms of hosts by rank and boot, in the order of their first rounds."""
    found: dict[tuple[int, int], Term] = {}
    for rank, boot, host, start in sorted(plain_rows(rounds(log), *TERM, "host", "start_seconds"), key=itemgetter(3)):
        one = found.get((rank, boot), Term(host, start, start, 0))
        found[rank, boot] = one._replace(last_seconds=start, rounds=one.rounds + 1)
    return found


@answer
def joins(log: Log) -> pd.DataFrame:
    """When each node joined each term of a host.

    Where a closing slot loses nothing, every node within 12 hops that takes part receives it: that is proved of the rules
    (docs/GUARANTEES.md, "Where nothing is lost").

    Parameters
    ----------
    log : results.Log
        The run.

    Returns
    -------
    pandas.DataFrame
        A row for each node, boot and term, and one with no term for a boot that never joined. Times are true time, in seconds from the
        start of the run.

        node, boot
            the node and which of its boots
        on_seconds
            when that boot began
        rank, host, host_boot
            the term; -1 in a row without one
        joined_seconds
            when the node received the first closing schedule of the term: from then on it knows the next round, and its radio is on in
            rounds alone. For the host itself, when it opened its first round
        waited_seconds
            from `on_seconds` to `joined_seconds`
        start
            "first start" (the first term of the node's first boot), "power cycle" (the first term of a later boot), or "another host"
            (the boot had joined a term before)
    """
    hosts = log.scenario.hosts
    own = {term: (one.host, one.first_seconds) for term, one in terms(log).items()}
    heard = _closings_received(log)
    rows: list[tuple[int, int, float, int, int, int, float]] = []
    for node, boot, on_seconds, off_seconds in _boots(log):
        joined = [(seconds, *term) for term, (host, seconds) in own.items() if host == node and on_seconds < seconds <= off_seconds]
        joined += _first_of_each(heard.get(node), on_seconds, off_seconds)
        rows += [(node, boot, on_seconds, rank, hosts.get(rank, -1), host_boot, seconds) for seconds, rank, host_boot in sorted(joined)]
        if not joined:
            rows.append((node, boot, on_seconds, -1, -1, -1, float("nan")))
    rows.sort(key=lambda row: (np.isnan(row[-1]), 0.0 if np.isnan(row[-1]) else row[-1], row[0]))
    table = pd.DataFrame(rows, columns=["node", "boot", "on_seconds", "rank", "host", "host_boot", "joined_seconds"])
    table["waited_seconds"] = table["joined_seconds"] - table["on_seconds"]
    table["start"] = pd.Categorical(_starts(rows), categories=["first start", "power cycle", "another host"])
    return table


def _boots(log: Log) -> list[tuple[int, int, float, float]]:
    """Node, boot, and when that begins and ends, of each boot in order."""
    rows = plain_rows(power.boots_of(log), "node", "boot", "on_seconds", "off_seconds")
    return [(node, boot, on_seconds, off_seconds) for node, boot, on_seconds, off_seconds in rows]


def _closings_received(log: Log) -> dict[int, tuple[NDArray[np.float64], NDArray[np.int64]]]:
    """When each node had received closing schedules of others, and the term of each as one number."""
    table = log.receptions
    closing = (table["kind"] == "closing").to_numpy()
    # The relays of its own schedules reach a host again, and change nothing there.
    host = np.array([log.scenario.hosts.get(rank, -1) for rank in range(_RANKS)])
    node, rank = table["node"].to_numpy()[closing], table["rank"].to_numpy()[closing]
    packet = table["packet"].cat
    boots = log.packets["host_boot"].to_numpy()[log.packets.index.get_indexer(packet.categories)]
    term = rank * _BOOTS + boots[packet.codes.to_numpy()[closing]]
    seconds = table["end_seconds"].to_numpy()[closing]
    other = node != host[rank]
    return {one: (seconds[ours], term[ours]) for one in np.unique(node[other]).tolist() for ours in [other & (node == one)]}


def _first_of_each(
    heard: tuple[NDArray[np.float64], NDArray[np.int64]] | None, on_seconds: float, off_seconds: float
) -> list[tuple[float, int, int]]:  # fmt: skip
    """When a boot had received the first closing schedule of each term, with the term."""
    if heard is None:
        return []
    seconds, term = heard
    inside = (seconds > on_seconds) & (seconds <= off_seconds)
    seconds, term = seconds[inside], term[inside]
    return [(float(seconds[term == one].min()), one // _BOOTS, one % _BOOTS) for one in np.unique(term).tolist()]


def _starts(rows: list[tuple[int, int, float, int, int, int, float]]) -> list[str]:
    """Of each row, by time, whether its boot is the first, a later one, or had joined a term before."""
    seen: set[tuple[int, int]] = set()
    found = []
    for node, boot, *_ in rows:
        found.append("another host" if (node, boot) in seen else "power cycle" if boot > 1 else "first start")
        seen.add((node, boot))
    return found


@answer
def streams(log: Log) -> pd.DataFrame:
    """When each stream got its slots.

    A lone request in a slot without losses within 12 hops of the host is acknowledged in the same round unless the host's table is full:
    that is proved of the rules (docs/GUARANTEES.md, "Where nothing is lost").

    Parameters
    ----------
    log : results.Log
        The run.

    Returns
    -------
    pandas.DataFrame
        A row for each term of a host and each stream that was requested by a `stream` line while its node had power and before the term's
        last round. Times are true time, in seconds from the start of the run; they are missing where it never came to it.

        rank, host, host_boot
            the term
        node, boot, stream
            the stream of that boot of the node
        configured_seconds
            when the first `stream` line of it took effect
        requests
            how many requests its node transmitted in the rounds of the term (a host asks itself, without any)
        requested_seconds
            when it transmitted the first of them
        accepted_seconds
            when the host first acknowledged one; for a stream of the host itself, when it first planned a slot
        first_slot_seconds
            when the stream's first data slot in the term starts by the host's clock, in true time
        slots, packets
            how many data slots it had in the term, and in how many of them a packet was sent

        After a restart of its node a stream may still own slots that its earlier boot was granted; they count for the boot that has power
        then.
    """
    requested, accepted, planned, slots = _requested(log), _accepted(log), _planned_by_hosts(log), _slots(log)
    rows = []
    for term, one in sorted(terms(log).items()):
        for stream, (configured, off) in sorted(_configured(log).items()):
            if configured > one.last_seconds or off <= one.first_seconds:
                continue
            key = (*term, *stream)
            count, first = requested.get(key, (0, _NEVER))
            since = planned.get(key, _NEVER) if one.host == stream[0] else accepted.get(key, _NEVER)
            rows.append((term[0], one.host, term[1], *stream, configured, count, first, since, *slots.get(key, (_NEVER, 0, 0))))
    columns = ["rank", "host", "host_boot", *STREAM, "configured_seconds", "requests", "requested_seconds", "accepted_seconds",
               "first_slot_seconds", "slots", "packets"]  # fmt: skip
    rows.sort(key=lambda row: (row[0], row[2], np.isnan(row[9]), 0.0 if np.isnan(row[9]) else row[9], row[3]))
    return pd.DataFrame(rows, columns=columns)


def _configured(log: Log) -> dict[Key, tuple[float, float]]:
    """The streams that a `stream` line of a node with power gives, by boot: since when, and when the boot ends."""
    found: dict[Key, tuple[float, float]] = {}
    boots = _boots(log)
    for line in power.script(log.scenario):
        if isinstance(line, Stream):
            seconds = line.frame * float(log.scenario.frame_seconds)
            for node, boot, on_seconds, off_seconds in boots:
                if node == line.node and on_seconds <= seconds < off_seconds:
                    found.setdefault((node, boot, line.stream), (seconds, off_seconds))
    return found


def _requested(log: Log) -> dict[Key, tuple[int, float]]:
    """How often each stream was requested in the rounds of each term, and when first."""
    host_boots = {(frame, rank): boot for frame, rank, boot in plain_rows(rounds(log), "frame", "rank", "host_boot")}
    found: dict[Key, tuple[int, float]] = {}
    asked = log.initiations[(log.initiations["kind"] == "request") & (log.initiations["interval"] > 0)]
    for frame, rank, node, boot, stream, seconds in plain_rows(asked, "frame", "rank", *STREAM, "start_seconds"):
        if (frame, rank) in host_boots:
            key = (rank, host_boots[frame, rank], node, boot, stream)
            count, first = found.get(key, (0, seconds))
            found[key] = count + 1, min(first, seconds)
    return found


def _closings(log: Log) -> list[tuple[Any, ...]]:
    """Rank, boot of the host, host, start and packet of each closing schedule that a host sent, in order."""
    closings = log.initiations[log.initiations["kind"] == "closing"]
    return plain_rows(closings, "rank", "host_boot", "node", "start_seconds", "decoded")


def _accepted(log: Log) -> dict[Key, float]:
    """When each stream was first acknowledged in each term."""
    found: dict[Key, float] = {}
    for rank, host_boot, _, seconds, packet in _closings(log):
        for one in packet.acknowledgements:
            if one.interval:
                found.setdefault((rank, host_boot, one.node, one.boot, one.stream), seconds)
    return found


def _planned_by_hosts(log: Log) -> dict[Key, float]:
    """When a host first planned a slot for a stream of its own."""
    found: dict[Key, float] = {}
    for rank, host_boot, node, seconds, packet in _closings(log):
        for owner in packet.owners:
            if owner.node == node:
                found.setdefault((rank, host_boot, node, host_boot, owner.stream), seconds)
    return found


@answer
def data_slots(log: Log) -> pd.DataFrame:
    """The data slots of a run.

    Parameters
    ----------
    log : results.Log
        The run.

    Returns
    -------
    pandas.DataFrame
        A row for each data slot of each round that a host opened: `frame`, `rank`, `host_boot`, `slot`, the stream that owns it by
        `node`, `boot` (the boot that had power then, or the last before) and `stream`, `slot_seconds`, when it starts by the host's
        clock, in true time, and whether a packet was `sent` in it.
    """
    openings = log.initiations[log.initiations["kind"] == "opening"]
    data = log.initiations[log.initiations["kind"] == "data"]
    sent = set(plain_rows(data, "frame", "rank", "slot"))
    begun: dict[int, tuple[list[float], list[int]]] = {}
    for node, boot, on_seconds, _ in _boots(log):
        times, boots = begun.setdefault(node, ([], []))
        times.append(on_seconds)
        boots.append(boot)
    slot_seconds = lines.slot_ticks(log.scenario.profile) / TICKS_A_SECOND
    rows = []
    for frame, rank, host_boot, start, packet in plain_rows(openings, "frame", "rank", "host_boot", "start_seconds", "decoded"):
        for slot, owner in enumerate(packet.owners, 1):
            seconds = start - GUARD_TICKS / TICKS_A_SECOND + slot * slot_seconds
            times, boots = begun.get(owner.node, ([], []))
            place = bisect_right(times, seconds)
            boot = boots[place - 1] if place else 0
            rows.append((frame, rank, host_boot, slot, owner.node, owner.stream, seconds, boot, (frame, rank, slot) in sent))
    rows.sort(key=lambda row: (row[0], row[1], row[3]))
    columns = ["frame", *TERM, "slot", "node", "stream", "slot_seconds", "boot", "sent"]
    return pd.DataFrame(rows, columns=columns).astype({"sent": "bool"})


def _slots(log: Log) -> dict[Key, tuple[float, int, int]]:
    """Of each stream in each term when its first data slot was, how many it had, and in how many a packet was sent."""
    found: dict[Key, tuple[float, int, int]] = {}
    for *key, seconds, sent in plain_rows(data_slots(log), *TERM, *STREAM, "slot_seconds", "sent"):
        first, count, packets = found.get(tuple(key), (seconds, 0, 0))
        found[tuple(key)] = min(first, seconds), count + 1, packets + sent
    return found
