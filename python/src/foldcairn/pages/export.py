"""Runs as files for other tools: packet captures for Wireshark and tshark, and traces for Perfetto.

    from foldcairn import export, results

    log = results.log(scenario)
    export.pcap(log, "run.pcap")      # tshark -X lua_script:foldcairn.lua -r run.pcap
    export.trace(log, "run.json.gz")  # open it at ui.perfetto.dev or chrome://tracing

All times in them are true time from the start of the run. `dissector` is the path of the Lua script by which Wireshark and
tshark decode the packets. Tested, not proved.
"""

from __future__ import annotations

import contextlib
import gzip
import json
import os
import struct
from collections.abc import Iterator
from pathlib import Path
from typing import Any, BinaryIO

import pandas as pd

from ..answers import findings, radio, timing
from ..common import arguments, files
from ..model import lines
from ..runs.packets import Data, Packet, Request
from ..runs.required import of_log
from ..runs.results import TICKS_A_SECOND, Log

# The file format: nanoseconds, and IEEE 802.15.4 packets with metadata in front (LINKTYPE_IEEE802_15_4_TAP).
_MAGIC, _LINK_TYPE = 0xA1B23C4D, 283
_NANOSECONDS = 1_000_000_000
# Metadata, each by its type: checksum, channel, start and end of the packet, start and length of its slot.
_FCS, _CHANNEL, _START, _END, _SLOT_START, _SLOT_LENGTH = 0, 3, 5, 6, 8, 9
# A frame of the type that IEEE 802.15.4 leaves to applications, without addresses, and in it what is ours: a mark, the node, rank
# and frame, the start in ticks, and the packet. So Wireshark's own dissector takes the packet for no other protocol.
_MULTIPURPOSE, _MARK = b"\x05\x00", b"FOLD"
# Channels of the 2.4 GHz band, from this one on by rank.
FIRST_CHANNEL = 11


def dissector() -> Path:
    """The Lua script by which Wireshark and tshark decode the packets of `pcap`.

    It is for `-X lua_script:PATH`, or for a copy in Wireshark's folder of personal Lua plugins. Captures of other tools are left to Wireshark's own
    dissector.

    Returns
    -------
    pathlib.Path
        Its path in this package.
    """
    return Path(__file__).with_name("foldcairn.lua")


def nanoseconds(ticks: int) -> int:
    """Ticks of 1/64 µs in nanoseconds, rounded down: a tick is 15.625 of them."""
    return ticks * 125 // 8


@of_log
def pcap(log: Log, path: str | os.PathLike[str], *, start_seconds: float = 0.0, end_seconds: float | None = None) -> int:
    """Writes each transmission that begins in a time as a packet of a capture file with times in nanoseconds.

    The link type is IEEE 802.15.4 TAP (283). A packet has these metadata: channel (11 for rank 0, 12 for rank 1 and so on: a
    scenario names none), the times at which it and its slot start, the end of it and the length of the slot, that there is no
    checksum. A frame of IEEE 802.15.4's type Multipurpose follows, without addresses and checksum: what it carries is the
    mark `FOLD`, the node that transmitted, the rank, the frame, the start in ticks of 1/64 µs, and the packet. So without the
    dissector the metadata are read, and the rest is shown as data. Slots start by the host's clock.

    Parameters
    ----------
    log : results.Log
        The run.
    path : path
        The file, which is replaced where it is there.
    start_seconds : float
        What comes before this time of the run is left out.
    end_seconds : float, optional
        And what comes from then on; without it the end of the run.

    Returns
    -------
    int
        How many packets were written.

    Raises
    ------
    ArgumentError
        Where the time is no part of the run.
    OSError
        Where the file can't be written.
    """
    start, end = arguments.window(start_seconds, end_seconds, log.scenario.seconds)
    slots = timing.slots(log).set_index(["frame", "rank", "slot"])["start_ticks"].to_dict()
    frame_ticks, slot_ticks = lines.frame_ticks(log.scenario.profile), lines.slot_ticks(log.scenario.profile)
    chosen = log.transmissions
    chosen = chosen[(chosen["start_seconds"] >= start) & (chosen["start_seconds"] < end)]
    with files.replacing(path) as sink:
        sink.write(struct.pack("<IHHiIII", _MAGIC, 2, 4, 0, 0, 65_535, _LINK_TYPE))
        for row in chosen.itertuples():
            frame = row.start_ticks // frame_ticks
            slot = slots.get((frame, row.rank, row.slot))
            sink.write(_record(row, frame, slot, slot_ticks))
    return len(chosen)


def _record(row: Any, frame: int, slot: int | None, slot_ticks: int) -> bytes:
    """A packet of the capture with its header."""
    metadata = [
        (_FCS, b"\0"),
        (_CHANNEL, struct.pack("<HB", FIRST_CHANNEL + row.rank, 0)),
        (_START, struct.pack("<Q", nanoseconds(row.start_ticks))),
        (_END, struct.pack("<Q", nanoseconds(row.end_ticks))),
        (_SLOT_LENGTH, struct.pack("<I", slot_ticks // 64)),
    ]
    if slot is not None:
        metadata.insert(4, (_SLOT_START, struct.pack("<Q", nanoseconds(slot))))
    fields = b"".join(struct.pack("<HH", kind, len(value)) + value + bytes(-len(value) % 4) for kind, value in metadata)
    ours = _MARK + struct.pack("<BBHQ", row.node, row.rank, frame, row.start_ticks)
    data = struct.pack("<BBH", 0, 0, 4 + len(fields)) + fields + _MULTIPURPOSE + ours + bytes.fromhex(row.packet)
    seconds, rest = divmod(nanoseconds(row.start_ticks), _NANOSECONDS)
    return struct.pack("<IIII", seconds, rest, len(data), len(data)) + data


@of_log
def trace(log: Log, path: str | os.PathLike[str], *, start_seconds: float = 0.0, end_seconds: float | None = None) -> int:
    """Writes what lies in a time at least in part as Chrome trace events.

    Perfetto (ui.perfetto.dev) and chrome://tracing read them. There is a track for each node, by ascending ids: when it has no power; its rounds
    and searches; in them the windows of slots by purpose (`radio.PURPOSES`); and in them what it transmitted and received, with the
    packet's fields. A track for each rank has the rounds and slots by the host's clock. Times are in microseconds, of which ticks are exact
    parts. A file that ends with `.gz` is compressed.

    Parameters
    ----------
    log : results.Log
        The run.
    path : path
        The file, which is replaced where it is there.
    start_seconds : float
        What comes before this time of the run is left out.
    end_seconds : float, optional
        And what comes from then on; without it the end of the run.

    Returns
    -------
    int
        How many events were written.

    Raises
    ------
    ArgumentError
        Where the time is no part of the run.
    OSError
        Where the file can't be written.
    """
    start, end = arguments.window(start_seconds, end_seconds, log.scenario.seconds)
    target = Path(path)
    count = 0
    # Without a time of its own, so that the same run gives the same bytes.
    with files.replacing(target) as sink, _compressed(target, sink) as written:
        written.write(b'{"displayTimeUnit":"ns","traceEvents":[')
        for event in _events(log, start, end):
            written.write((b",\n" if count else b"\n") + json.dumps(event, separators=(",", ":")).encode())
            count += 1
        written.write(b"\n]}\n")
    return count


def _compressed(target: Path, sink: BinaryIO) -> contextlib.AbstractContextManager[gzip.GzipFile | BinaryIO]:
    """What is written into a file that ends with `.gz`, or into another."""
    if target.suffix == ".gz":
        return contextlib.closing(gzip.GzipFile("", "wb", 6, sink, mtime=0))
    return contextlib.nullcontext(sink)


# The tracks of nodes, and those of ranks.
_NODES, _RANKS = 1, 2


def _events(log: Log, start: float, end: float) -> Iterator[dict[str, Any]]:
    yield from _tracks(log)

    def inside(table: pd.DataFrame) -> Any:
        return table[(table["end_seconds"] > start) & (table["start_seconds"] < end)].itertuples()

    for row in inside(timing.pauses(log)):
        yield _slice(_NODES, row.node, "no power", row, {})
    for row in inside(timing.spells(log)):
        yield _slice(_NODES, row.node, "searching" if row.searching else "round", row, {"rank": row.rank})
    windows = radio.tunings(log)
    for row in inside(windows[windows["purpose"] != "searching"]):
        yield _slice(_NODES, row.node, row.purpose, row, {"rank": row.rank})
    labels = log.scenario.labels
    about = {digits: _about(log, packet) for digits, packet in log.packets["decoded"].items()}
    for row in inside(log.transmissions):
        yield _slice(_NODES, row.node, f"transmits {row.kind}", row, {**about[row.packet], "rank": row.rank})
    for row in inside(log.receptions):
        whose = {"rank": row.rank, "sender": labels.get(row.sender, row.sender)}
        yield _slice(_NODES, row.node, f"receives {row.kind}", row, {**about[row.packet], **whose})
    slots = timing.slots(log)
    whole = slots.groupby(["frame", "rank"], as_index=False).agg({"start_seconds": "min", "end_seconds": "max"})
    for row in inside(whole):
        yield _slice(_RANKS, row.rank, f"round of frame {row.frame}", row, {"frame": row.frame})
    for row in inside(slots):
        yield _slice(_RANKS, row.rank, row.name, row, {"frame": row.frame, "slot": row.slot})


def _tracks(log: Log) -> Iterator[dict[str, Any]]:
    def named(what: str, group: int, track: int, name: str | int) -> dict[str, Any]:
        value = {"sort_index" if isinstance(name, int) else "name": name}
        return {"ph": "M", "name": what, "pid": group, "tid": track, "args": value}

    ranks = {node: rank for rank, node in log.scenario.hosts.items()}
    for group, name in ((_NODES, "nodes"), (_RANKS, "rounds")):
        yield named("process_name", group, 0, name)
        yield named("process_sort_index", group, 0, _RANKS - group)
    for node in sorted(log.scenario.nodes):
        name = findings.node(log.scenario, node)
        yield named("thread_name", _NODES, node, f"{name}, host of rank {ranks[node]}" if node in ranks else name)
        yield named("thread_sort_index", _NODES, node, node)
    for rank in sorted(log.scenario.hosts):
        yield named("thread_name", _RANKS, rank, f"rank {rank}")


def _slice(group: int, track: int, name: str, row: Any, arguments: dict[str, Any]) -> dict[str, Any]:
    """A complete event; its time and duration are exact, since 64 times a time in seconds or microseconds is whole."""
    start, end = (round(seconds * TICKS_A_SECOND) for seconds in (row.start_seconds, row.end_seconds))
    event = {"ph": "X", "name": name, "pid": group, "tid": track, "ts": start / 64, "dur": (end - start) / 64}
    return {**event, "args": arguments} if arguments else event


def _about(log: Log, packet: Packet) -> dict[str, Any]:
    """The fields of a packet that are told in a trace."""
    stream = log.scenario.stream_name
    told: dict[str, Any] = {"slot": packet.slot, "step": packet.counter}
    if isinstance(packet, Data):
        return {**told, "stream": stream(packet.node, packet.stream), "number": packet.number, "payload": packet.payload.hex()}
    if isinstance(packet, Request):
        return {**told, "stream": stream(packet.node, packet.stream), "interval": packet.interval}
    owners = " ".join(stream(one.node, one.stream) for one in packet.owners)
    acknowledged = " ".join(stream(one.node, one.stream) for one in packet.acknowledgements)
    return {**told, "gap": packet.gap, "owners": owners, "acknowledged": acknowledged}
