"""Captures and traces: what is in them by their formats, and what tshark reads, with and without the dissector."""

from __future__ import annotations

import gzip
import json
import shutil
import struct
import subprocess
from collections import Counter, defaultdict
from pathlib import Path

import pytest
from hypothesis import given, strategies as st
from networks import CONTENDERS, FAILOVER, LINE, log_of

from conftest import EXAMPLES
from foldcairn.__main__ import main
from foldcairn.model.scenario import Scenario, grid
from foldcairn.pages import export
from foldcairn.runs import packets, results

needs_tshark = pytest.mark.skipif(
    shutil.which("tshark") is None, reason="tshark is missing; tools/setup-python.sh --optional installs it (apt-get install tshark)"
)


@pytest.fixture(scope="module")
def crowded() -> results.Log:
    """Profile 2 with several contention slots: schedules of version 2 with many owners and acknowledgements."""
    made = Scenario.from_graph(grid(3, 4), 40, hosts=[6], profile=2, contend=4)
    for node in sorted(set(made.nodes) - {6}):
        made.every(12, node, stream=node % 4, start=20 + 3 * node, interval=6 + node % 3)
    return results.log(made)


def tshark(path: Path, *words: str) -> list[list[str]]:
    """What tshark prints of these fields, a row for each packet. It says on standard error where a script of Lua fails."""
    fields = [word for name in words if not name.startswith("-") for word in ("-e", name)]
    options = [word for word in words if word.startswith("-")]
    command = ["tshark", "-n", *options, "-r", str(path), "-T", "fields", "-E", "occurrence=a", *fields]
    done = subprocess.run(command, capture_output=True, text=True, check=True)
    assert "Lua" not in done.stderr and "Error" not in done.stderr
    return [line.split("\t") for line in done.stdout.splitlines()]


SCRIPT = f"-Xlua_script:{export.dissector()}"


def test_the_bytes_of_a_capture(tmp_path: Path) -> None:
    log = results.log(LINE)
    path = tmp_path / "line.pcap"
    assert export.pcap(log, path, start_seconds=37.033, end_seconds=37.066) == len(
        [time for time in log.transmissions["start_seconds"] if 37.033 <= time < 37.066]
    )
    data = path.read_bytes()
    assert data[:24] == bytes.fromhex("4d3cb2a1 0200 0400 00000000 00000000 ffff0000 1b010000")
    # The first is that of node 3 in slot 1: at 37.034 s, a data packet of 9 bytes, which takes 17 * 32 µs.
    seconds, nanoseconds, kept, length = struct.unpack_from("<IIII", data, 24)
    assert (seconds, nanoseconds) == (37, 34_000_000) and kept == length
    _, _, header = struct.unpack_from("<BBH", data, 40)
    assert header % 4 == 0 and data[40 + header : 42 + header] == b"\x05\x00"
    assert data[42 + header : 58 + header] == b"FOLD" + struct.pack("<BBHQ", 3, 0, 9, 37_034 * 64_000)
    assert data[58 + header : 40 + length] == bytes.fromhex("0201000301000000aa")
    metadata, at = {}, 44
    while at < 40 + header:
        kind, size = struct.unpack_from("<HH", data, at)
        metadata[kind] = data[at + 4 : at + 4 + size]
        at += 4 + size + -size % 4
    assert metadata[0] == b"\0" and metadata[3] == struct.pack("<HB", 11, 0)
    assert [int.from_bytes(metadata[kind], "little") for kind in (5, 6, 8)] == [37_034_000_000, 37_034_544_000, 37_033_000_000]
    assert int.from_bytes(metadata[9], "little") == 33_000
    assert set(metadata) == {0, 3, 5, 6, 8, 9}


@given(st.integers(0, 2**41))
def test_nanoseconds(ticks: int) -> None:
    assert export.nanoseconds(ticks) == ticks * 15_625 // 1_000


TIMES = ("frame.time_epoch", "wpan-tap.ch_num", "wpan-tap.sof_ts", "wpan-tap.eof_ts", "wpan-tap.timeslot_length")
KINDS = ("frame.protocols", "_ws.malformed", "_ws.expert", "_ws.col.Info", "data.data")


@pytest.fixture(scope="module")
def plain(crowded: results.Log, tmp_path_factory: pytest.TempPathFactory) -> list[list[str]]:
    """What tshark reads of a whole run without the dissector, once: it takes half a second to begin."""
    path = tmp_path_factory.mktemp("plain") / "run.pcap"
    assert export.pcap(crowded, path) == len(crowded.transmissions)
    return tshark(path, *TIMES, *KINDS)


@needs_tshark
def test_tshark_reads_channels_slots_and_true_times_without_the_dissector(crowded: results.Log, plain: list[list[str]]) -> None:
    assert len(plain) == len(crowded.transmissions)
    for row, sent in zip(plain, crowded.transmissions.itertuples()):
        start, end = sent.start_ticks * 125 // 8, sent.end_ticks * 125 // 8
        assert row[0] == f"{start // 10**9}.{start % 10**9:09}"
        assert row[1:5] == ["11", str(start), str(end), "56000"]


@needs_tshark
def test_nothing_is_malformed_without_the_dissector(crowded: results.Log, plain: list[list[str]]) -> None:
    """Packets of the bus are no frames of IEEE 802.15.4, and were taken for those of other protocols."""
    assert {tuple(row[5:9]) for row in plain} == {("wpan-tap:data", "", "", "Multipurpose")}
    assert plain[0][9] == (b"FOLD" + data_of(crowded, 0)).hex()


def data_of(log: results.Log, place: int) -> bytes:
    """What a capture has of a transmission after the mark."""
    sent = log.transmissions.iloc[place]
    frame = sent["start_ticks"] // (log.scenario.frame_seconds * 64_000_000)
    return struct.pack("<BBHQ", sent["node"], sent["rank"], frame, sent["start_ticks"]) + bytes.fromhex(sent["packet"])


@needs_tshark
def test_tshark_reads_all_fields_with_the_dissector(crowded: results.Log, tmp_path: Path) -> None:
    """Of several runs, one after the other in one capture."""
    logs = [*map(log_of, (LINE, CONTENDERS, FAILOVER)), crowded]
    captures = []
    for log in logs:
        export.pcap(log, tmp_path / "run.pcap")
        captures.append((tmp_path / "run.pcap").read_bytes())
    path = tmp_path / "all.pcap"
    path.write_bytes(captures[0] + b"".join(one[24:] for one in captures[1:]))
    common = ("frame.time_epoch", "node", "rank", "ticks", "kind", "slot", "step", "channel")
    of_kind = ("origin", "boot", "stream", "number", "payload", "interval", "gap", "host_boot", "contention_slots", "acknowledged", "owner")
    rows = tshark(path, SCRIPT, *(one if "." in one else f"foldcairn.{one}" for one in (*common, *of_kind)))
    sent_in_all = [sent for log in logs for sent in log.transmissions.itertuples()]
    assert len(rows) == len(sent_in_all)
    for row, sent in zip(rows, sent_in_all):
        start = sent.start_ticks * 125 // 8
        time = f"{start // 10**9}.{start % 10**9:09}"
        ours = [sent.node, sent.rank, sent.start_ticks, sent.kind, sent.slot, sent.step, 11 + sent.rank]
        assert row == [time, *map(str, ours), *fields_of(packets.decode(sent.packet))]


def fields_of(packet: packets.Packet) -> list[str]:
    """The fields of a packet as tshark prints them."""
    if isinstance(packet, packets.Data):
        values = [packet.node, packet.boot, packet.stream, packet.number, packet.payload.hex(), *[""] * 6]
    elif isinstance(packet, packets.Request):
        values = [packet.node, packet.boot, packet.stream, "", "", packet.interval, *[""] * 5]
    else:
        lists = [",".join(f"{one.node}.{one.stream}" for one in many) for many in (packet.acknowledgements, packet.owners)]
        values = [*[""] * 6, packet.gap, packet.host_boot, packet.contention_slots, *lists]
    return [str(value) for value in values]


@needs_tshark
def test_tshark_reads_any_schedule(tmp_path: Path) -> None:
    """Owners with differences of all widths, in a capture of packets that no run sent."""
    many = [
        packets.Schedule(0, 0, 1, 0, 1, 2, (packets.Acknowledgement(9, 1, 3, 4),), tuple(owners))
        for owners in (
            [packets.Owner(1, 0)] * 40,
            [packets.Owner(1, 0), packets.Owner(200, 3)],
            [packets.Owner(node, node % 4) for node in range(3, 200, 5)],
            [packets.Owner(node // 4, node % 4) for node in range(4, 44)],
            [],
        )
    ]
    path = tmp_path / "schedules.pcap"
    export.pcap(results.log(LINE), path)
    data = path.read_bytes()
    (length,) = struct.unpack_from("<H", data, 42)
    records = [data[40 : 40 + length + 18] + packets.encode(one) for one in many]
    path.write_bytes(data[:24] + b"".join(struct.pack("<IIII", 1, 0, len(one), len(one)) + one for one in records))
    rows = tshark(path, SCRIPT, "foldcairn.kind", "foldcairn.owner", "foldcairn.malformed")
    assert rows == [["opening", fields_of(one)[-1], ""] for one in many]


@needs_tshark
def test_the_dissector_leaves_other_captures_alone(tmp_path: Path) -> None:
    path = tmp_path / "other.pcap"
    frame = bytes.fromhex("0000 1c00 0000 0100 00000000 0300 0300 0f000000 0900 0400 10270000") + bytes.fromhex("0200 07")
    path.write_bytes(struct.pack("<IHHiIIIIIII", 0xA1B23C4D, 2, 4, 0, 0, 65_535, 283, 1, 2, len(frame), len(frame)) + frame)
    assert tshark(path, SCRIPT, "wpan-tap.ch_num", "wpan.seq_no", "foldcairn.node") == [["15", "7", ""]]


def test_a_trace_by_its_format(tmp_path: Path) -> None:
    log = results.log(FAILOVER)
    path = tmp_path / "run.json"
    count = export.trace(log, path)
    told = json.loads(path.read_text())
    assert set(told) == {"displayTimeUnit", "traceEvents"} and told["displayTimeUnit"] == "ns"
    events = told["traceEvents"]
    assert len(events) == count
    tracks = defaultdict(list)
    for event in events:
        assert event["ph"] in ("M", "X") and isinstance(event["pid"], int) and isinstance(event["tid"], int)
        if event["ph"] == "M":
            assert event["name"] in ("process_name", "process_sort_index", "thread_name", "thread_sort_index")
            continue
        assert event["ts"] >= 0 and event["dur"] > 0 and (64 * event["ts"]).is_integer()
        tracks[event["pid"], event["tid"]].append((event["ts"], event["ts"] + event["dur"]))
    # In one track slices are apart from each other or one in the other, each after the one that it is in.
    for slices in tracks.values():
        waiting: list[tuple[float, float]] = []
        for one in sorted(slices, key=lambda each: (each[0], -each[1])):
            while waiting and waiting[-1][1] <= one[0]:
                waiting.pop()
            assert not waiting or one[1] <= waiting[-1][1]
            waiting.append(one)
    names = {event["args"]["name"] for event in events if event["name"] == "thread_name"}
    assert names == {"node 1, host of rank 0", "node 2, host of rank 1", "node 3", "rank 0", "rank 1"}


def test_what_a_trace_tells(tmp_path: Path) -> None:
    log = results.log(FAILOVER)
    export.trace(log, tmp_path / "run.json.gz")
    export.trace(log, tmp_path / "run.json")
    assert gzip.decompress((tmp_path / "run.json.gz").read_bytes()) == (tmp_path / "run.json").read_bytes()
    events = [event for event in json.loads((tmp_path / "run.json").read_text())["traceEvents"] if event["ph"] == "X"]
    counts = Counter(event["name"].split()[0] for event in events if event["pid"] == 1)
    assert counts["transmits"] == len(log.transmissions) and counts["receives"] == len(log.receptions)
    off = [event for event in events if event["name"] == "no power"]
    assert off == [{"ph": "X", "name": "no power", "pid": 1, "tid": 1, "ts": 24e6, "dur": 104e6}]
    # Node 3 sends its first packet in slot 1 of the round at 37 s, which the failed host does not open.
    data = min((event for event in events if event["name"] == "transmits data"), key=lambda event: event["ts"])
    assert data["tid"] == 3 and data["ts"] == pytest.approx(37_034_000, abs=100)
    assert data["args"] == {"slot": 1, "step": 0, "stream": "3.0", "number": 0, "payload": "aa", "rank": 0}
    assert {event["tid"] for event in events if event["name"] == "round of frame 31"} == {1}


def test_the_commands(tmp_path: Path, capsys: pytest.CaptureFixture[str]) -> None:
    path = str(EXAMPLES / "packets-along-a-line.scenario")
    capture, trace = tmp_path / "run.pcap", tmp_path / "trace.json"
    assert main(["pcap", path, "--from", "37", "--to", "38", "-o", str(capture)]) == 0
    assert f"lua_script:{export.dissector()}" in capsys.readouterr().out
    assert main(["trace", path, "--from", "37", "--to", "38", "-o", str(trace)]) == 0
    events = [event for event in json.loads(trace.read_text())["traceEvents"] if event["ph"] == "X"]
    assert events and all(event["ts"] < 38e6 and event["ts"] + event["dur"] > 37e6 for event in events)
    assert main(["pcap", path, "-o", str(tmp_path / "none" / "run.pcap")]) == 1
    assert "No such file" in capsys.readouterr().err
