"""Outputs as tables: worked reports, the first lines of a log, broken outputs, and the speed and memory of reading."""

from __future__ import annotations

import os
import re
import subprocess
import sys
import warnings
from collections.abc import Callable
from io import BytesIO
from pathlib import Path

import pytest
from conftest import EXAMPLES, REPOSITORY
from networks import CONTENDERS, FAILOVER, LINE, SECOND

from foldcairn.model.scenario import Scenario, ScenarioWarning
from foldcairn.runs import columns, program, results

FULL_QUEUE = (EXAMPLES / "full-queue.scenario").read_text()


def test_the_report_of_two_contenders() -> None:
    report = results.run(CONTENDERS)
    assert report.scenario.frames == 18
    table = report.deliveries
    assert list(table.columns) == ["frame", "rank", "slot", "node", "source", "boot", "stream", "number", "payload", "planned_seconds"]
    assert table.drop(columns="planned_seconds").astype(str).agg(" ".join, axis=1).tolist() == [
        "13 0 1 1 2 1 0 0 aa", "13 0 1 3 2 1 0 0 aa", "17 0 5 1 3 1 0 0 bb", "17 0 5 2 3 1 0 0 bb",
    ]  # fmt: skip
    # Frame 13 starts at 52 s, and its round a second later; slot 1 is 33 ms after that.
    assert table["planned_seconds"].tolist() == pytest.approx([53.033, 53.033, 69.165, 69.165])
    assert report.drops.empty and list(report.drops.columns) == ["frame", "node", "stream"]
    first = report.energy.iloc[0]
    assert (first["node"], first["transmit_ticks"], first["window_ticks"]) == (1, 929_792, 27_789_824)
    assert (first["scanned_frames"], first["on_ticks"]) == (5, 1_256_589_824)
    assert first["on_seconds"] == pytest.approx(1_256_589_824 / 64_000_000)
    assert first["duty_cycle"] == pytest.approx(1_256_589_824 / 64_000_000 / 72)


def test_the_times_of_profile_2() -> None:
    report = results.run((EXAMPLES / "two-contention-slots.scenario").read_text())
    assert report.deliveries["planned_seconds"].tolist() == pytest.approx([46.056, 46.056, 46.28, 46.28])


def test_drops_and_columns_without_rows() -> None:
    report = results.run(FULL_QUEUE)
    assert report.drops.values.tolist() == [[0, 2, 0]]
    assert report.deliveries.empty
    assert report.deliveries.dtypes["frame"] == "int64" and report.deliveries.dtypes["payload"] == "category"
    assert report.deliveries.dtypes["planned_seconds"] == "float64"


def test_bus_has_the_deliveries_of_run_and_no_times_of_radios() -> None:
    run, bus = results.run(LINE), results.bus(LINE)
    assert bus.deliveries.equals(run.deliveries)
    assert bus.energy["window_ticks"].tolist() == run.energy["window_ticks"].tolist() == [9_771_520, 9_641_984, 9_711_616]
    assert "duty_cycle" not in bus.energy


def test_a_scenario_and_bytes_are_taken_as_well_as_text() -> None:
    with warnings.catch_warnings():
        warnings.simplefilter("error", ScenarioWarning)
        made = Scenario.read(LINE)
    assert results.run(made).deliveries.equals(results.run(LINE).deliveries)
    assert results.run(b"# \xff\n" + LINE.encode()).deliveries.equals(results.run(LINE).deliveries)


def test_the_scenario_of_a_report_is_its_own() -> None:
    made = Scenario.read(LINE)
    report = results.run(made)
    made.frames = 1
    assert report.scenario.frames == 12


def test_warnings_name_the_line_that_calls() -> None:
    made = Scenario.read(LINE).put(2, b"", frame=1)
    with pytest.warns(ScenarioWarning) as told:
        results.run(made)
    assert told[0].filename == __file__


def test_the_log_of_three_in_a_line() -> None:
    log = results.log(LINE)
    first = log.transmissions.iloc[0]
    # The opening of frame 5 is a millisecond after 21 s and has 10 bytes, of 2,048 ticks each and 8 more.
    assert (first["node"], first["start_ticks"], first["end_ticks"]) == (1, 21 * 64_000_000 + 64_000, 21 * 64_000_000 + 100_864)
    assert (first["kind"], first["slot"], first["step"], first["rank"]) == ("opening", 0, 0, 0)
    assert first["packet"] == "01000000010000000000"
    assert first["start_seconds"] == pytest.approx(21.001)
    heard = log.receptions.iloc[0]
    assert (heard["node"], heard["sender"], heard["start_ticks"]) == (2, 1, first["start_ticks"])
    assert log.tunings.iloc[0][["node", "start_ticks", "end_ticks"]].tolist() == [1, 0, 1_228_800_000]
    # In frame 5 node 3 asks in slot 1, in frame 9 it sends in slot 1: each flood begins with one transmission of step 0.
    begun = log.initiations[["frame", "slot", "kind", "node"]].astype(str).agg(" ".join, axis=1).tolist()
    assert begun == ["5 0 opening 1", "5 1 request 3", "5 2 closing 1", "9 0 opening 1", "9 1 data 3", "9 6 closing 1"]
    # Each node transmits twice in each of the six floods.
    assert len(log.transmissions) == 36
    assert log.packets.loc["02010003010000" + "00aa", "number"] == 0
    assert log.deliveries.drop(columns="delivered_seconds").equals(results.run(LINE).deliveries)
    # Node 2 receives the packet of 9 bytes in step 0, a millisecond into slot 1 of frame 9, and node 1 a step later.
    assert log.deliveries["delivered_seconds"].tolist() == pytest.approx([37.034 + (47_104 + 34_816) / SECOND, 37.034 + 34_816 / SECOND])


def test_a_run_of_two_idle_nodes_has_tables_without_rows() -> None:
    text = "frames 1\nsends 1\nnode 1 0\nnode 2 0\nhost 0 1\n"
    log = results.log(text)
    assert log.transmissions.empty and log.receptions.empty and log.tunings.empty and log.initiations.empty
    assert {"kind", "slot", "step", "start_seconds"} <= set(log.transmissions.columns)


def test_a_flood() -> None:
    report = results.flood((EXAMPLES / "three-in-a-line.flood").read_text())
    assert report.accepts.values.tolist() == [[2, 0], [3, 1]]
    assert report.transmissions == 6
    assert results.flood((EXAMPLES / "first-hop-lost.flood").read_text()).accepts.empty


def test_deadlines() -> None:
    report = results.deadlines((EXAMPLES / "one-slot-three-streams.deadlines").read_text())
    assert report.admitted.values.tolist() == [[2, 0], [3, 0]]
    assert report.rejected.to_dict("records") == [{"node": 4, "stream": 0, "from_frame": 0, "until_frame": 4, "demand": 5}]
    assert report.rounds.values.tolist() == [[0, 3, 0], [1, 2, 0], [2, 3, 0], [3, 2, 0]]


def test_commands_are_those_of_the_usage_line(fake: Callable[[str], Path]) -> None:
    assert results.commands() == {"flood", "run", "log", "bus", "demo", "check", "deadlines", "times", "return"}
    assert results.commands(program=fake("echo 'usage: flood | demo SEED NODES FRAMES'; exit 2")) == {"flood", "demo"}


@pytest.mark.parametrize("command", ["check", "times", "return"])
def test_commands_that_the_program_lacks(command: str, fake: Callable[[str], Path]) -> None:
    old = fake("cat > /dev/null; echo 'usage: flood | run'; exit 2")
    call = {
        "check": lambda: results.check(LINE, "", program=old),
        "times": lambda: results.times(LINE, program=old),
        "return": lambda: results.returns(LINE, program=old),
    }
    with pytest.raises(program.BadUsage, match=command):
        call[command]()


def test_verdicts(fake: Callable[[str], Path], tmp_path: Path) -> None:
    verdict = results.check(LINE, "tuned 0 1 0 5\n", program=fake(f"cat > {tmp_path}/asked; echo lawful"))
    assert verdict == results.Verdict("lawful") and verdict.valid and str(verdict) == "the log is valid"
    assert (tmp_path / "asked").read_text() == LINE + "log\ntuned 0 1 0 5\n"


def test_verdicts_that_name_what_is_wrong(fake: Callable[[str], Path]) -> None:
    log = "deliver 9 0 1 2 3 1 0 0 aa\n# a remark\n\ntuned 0 1 0 5\n  heard 0 2 1 4 5 0100\n"

    def answered(answer: str) -> results.Verdict:
        return results.check(LINE, log, program=fake(f"cat > /dev/null; echo {answer}"))

    assert answered("no trail 2") == results.Verdict("no trail 2", node=2)
    # The second entry is in the fifth line.
    assert answered("no heard 2") == results.Verdict("no heard 2", entry=2, line="  heard 0 2 1 4 5 0100")
    missing = answered("no missing 3 2 2370176000")
    assert missing == results.Verdict("no missing 3 2 2370176000", node=3, sender=2, start_ticks=2_370_176_000)
    assert str(missing) == "node 3 should have received what node 2 transmitted from tick 2370176000 on" and not missing.valid
    assert str(answered("no trail 2")) == "node 2 did not transmit or listen as the protocol says for what it received"
    assert str(answered("no heard 2")) == "entry 2 of the log is no reception by the rules, or it is there twice:   heard 0 2 1 4 5 0100"
    for answer in ("no", "no trail", "no missing 3 2", "lawfully", ""):
        with pytest.raises(columns.UnknownLine, match="no verdict"):
            answered(answer)


def test_worked_logs() -> None:
    """The log of a first round; without its first reception node 2 relays what it did not receive; and no log at all."""
    first = Scenario(6, 2, nodes={1: 0, 2: 0}, hosts={0: 1}).pair(1, 2).on(1).on(2)
    log = program.execute(["log"], first.text()).decode()
    assert results.check(first, log).valid
    before, reception, after = log.partition("heard 0 2 1 1344064000 1344100864 01000000010000000000\n")
    assert reception and results.check(first, before + after) == results.Verdict("no trail 2", node=2)
    assert results.check(first, "") == results.Verdict("no trail 1", node=1)


@pytest.mark.parametrize("change", [("node 2 0", "node 2 9000"), ("frames", "rate 2 0 20\nframes")])
def test_worked_stamps(change: tuple[str, str]) -> None:
    """Node 2 has an offset, or a fast clock: it transmits 33 ms after it received the opening schedule, at 37.034 s."""
    text = "sends 2\nnode 1 0\nnode 2 0\nhost 0 1\npair 1 2\nframes 12\non 0 1\non 0 2\nstream 0 2 0 4\nput 0 2 0 aa\n"
    table = results.times(text.replace(*change))
    assert table.drop(columns="host_seconds").values.tolist() == [[9, 0, 1, 2, 0, 0, 2_370_176_000]]


def test_a_worked_return() -> None:
    """Node 2 hosts from frame 27 on, and goes back once it has received the opening schedule of node 1 in frame 36."""
    report = results.returns(FAILOVER.replace("frames 32", "frames 58") + "on 31 1\nput 40 3 0 cc\n")
    assert report.returns.values.tolist() == [[36, 2, 0, 148.0]] and report.probes.values.tolist() == [[2, 7]]
    assert report.deliveries[["frame", "rank", "node", "payload"]].values.tolist() == [
        [9, 0, 2, "aa"], [31, 1, 2, "bb"], [56, 0, 1, "cc"], [56, 0, 2, "cc"],
    ]  # fmt: skip
    assert len(report.energy) == 3
    # Where no host fails there is nothing to go back to.
    idle = results.returns(LINE)
    assert idle.returns.empty and idle.probes.empty and idle.deliveries.equals(results.run(LINE).deliveries)


def test_time_stamps(fake: Callable[[str], Path]) -> None:
    table = results.times(LINE, program=fake("cat > /dev/null; echo stamp 9 0 1 2 0 0 2370176000"))
    assert table.iloc[0].to_dict() == {
        "frame": 9, "rank": 0, "slot": 1, "node": 2, "stream": 0, "number": 0, "host_ticks": 2_370_176_000, "host_seconds": 37.034,
    }  # fmt: skip


def test_returns(fake: Callable[[str], Path]) -> None:
    energy = "".join(f"energy {node} 0 0 1 64000000\\n" for node in (1, 2, 3))
    delivered = ("9 0 1 2 3 1 0 0 aa", "31 1 1 2 3 1 0 1 bb", "56 0 1 1 3 1 0 2 cc", "56 0 1 2 3 1 0 2 cc")
    answer = "return 36 2 0\\nprobe 2 7\\n" + "".join(f"deliver {words}\\n" for words in delivered) + energy
    report = results.returns(LINE, program=fake(f"cat > /dev/null; printf '{answer}'"))
    assert report.returns.to_dict("records") == [{"frame": 36, "node": 2, "rank": 0, "restart_seconds": 148.0}]
    assert report.probes.to_dict("records") == [{"node": 2, "frames": 7}]
    assert report.deliveries["frame"].tolist() == [9, 31, 56, 56] and len(report.energy) == 3
    idle = results.returns(LINE, program=fake(f"cat > /dev/null; printf '{energy}'"))
    assert idle.returns.empty and idle.returns.dtypes["restart_seconds"] == "float64" and idle.probes.empty


def test_a_rejected_text_names_line_and_range() -> None:
    with pytest.raises(program.Refused) as error:
        results.run(LINE + "rate 1 0 21\n")
    assert error.value.line == 14 and error.value.kind == "Range"


@pytest.mark.parametrize(
    ("script", "expected"),
    [("exit 5", program.OutOfMemory), ("kill -9 $$", program.Killed), ("exit 3", program.InputUnreadable)],
)
@pytest.mark.parametrize("call", [results.run, results.log, results.bus])
def test_a_program_that_ends_badly(fake: Callable[[str], Path], script: str, expected: type[Exception], call: Callable) -> None:
    with pytest.raises(expected):
        call(LINE, program=fake(f"cat > /dev/null; {script}"))


def test_a_program_that_is_missing(tmp_path: Path) -> None:
    with pytest.raises(program.NotFound):
        results.run(LINE, program=tmp_path / "nowhere")


def test_a_kept_log_that_is_cut() -> None:
    output = program.execute(["log"], LINE)
    assert len(results.read_log(BytesIO(output), LINE).transmissions) == 36
    with pytest.raises(program.CutOutput, match="has no end"):
        results.read_log(BytesIO(output[:-9]), LINE)


@pytest.mark.parametrize(
    ("line", "why"),
    [
        ("gone 1 2", "unknown line"),
        ("sends 1 2", "begins with 'sends'|other words"),
        ("drop 1 2", "a `drop` line has other words"),
        ("drop 1 2 3 4", "a `drop` line has other words"),
        ("drop 1 x 3", "a `drop` line has other words"),
        ("drop 1  3", "a `drop` line has other words"),
        ("dropped 1 2 3", "a `drop` line has other words than frame, node, stream: it begins with 'dropped'"),
        ("", "unknown line"),
    ],
)
def test_lines_of_another_version(line: str, why: str, monkeypatch: pytest.MonkeyPatch) -> None:
    """Few lines, which are read word by word, and the same as pandas reads many."""
    for few in (columns._FEW_BYTES, 0):
        monkeypatch.setattr(columns, "_FEW_BYTES", few)
        with pytest.raises(columns.UnknownLine, match=why):
            results.read_log(BytesIO(f"{line}\n".encode()), LINE)


def test_blocks_may_end_anywhere_in_a_line(monkeypatch: pytest.MonkeyPatch) -> None:
    output = program.execute(["log"], CONTENDERS)
    whole = results.read_log(BytesIO(output), CONTENDERS)
    # Few lines are read word by word, and many by pandas.
    for size, few in ((150, columns._FEW_BYTES), (1_000, 0), (1 << 24, 0)):
        monkeypatch.setattr(columns, "_BLOCK_BYTES", size)
        monkeypatch.setattr(columns, "_FEW_BYTES", few)
        parts = results.read_log(BytesIO(output), CONTENDERS)
        for name in ("deliveries", "drops", "energy", "transmissions", "receptions", "tunings"):
            assert getattr(parts, name).astype(str).equals(getattr(whole, name).astype(str))


# The peak is that of /proc/self/status: what `getrusage` tells begins at the peak of the process that started this one, here that
# of all tests before it.
_READ = """
import re, sys, time
from foldcairn import results
from foldcairn.scenario import Scenario
scenario = Scenario.read(open(sys.argv[1]).read())
begun = time.process_time()
with open(sys.argv[2], "rb") as source:
    log = results.read_log(source, scenario)
seconds = time.process_time() - begun
peak = int(re.search(r"VmHWM:\\s*(\\d+) kB", open("/proc/self/status").read())[1]) * 1024
print(len(log.deliveries), len(log.transmissions), len(log.receptions), len(log.tunings), seconds, peak)
"""


def test_a_log_of_48_megabytes(tmp_path: Path) -> None:
    """20 MB/s of processor time, and at the peak at most 1.7 times its size and 140 MB, which are mostly Python and its libraries: 2.7
    times the size of a log of 140 MB. The counts are those that grep counts."""
    text, kept = tmp_path / "dense.scenario", tmp_path / "dense.log"
    dense = subprocess.run([REPOSITORY / "bench/run.sh", "--text", "dense"], capture_output=True, check=True, text=True).stdout
    # A quarter of its frames.
    rows = [row for row in dense.replace("frames 256\n", "frames 64\n").splitlines(True) if not re.match(r"put (6[4-9]|[7-9][0-9]|[12][0-9][0-9]) ", row)]
    text.write_text("".join(rows))
    program.execute_to_file(["log"], text, kept)
    size = kept.stat().st_size
    told = subprocess.run([sys.executable, "-c", _READ, text, kept], env={**os.environ, "PYTHONPATH": str(REPOSITORY / "python/src")},
                          capture_output=True, check=True, text=True).stdout.split()  # fmt: skip
    words = ("deliver", "sent", "heard", "tuned")
    counted = [subprocess.run(["grep", "-c", f"^{word} ", kept], env={"LC_ALL": "C"}, capture_output=True, check=True).stdout for word in words]
    assert [int(number) for number in told[:4]] == [int(count) for count in counted]
    assert 45_000_000 <= size < 55_000_000
    assert size / float(told[4]) > 20_000_000
    assert int(told[5]) <= 140_000_000 + 1.7 * size
