"""Verdicts on plans that are run, and the command `verify`."""

from __future__ import annotations

import json
import os
import signal
import subprocess
import sys
import time
import xml.etree.ElementTree as xml
from collections.abc import Iterator
from concurrent.futures import Executor, ThreadPoolExecutor
from pathlib import Path

import numpy as np
import pandas as pd
import pytest
from conftest import REPOSITORY
from plans import asked, plan, pumps

import foldcairn
from foldcairn import planning
from foldcairn.__main__ import main
from foldcairn.common.arguments import ArgumentError
from foldcairn.model.receivers import streams_of
from foldcairn.model.scenario import Scenario, random_geometric
from foldcairn.plan import Plan
from foldcairn.requirements import counting, membership, shown, status, verdicts
from foldcairn.runs import numbers

LEVELS = asked("levels", tag="level", share=0.9)


@pytest.fixture(scope="module")
def threads() -> Iterator[Executor]:
    """Draws in this process: a plan here takes some 15 ms a draw."""
    with ThreadPoolExecutor(2) as pool:
        yield pool


def _verified(requirements: str, executor: Executor, seeds: int | None = None, **given: object) -> pd.DataFrame:
    return verdicts(plan(requirements, **given), seeds, executor=executor, progress=False)


# What is counted.


def _network(seed: int) -> Scenario:
    """A random network with failures, packets that keep streams alive, and full queues."""
    generator = np.random.default_rng(seed)
    network = Scenario.from_graph(random_geometric(8, radius=0.5, seed=seed), frames=90, hosts=[1, 5], profile=2, contend=3)
    for link in sorted(network.links):
        network.link(*link, float(generator.uniform(0.5, 1)))
    network.stream(3, 12, seconds=30).every(7.3, 3, start=31)
    network.stream(7, 60, seconds=40, keep_alive=50).put(7, b"alarm", seconds=133.3).put(7, b"alarm", seconds=290.1)
    network.stream(6, 5, stream=2, seconds=45).every(2.5, 6, stream=2, start=45)
    network.off(1, seconds=200).off(3, seconds=250).on(3, seconds=300).stream(3, 12, seconds=320)
    return network.sinks({3: "hosts", 7: [2, 4], "others": 8})


@pytest.mark.filterwarnings("ignore")
@pytest.mark.parametrize("seed", range(1, 9))
def test_counts_are_those_of_planning(seed: int) -> None:
    """The same packets, deliveries and latencies as `planning.latencies` and `planning.packets` have of a report."""
    network = _network(seed)
    whom = dict.fromkeys(streams_of(network), frozenset(network.nodes))
    report, came = foldcairn.outcome(network, seed), counting.came(network, seed).by_stream(whom)
    told = planning.latencies(report, receivers="all")
    latencies = [pair for one in came.values() for pair in zip(one.at.tolist(), (one.seconds - one.put[one.of]).round(6).tolist())]
    assert sorted(latencies) == sorted(zip(told["node"].tolist(), told["planned_latency_seconds"].round(6).tolist()))
    packets = planning.packets(report).query("not keep_alive")
    assert sorted(second for one in came.values() for second in one.put.tolist()) == sorted(packets["put_seconds"].tolist())
    at_two = counting.came(network, seed, nodes=[2]).by_stream(whom)
    for stream, one in came.items():
        assert (at_two[stream].seconds == one.seconds[one.at == 2]).all() and set(at_two[stream].at.tolist()) <= {2}


def test_a_share_is_that_of_planning(threads: Executor) -> None:
    """The mean over draws of `planning.deadline`, for a receiver that is named and for whichever host serves."""
    valve = {"streams": ["valve"]}
    made = plan(asked("hosts", share=0.5, tag="level") + asked("pump", share=0.5, deadline=12.5, **valve) + asked("all", ratio=0.5, **valve))
    table = verdicts(made, 4, executor=threads, progress=False)
    shares: dict[str, list[float]] = {"hosts": [], "pump": [], "all": []}
    for seed in range(1, 5):
        network = made.network(seed)
        report = foldcairn.outcome(network, seed)
        shares["hosts"].append(float(planning.deadline(report, 25, receivers="hosts").set_index("source").share["tank"]))
        late = planning.deadline(report, 12.5, receivers={"tank": "hosts", "valve": "pump"})
        shares["pump"].append(float(late.set_index("source").share["valve"]))
        ratio = planning.delivery_ratio(report, receivers={"tank": "hosts", "valve": "pump"}, end_seconds=720.0 - 60 + 1e-6)
        shares["all"].append(float(ratio.set_index("source").ratio_of_put["valve"]))
    for name, values in shares.items():
        assert table.set_index("requirement").value[name] == pytest.approx(np.mean(values)), name


def test_members_and_batteries() -> None:
    """A line without losses: the host searches 5 frames, and the others join in the sixth. After the start all time is alike, so the life is the
    charge by the current of `planning.radio_time` after it."""
    network = Scenario(72, 2, 2).node(1).node(2).node(3).host(0, 1).pair(1, 2).pair(2, 3).on().stream(3, 20, seconds=30).every(20, 3, start=31)
    assert membership.joined_seconds(network, 1, 60.0) == {1: 25.0, 2: 30.0, 3: 30.0}
    # Within 20 s nobody joins, and they are watched for 80 s.
    assert membership.joined_seconds(network, 1, 20.0) == {1: 25.0, 2: 30.0, 3: 30.0}
    # The host goes off in frame 40, and there is no other one: the others search to the end of the time for which they are watched.
    after = membership.back_seconds(network.copy().off(1, seconds=200), 1, 30.0, 200.0)
    assert membership.back_seconds(network, 1, 30.0, 200.0) == {1: 0.0, 2: 0.0, 3: 0.0} and after[2] == after[3] >= 4 * 30
    cost = numbers.cost(network, 1)
    years = membership.years(network, 1, cost, {1: None, 2: 2600.0, 3: 2600.0}, {"sleep_ma": 0.01})
    lives = planning.battery_life(foldcairn.run(network, progress=False), capacity_mah=2600, sleep_ma=0.01, start_seconds=36 * 5.0)
    assert years[1] == float("inf")
    for node in (2, 3):
        assert years[node] * 365.25 == pytest.approx(float(lives.set_index("node").days[node]), rel=0.01)


# Verdicts.


def test_met(threads: Executor) -> None:
    table = _verified(LEVELS + asked("valve", streams=["valve"], ratio=0.9) + asked("members", joined=90, part=0.9), threads)
    assert table["verdict"].tolist() == ["met"] * 3 and status(table) == 0
    assert table["helps"].tolist() == [""] * 3
    assert (table["low"] >= 0.9).all() and (table["low"] <= table["value"]).all() and (table["value"] <= table["high"]).all()
    assert table["unit"].tolist() == ["of packets", "of packets", "of draws"] and table["needs"].tolist() == table["draws"].tolist()
    assert list(table) == ["requirement", "when", "verdict", "value", "unit", "low", "high", "wanted", "worst", "draws", "packets", "needs", "helps"]


def test_not_met_is_seen_by_the_first_look(threads: Executor) -> None:
    table = _verified(asked("batteries", years=2) + asked("levels", tag="level", share=0.999), threads, near=0.3)
    assert table["verdict"].tolist() == ["not met", "not met"] and table["draws"].tolist() == [8, 8] and status(table) == 10
    assert table["worst"].tolist() == ["tank", "tank"]
    assert "the radio of tank is on" in table["helps"][0]


def test_not_decided(threads: Executor) -> None:
    """Four draws of 33 packets, nearly all in time: 33 packets a draw, so more draws are named."""
    table = _verified(asked("valve", streams=["valve"], ratio=0.99), threads, 4)
    assert table["verdict"].tolist() == ["not decided"] and status(table) == 11
    assert table["needs"][0] > 4 and f"{table['needs'][0]:,} draws would decide it" in table["helps"][0]
    assert table["low"][0] < 0.99 <= table["high"][0]


def test_each_stream_has_to_hold(threads: Executor) -> None:
    """A stream that is good does not make up for one that is not."""
    bad = '[[stream]]\nname = "seldom"\nfrom = "pump"\nto = "tank"\nevery = 100\nat = []\nstart = 90\ndeadline = 4\ninterval = 90\n'.replace("at = []\n", "")
    table = _verified(asked("all", share=0.8), threads, 16, streams=bad)
    assert (table["verdict"][0], table["worst"][0]) == ("not met", "seldom")


def test_any_one_node_fails(threads: Executor) -> None:
    """The tank has one way only: without the valve nothing arrives. Its own failure is none of its packets."""
    table = _verified(asked("any", tag="level", share=0.5, when="any one node fails"), threads, 8)
    assert table["verdict"][0] == "not met" and table["worst"][0] == "tank without valve" and table["value"][0] == 0
    assert table["helps"][0].startswith("it breaks without valve")


def test_any_one_host_fails(threads: Executor) -> None:
    """A backup takes over 18 frames after the last round, 90 s, if nothing is lost, and a packet of 20 s waits for it."""
    requirements = asked("any", tag="level", outage=300, when="any one host fails", part=0.5) + asked("short", tag="level", outage=60, when="gateway fails")
    table = _verified(requirements, threads, 16)
    assert table["verdict"].tolist() == ["met", "not met"]
    assert table["worst"][0] in ("tank without gateway", "tank without pump") and table["worst"][1] == "tank"
    assert 80 < table["value"][1] < 200


def test_packets_after_a_failure_count(threads: Executor) -> None:
    """The gateway fails in the last third, and no backup serves: no packet from then on arrives, whatever did before."""
    table = _verified(asked("late", tag="level", ratio=0.5, when="gateway fails", at=500), threads, 8, backup=False)
    assert table["value"][0] == 0 and table["verdict"][0] == "not met"


def test_a_network_of_its_own_in_each_draw(threads: Executor) -> None:
    """Where few probes were sent each draw has other ratios: then 32 draws that all hold don't show that 95 % of all do on average."""
    links = '[[link]]\nfrom = "gateway"\nto = "tank"\nsent = 10\nreceived = 5\nboth = true\n'
    requirements = asked("mean", tag="level", ratio=0.95) + asked("each", tag="level", ratio=0.5, part=0.8)
    table = _verified(requirements, threads, 32, links=links, near=1.0)
    assert table["verdict"].tolist() == ["not decided", "met"]
    assert "or `in = 0.95`" in table["helps"][0]


# Arguments.


def test_arguments_out_of_range(threads: Executor) -> None:
    with pytest.raises(ArgumentError, match="has no \\[\\[requirement\\]\\], so there is nothing to verify"):
        verdicts(plan(""))
    with pytest.raises(ArgumentError, match="`plan` is a Scenario, and has to be a Plan"):
        verdicts(Scenario(12))  # type: ignore[arg-type]
    for seeds in (0, 10_001, 1.5):
        with pytest.raises(ArgumentError, match="`seeds` is"):
            verdicts(plan(LEVELS), seeds)  # type: ignore[arg-type]
    assert planning.verdicts is verdicts


# The command.


@pytest.fixture
def file(tmp_path: Path) -> str:
    path = tmp_path / "plan.toml"
    path.write_text(pumps(LEVELS + asked("batteries", years=2)))
    return str(path)


def test_command(file: str, tmp_path: Path, capsys: pytest.CaptureFixture[str]) -> None:
    """The table, as JSON and as JUnit XML too, and the status."""
    told, suite = tmp_path / "told.json", tmp_path / "suite.xml"
    assert main(["verify", file, "--jobs", "2", "--json", str(told), "--junit", str(suite)]) == 10
    lines = capsys.readouterr().out.splitlines()
    assert lines[0].split()[:4] == ["requirement", "when", "verdict", "value"]
    assert lines[-1] == "of 2 requirements: 1 met, 1 not met"
    rows = json.loads(told.read_text())
    assert [row["verdict"] for row in rows["verdicts"]] == ["met", "not met"] and set(rows["versions"]) == {"package", "program", "planner"}
    assert rows["verdicts"][1]["unit"] == "years"
    root = xml.parse(suite).getroot()
    assert (root.tag, root.get("name"), root.get("tests"), root.get("failures"), root.get("errors")) == ("testsuite", "Pump house", "2", "1", "0")
    first, second = root.findall("testcase")
    assert (first.get("name"), first.find("failure")) == ("levels", None)
    failure = second.find("failure")
    assert failure is not None and failure.get("type") == "not met" and "2 years is wanted" in str(failure.get("message"))


def test_command_where_nothing_is_decided(file: str, tmp_path: Path, capsys: pytest.CaptureFixture[str]) -> None:
    path = tmp_path / "levels.toml"
    path.write_text(pumps(LEVELS.replace("levels", "<&> levels")))
    assert main(["verify", str(path), "--seeds", "2", "--jobs", "1", "--junit", str(tmp_path / "suite.xml")]) == 11
    case = xml.parse(tmp_path / "suite.xml").getroot()[0]
    assert case.find("error") is not None and case.get("name") == "<&> levels" and "1 not decided" in capsys.readouterr().out


@pytest.mark.parametrize("words, code, said", [
    (["none.toml"], 3, "there is no file 'none.toml'"), (["."], 3, "is a folder, not a file"), (["FILE", "--seeds", "0"], 1, "`seeds` is 0"),
])  # fmt: skip
def test_command_that_fails(words: list[str], code: int, said: str, file: str, capsys: pytest.CaptureFixture[str]) -> None:
    assert main(["verify", *(file if word == "FILE" else word for word in words)]) == code
    assert said in capsys.readouterr().err


def test_a_kill_and_what_goes_on(file: str, tmp_path: Path) -> None:
    """A command that is killed leaves whole draws; the next one takes them, and says what one says that ran through."""
    words = [sys.executable, "-m", "foldcairn", "verify", file, "--jobs", "1", "--json"]
    environment = {**os.environ, "PYTHONPATH": str(Path(foldcairn.__file__).parents[1])}
    folder = tmp_path / "kept"
    quiet = {"stdout": subprocess.DEVNULL, "stderr": subprocess.DEVNULL}
    stopped = subprocess.Popen([*words, str(tmp_path / "one.json"), "--resume", str(folder)], env=environment, **quiet)
    until = time.monotonic() + 300
    while len(list(folder.glob("*.json"))) < 8 and time.monotonic() < until:
        time.sleep(0.02)
    stopped.send_signal(signal.SIGKILL)
    stopped.wait()
    kept = {path.name: path.stat().st_mtime_ns for path in folder.glob("*.json")}
    assert len(kept) >= 8 and not (tmp_path / "one.json").exists()
    for name, more in (("two.json", ["--resume", str(folder)]), ("three.json", [])):
        subprocess.run([*words, str(tmp_path / name), *more], env=environment, check=False, capture_output=True)
    assert (tmp_path / "two.json").read_bytes() == (tmp_path / "three.json").read_bytes()
    after = {path.name: path.stat().st_mtime_ns for path in folder.glob("*.json")}
    assert kept.items() <= after.items() and len(after) > len(kept)


def test_kept_draws_are_taken_for_other_thresholds(tmp_path: Path, threads: Executor) -> None:
    """What is wanted is no part of a draw; the plan is."""
    first = verdicts(plan(LEVELS), 8, folder=tmp_path, executor=threads, progress=False)
    kept = {path.name for path in tmp_path.glob("*.json")}
    again = verdicts(plan(LEVELS.replace("0.9", "0.2").replace("levels", "other")), 8, folder=tmp_path, executor=threads, progress=False)
    assert {path.name for path in tmp_path.glob("*.json")} == kept and len(kept) == 8
    assert again["value"][0] == first["value"][0]
    verdicts(plan(LEVELS, near=0.8), 8, folder=tmp_path, executor=threads, progress=False)
    assert len(list(tmp_path.glob("*.json"))) == 16


def test_seeds_do_not_depend_on_who_draws_them(threads: Executor) -> None:
    """Processes give what threads give."""
    made = plan(LEVELS)
    pd.testing.assert_frame_equal(verdicts(made, 8, 2, progress=False), verdicts(made, 8, executor=threads, progress=False))


def test_parts_near_one_have_more_digits() -> None:
    assert [shown.number(value, "of packets") for value in (0.5, 0.92086, 0.998967, 1.0, float("nan"))] == ["50 %", "92.09 %", "99.8967 %", "100 %", "-"]
    assert shown.number(0.2194, "years") == "0.219 years"


def test_words_of_a_terminal(threads: Executor) -> None:
    text = shown.table(_verified(LEVELS, threads, 8))
    assert "levels" in text and "of 1 requirement:" in text


def test_the_page_shows_what_comes(tmp_path: Path, monkeypatch: pytest.MonkeyPatch, capsys: pytest.CaptureFixture[str]) -> None:
    """The plan of docs/REQUIREMENTS.md and what is said of it."""
    page = (REPOSITORY / "docs" / "REQUIREMENTS.md").read_text()
    (tmp_path / "pump.toml").write_text(page.partition("```toml pump.toml\n")[2].partition("```")[0])
    monkeypatch.chdir(tmp_path)
    assert main(["verify", "pump.toml", "--jobs", "2"]) == 10
    assert capsys.readouterr().out == page.partition("```text\n")[2].partition("```")[0]


def test_the_plan_of_a_test_is_one() -> None:
    assert Plan.parse(pumps(LEVELS)).requirements[0].share == 0.9
