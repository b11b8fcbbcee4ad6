"""What became of each packet: the program's lines, held against what a log of the same run says, and the tables made of them."""

from __future__ import annotations

import random
from dataclasses import replace

import pandas as pd
import pytest
from conftest import REPOSITORY
from networks import FAILOVER, LINE, log_of
from test_outcome import small_network

from foldcairn import outcome, planning
from foldcairn.answers import arrivals, fates
from foldcairn.common.arguments import ArgumentError
from foldcairn.draw import plot
from foldcairn.model.scenario import Scenario
from foldcairn.runs import columns, losses, program, results

THREE = REPOSITORY / "tests" / "worked" / "three-in-a-line.network"
NONE = (-1, -1)


def restless(seed: int) -> Scenario:
    """A small network in which streams are left, nodes restart, queues are full and packets are lost."""
    chance = random.Random(seed)
    made = Scenario(chance.randint(16, 26), chance.randint(1, 3), profile=chance.choice([1, 2]))
    nodes = range(1, chance.randint(4, 6))
    for node in nodes:
        made.node(node, chance.randint(0, 256_000), chance.randint(-20, 20))
    made.host(0, 1).host(1, 2).on()
    for node in nodes:
        for near in range(1, node):
            if near == node - 1 or chance.random() < 0.5:
                made.pair(near, node)
    for node in nodes:
        made.stream(node, chance.randint(2, 8))
        for frame in range(made.frames):
            for _ in range(chance.choice([0, 0, 1, 20 if chance.random() < 0.1 else 1])):
                made.put(node, b"\xaa", stream=chance.choice([0, 0, 0, 1]), frame=frame)
            if chance.random() < 0.06:
                made.leave(node, frame=frame).stream(node, 4, frame=min(made.frames - 1, frame + chance.randint(0, 2)))
            if node > 2 and chance.random() < 0.04:
                made.off(node, frame=frame).on(node, frame=min(made.frames - 1, frame + 1))
                made.stream(node, 4, frame=min(made.frames - 1, frame + 2))
    links = sorted(made.links)
    for frame, slot, link in {(chance.randrange(5, made.frames), chance.randrange(5), chance.choice(links)) for _ in range(40)}:
        for step in range(3):
            made.lose(frame, slot, step, *link)
    return made


@pytest.fixture(scope="module")
def pairs() -> list[tuple[pd.DataFrame, pd.DataFrame, results.Log]]:
    """Of 40 scenarios, what the program says of each put, what the log says, and the log. The last ten have ratios."""
    found = []
    for seed in range(30):
        log = results.log(restless(seed), warn=False)
        found.append((results.fates(log.scenario.text(warn=False), 0), fates.by_log(log), log))
    for seed in range(10):
        network = small_network(seed)
        log = results.log(losses.draw(network, seed), warn=False)
        found.append((results.fates(network.network_text(warn=False), seed), fates.by_log(log), log))
    return found


def test_the_program_says_of_each_packet_what_the_log_says(pairs) -> None:
    for by_program, by_log, log in pairs:
        pd.testing.assert_frame_equal(by_program, by_log)
        assert by_program["deliveries"].sum() == len(log.deliveries)
        assert (by_program["became"] == "dropped").sum() == len(log.drops)


def test_the_scenarios_have_packets_of_every_fate(pairs) -> None:
    met = pd.concat([planning.packets(log)["fate"] for _, _, log in pairs[::3]]).astype(str).value_counts()
    assert set(met.index) == set(fates.FATES) and met.min() >= 5


def test_what_a_planner_gets_is_the_same_without_the_program_of_fates(pairs, monkeypatch) -> None:
    _, _, log = pairs[0]
    asked = planning.packets(log)
    monkeypatch.setattr(arrivals, "_can_be_asked", lambda: False)
    monkeypatch.setattr(results, "fates_of", None)
    pd.testing.assert_frame_equal(planning.packets(replace(log)), asked)


def test_the_lines_of_the_worked_network() -> None:
    """docs/RATIOS.md has these lines; what the table has was read off them."""
    table = results.fates(THREE, 8)
    assert table["frame"].tolist() == [0, 10, 20] and (table[["source", "stream", "boot"]] == [3, 0, 1]).all(axis=None)
    assert table["number"].tolist() == [0, 1, 2] and table["became"].tolist() == ["sent"] * 3
    assert table[["sent_frame", "rank", "sent_slot", "deliveries"]].values.tolist() == [[9, 0, 1, 2], [13, 0, 1, 2], [21, 0, 1, 0]]
    assert table["host_delivered"].tolist() == [True, True, False]
    assert table["cleared_frame"].tolist() == [-1] * 3
    assert results.fates(THREE, 7)["became"].tolist() == ["waiting"] * 3


def test_lines_of_each_kind() -> None:
    head = "frames 6\nsends 1\nnode 1 0\nnode 2 0\nhost 0 1\n"
    script = "put 0 2 0 aa\non 1 2\nput 1 2 0 aa\nstream 1 2 3 4\nput 1 2 3 -\nput 1 2 3 -\nleave 2 2 3\nstream 2 2 3 4\nput 3 2 3 -\n"
    table = results.fates(head + script, 0)
    assert table["became"].tolist() == ["dropped", "dropped", "cleared", "cleared", "waiting"]
    assert table[["boot", "number"]].values.tolist() == [[-1, -1], [-1, -1], [1, 0], [1, 1], [1, 2]]
    assert table["cleared_frame"].tolist() == [-1, -1, 2, 2, -1] and (table[["sent_frame", "sent_slot"]] == NONE).all(axis=None)
    told = planning.packets(results.bus(head + script))
    assert told["fate"].tolist() == ["dropped: node off", "dropped: no stream", "withdrawn", "withdrawn", "queued"]
    assert told["boot"].tolist() == [0, 1, 1, 1, 1] and told["cleared_frame"].tolist() == [-1, -1, 2, 2, -1]
    assert results.fates(head).empty and planning.packets(results.bus(head)).empty


@pytest.mark.parametrize(
    "line", ["put 0 3 0 1 0 sent 9 1 2", "put 0 3 0 1 0 waiting 4", "put 0 3 0 1 0 lost", "put 0 3 x dropped", "put 0 3 0", "get 0 3 0 dropped"]
)
def test_a_line_that_is_none(fake, line: str) -> None:
    said = fake(f"cat > /dev/null; echo {line}; echo put 0 3 0 dropped; echo put 0 3 0 dropped")
    with pytest.raises((columns.UnknownLine, program.CutOutput), match=line if line[0] == "p" else "2 of 3|0 of 3"):
        results.fates(THREE, program=said)


def test_lines_that_are_missing(fake) -> None:
    with pytest.raises(program.CutOutput, match="1 of 3 `put` lines"):
        results.fates(THREE, program=fake("cat > /dev/null; echo put 0 3 0 dropped"))


def test_a_report_without_a_log_has_the_same_packets_and_its_times_by_plan() -> None:
    for seed in (1, 4):
        log = results.log(restless(seed), warn=False)
        report = results.bus(log.scenario)
        with_log, without = planning.packets(log), planning.packets(report)
        times = ["sent_seconds", "first_seconds", "last_seconds"]
        assert [name.replace("planned_", "") for name in without] == list(with_log)
        assert not set(times) & set(without)
        same = [name for name in without if name in with_log.columns]
        pd.testing.assert_frame_equal(with_log[same], without[same])
        # Starts of slots by plan; clocks are up to 4 ms and 20 ppm off.
        off = with_log["sent_seconds"] - without["planned_sent_seconds"]
        assert off.notna().sum() == (without["sent_frame"] >= 0).sum() > 0 and off.abs().max() < 0.012
        pd.testing.assert_frame_equal(planning.fates(log), planning.fates(report))
        for by in ("stream", "node", "pair", "all"):
            pd.testing.assert_frame_equal(planning.delivery_ratio(log, by), planning.delivery_ratio(report, by))


def test_plan_times_of_the_worked_failover() -> None:
    """Slot 1 of the rounds in frames 9 and 31: from 37.033 s and 125.033 s on, for 33 ms. Packets go on the air 1 ms later, if clocks are
    right."""
    told = planning.packets(results.bus(FAILOVER))
    assert told["planned_sent_seconds"].tolist() == pytest.approx([37.033, 125.033])
    assert told["planned_first_seconds"].tolist() == told["planned_last_seconds"].tolist() == told["planned_sent_seconds"].tolist()
    assert told[["sent_frame", "sent_slot", "rank"]].values.tolist() == [[9, 1, 0], [31, 1, 1]]
    waited = planning.latencies(results.bus(FAILOVER))
    assert not {"delivered_seconds", "latency_seconds"} & set(waited)
    assert waited["planned_delivered_seconds"].tolist() == pytest.approx([37.066, 125.066])
    assert waited["planned_latency_seconds"].tolist() == pytest.approx([37.066, 45.066])
    assert plot.latency(waited).axes[0].get_ylabel() == "seconds from put to delivery, by plan"
    assert plot.latency(planning.latencies(log_of(FAILOVER))).axes[0].get_ylabel() == "seconds from put to delivery"


def test_the_seed_of_a_report_is_that_of_its_packets() -> None:
    report = outcome(THREE, 8)
    assert planning.packets(report)["fate"].tolist() == ["delivered", "delivered", "delivered by none"]
    assert planning.fates(outcome(THREE, 7), "all").to_dict("records") == [{"puts": 3, "queued": 3}]
    # Without a seed the ratios lose nothing.
    assert planning.fates(results.bus(Scenario.read(THREE)), "all").to_dict("records") == [{"puts": 3, "delivered": 3}]
    other = replace(report, origin=replace(report.origin, seed=7))
    with pytest.raises(ArgumentError, match="are not those of its scenario and seed"):
        planning.packets(other)


def test_a_packet_that_none_delivered_is_meant_for_the_host_of_its_frame() -> None:
    """The second packet of the worked failover is put in frame 20, after the last round of the first host, and is lost in frame 31, under
    the second. The first host is off as the first packet is sent."""
    lost = Scenario.read(FAILOVER)
    for step in range(12):
        lost.lose(31, 1, step, 3, 2).lose(31, 1, step, 3, 1)
    report, log = results.bus(lost), results.log(lost)
    assert planning.packets(report)["fate"].tolist() == planning.packets(log)["fate"].tolist() == ["delivered", "delivered by none"]
    table = planning.delivery_ratio(log, "node", receivers="hosts")
    assert table[["node", "put", "sent", "delivered"]].values.tolist() == [[1, 1, 1, 0], [2, 1, 1, 0]]


def test_a_log_that_is_none_of_its_scenario_speaks_for_itself() -> None:
    """As one of a testbed, or one whose scenario has been changed since."""
    other = replace(log_of(LINE), scenario=Scenario.read(LINE).lose(9, 1, 0, 3, 2))
    assert planning.packets(other)["fate"].tolist() == ["delivered"]
    assert fates.of(other)["deliveries"].tolist() == [2] and results.fates_of(other)["deliveries"].tolist() != [2]


def test_a_run_with_returns_has_no_packets() -> None:
    with pytest.raises(ArgumentError, match="add the lines of the returns to the scenario"):
        planning.packets(results.returns(LINE))


def test_a_log_without_any_program(monkeypatch) -> None:
    log = replace(log_of(LINE))
    monkeypatch.setenv("FOLDCAIRN", "/none")
    monkeypatch.setenv("FOLDCAIRN_PLAN", "/none")
    assert planning.packets(log)["fate"].tolist() == ["delivered"]
