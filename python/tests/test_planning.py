"""Planning answers on the three networks of networks.py, whose numbers are worked out by hand from the rules of a run."""

from __future__ import annotations

import numpy as np
import pandas as pd
import pytest
from networks import CLOSE, CONTENDERS, FAILOVER, LINE, SECOND, log_of, step, window

from foldcairn import planning
from foldcairn.answers import findings, radio
from foldcairn.model.scenario import Scenario
from foldcairn.pages import page, settings
from foldcairn.runs import results
from foldcairn.runs.results import Log


# For how long a packet of 9 bytes is on the air, and from one step to the next, in seconds.
ON_AIR = (9 + 8) * 2_048 / SECOND
STEP = step(9) / SECOND


@pytest.fixture(scope="module")
def line() -> Log:
    return log_of(LINE)


@pytest.fixture(scope="module")
def contenders() -> Log:
    return log_of(CONTENDERS)


@pytest.fixture(scope="module")
def failover() -> Log:
    return log_of(FAILOVER)


def row(table: pd.DataFrame, **where: int) -> dict[str, object]:
    """The one row that has these values."""
    for name, value in where.items():
        table = table[table[name] == value]
    assert len(table) == 1
    return table.iloc[0].to_dict()


def ticks(table: pd.DataFrame, node: int) -> dict[str, int]:
    """The purposes of a node in ticks, from seconds."""
    return {name: round(table.loc[node, name] * SECOND) for name in (*radio.PURPOSES, "on")}


# Three in a line.


def test_packets_of_the_line(line: Log) -> None:
    packet = planning.packets(line).iloc[0]
    assert packet["fate"] == "delivered" and packet["deliveries"] == 2
    assert (packet["source"], packet["boot"], packet["stream"], packet["number"], packet["payload"]) == (3, 1, 0, 0, "aa")
    # Slot 1 of frame 9 is at 36 + 1 + 0.033 s, and its packet a millisecond later.
    assert packet["put_seconds"] == 0
    assert packet["sent_seconds"] == pytest.approx(37.034)
    # It has 9 bytes: node 2 has it after step 0, node 1 after step 1.
    assert packet["first_seconds"] == pytest.approx(37.034 + ON_AIR)
    assert packet["last_seconds"] == pytest.approx(37.034 + STEP + ON_AIR)


def test_delivery_of_the_line(line: Log) -> None:
    by_stream = planning.delivery_ratio(line)
    assert by_stream.iloc[0].to_dict() == {
        "source": 3, "stream": 0, "put": 2, "sent": 2, "sent_while_on": 2, "delivered": 2,
        "ratio_of_put": 1, "ratio_of_sent": 1, "ratio_of_sent_while_on": 1,
    }  # fmt: skip
    assert planning.delivery_ratio(line, "node")["node"].tolist() == [1, 2]
    assert planning.delivery_ratio(line, "pair")["delivered"].tolist() == [1, 1]
    assert planning.delivery_ratio(line, "all", receivers=[1, 3])["put"].tolist() == [1]
    assert planning.delivery_ratio(line, "all", start_seconds=4)["put"].tolist() == [0]
    assert planning.delivery_ratio(line, "all", start_seconds=4)["ratio_of_put"].isna().all()
    assert planning.fates(line, "all").values.tolist() == [[1, 1]]


def test_latency_of_the_line(line: Log) -> None:
    waited = [37.034 + STEP + ON_AIR, 37.034 + ON_AIR]
    assert planning.latencies(line)["latency_seconds"].tolist() == pytest.approx(waited)
    assert planning.latencies(line, receivers=[1])["node"].tolist() == [1]
    for by in ("stream", "node", "all"):
        table = planning.latency(line, by)
        assert table["deliveries"].sum() == 2
        assert table["min_seconds"].min() == pytest.approx(min(waited)) and table["max_seconds"].max() == pytest.approx(max(waited))
        assert (table[[f"{name}_seconds" for name in ("min", "median", "p90", "p99", "max")]].diff(axis=1).iloc[:, 1:] >= 0).all(axis=None)


def test_rounds_of_the_line(line: Log) -> None:
    table = planning.rounds(line)
    assert table["frame"].tolist() == [5, 9]
    assert table["start_ticks"].tolist() == [21 * SECOND, 37 * SECOND]
    assert table["data_slots"].tolist() == [0, 4]
    assert table["acknowledgements"].tolist() == [1, 0]
    assert table["gap"].tolist() == [4, 4]
    assert table["contention_slots"].tolist() == [1, 1]
    slots = planning.data_slots(line)
    assert slots["slot"].tolist() == [1, 2, 3, 4]
    assert slots["sent"].tolist() == [True, False, False, False]
    assert slots["slot_seconds"].tolist() == pytest.approx([37.033, 37.066, 37.099, 37.132])


def test_joining_the_line(line: Log) -> None:
    table = planning.joins(line)
    assert table["node"].tolist() == [1, 2, 3]
    # The closing of frame 5 starts at 21.067 s and has 12 bytes; node 3 gets it from node 2, a step later.
    expected = [21, 21.067 + 20 * 2_048 / SECOND, 21.067 + (53_248 + 40_960) / SECOND]
    assert table["joined_seconds"].tolist() == pytest.approx(expected, abs=1e-9)
    assert table["waited_seconds"].tolist() == pytest.approx(expected, abs=1e-9)
    stream = planning.streams(line).iloc[0]
    assert stream["requests"] == 1 and stream["slots"] == 4 and stream["packets"] == 1
    assert stream["requested_seconds"] == pytest.approx(21.034)
    assert stream["accepted_seconds"] == pytest.approx(21.067)
    assert stream["first_slot_seconds"] == pytest.approx(37.033)
    host = planning.hosts(line).iloc[0]
    assert (host["host"], host["rounds"], host["joined"], host["streams"], host["accepted"]) == (1, 2, 3, 1, 1)
    assert host["all_joined_seconds"] == pytest.approx(expected[2], abs=1e-9)
    assert host["all_accepted_seconds"] == pytest.approx(21.067)
    for by in ("host", "stream", "node"):
        assert planning.outages(line, by).empty


def test_radios_of_the_line(line: Log) -> None:
    table = planning.radio_time(line)
    # Schedules have 10 bytes in the first opening and 12 after that, the request 7, and the data packet 9. Node 1 begins the
    # floods of schedules and transmits in steps 0 and 2; node 3 begins the others, so node 1 transmits in steps 2 and 4.
    assert ticks(table, 1) == {
        "opening": window(2, 10) + window(2, 12),
        "data": window(4, 9),
        "empty data": 3 * CLOSE,
        "contention": window(4, 7) + CLOSE,
        "closing": 2 * window(2, 12),
        # The host searches until the alarm of frame 4, 3.2 s into it.
        "searching": 1_228_800_000,
        "on": 1_238_571_520,
    }
    # Node 3 searches until the end of its second relay of the first opening, in step 4.
    assert ticks(table, 3) == {
        "opening": window(4, 12),
        "data": window(2, 9),
        "empty data": 3 * CLOSE,
        "contention": window(2, 7) + CLOSE,
        "closing": 2 * window(4, 12),
        "searching": 21 * SECOND + window(4, 10),
        "on": 1_354_009_088,
    }
    assert table["on"].values == pytest.approx(line.energy["on_seconds"].values)
    assert planning.radio_time(line, "all")["on"].iloc[0] == pytest.approx(line.energy["on_seconds"].sum())
    shares = planning.radio_time(line, shares=True)
    assert shares[list(radio.PURPOSES)].sum(axis=1).tolist() == pytest.approx([1] * 3)
    assert shares.loc[1, "searching"] == pytest.approx(1_228_800_000 / 1_238_571_520)


def test_duty_cycles_of_the_line(line: Log) -> None:
    first = planning.duty_cycle(line).iloc[0]
    assert first["powered_seconds"] == 48
    # Two transmissions in each of six floods of 10, 7, 12, 12, 9 and 12 bytes, of 2,048 ticks a byte and 8 more.
    assert round(first["transmit_seconds"] * SECOND) == 450_560
    assert first["duty_cycle"] == pytest.approx(1_238_571_520 / SECOND / 48)
    assert first["duty_cycle_in_rounds"] == pytest.approx((1_238_571_520 - 1_228_800_000) / SECOND / 48)
    # From 36 s on there is the round of frame 9 alone.
    later = planning.duty_cycle(line, start_seconds=36, end_seconds=40).iloc[0]
    assert later["powered_seconds"] == 4
    expected = 2 * window(2, 12) + window(4, 9) + 4 * CLOSE
    assert round(later["on_seconds"] * SECOND) == expected
    assert later["searching_seconds"] == 0


def test_battery_lives_of_the_line(line: Log) -> None:
    first = planning.battery_life(line, capacity_mah=1000, transmit_ma=10, receive_ma=20, sleep_ma=1).iloc[0]
    charge = 450_560 * 10 + (1_238_571_520 - 450_560) * 20 + (48 * SECOND - 1_238_571_520) * 1
    assert first["mean_ma"] == pytest.approx(charge / (48 * SECOND))
    assert first["days"] == pytest.approx(1000 / (charge / (48 * SECOND)) / 24)
    in_rounds = 450_560 * 10 + (9_771_520 - 450_560) * 20 + (48 * SECOND - 9_771_520) * 1
    assert first["days_in_rounds"] == pytest.approx(1000 / (in_rounds / (48 * SECOND)) / 24)
    with pytest.raises(ValueError, match="at least 0"):
        planning.battery_life(line, sleep_ma=-1)


def test_nodes_on_mains_have_no_battery_life(line: Log) -> None:
    """Node 1 has its radio on for less than node 2, so of a target between their lives one is reached."""
    lives = planning.battery_life(line).set_index("node")
    apart = planning.battery_life(line, mains=[3], target_days=(lives.loc[1, "days"] + lives.loc[2, "days"]) / 2).set_index("node")
    assert apart["reaches_target"].to_dict() == {1: "yes", 2: "no", 3: "mains"} and apart.loc[3, ["days", "days_in_rounds"]].isna().all()
    assert apart["mean_ma"].equals(lives["mean_ma"]) and apart.loc[[1, 2], "days"].equals(lives.loc[[1, 2], "days"])
    named = results.log(Scenario.read("#: name 3 well\n" + LINE))
    assert planning.battery_life(named, mains="well")["days"].isna().tolist() == [False, False, True]
    with pytest.raises(ValueError, match="no node pump"):
        planning.battery_life(named, mains=["pump"])
    with pytest.raises(ValueError, match="`target_days` is -1"):
        planning.battery_life(named, target_days=-1)
    words = {"mains": ["well", 2], "target_days": 1000}
    last = findings.of(named, battery=words)[-1]
    days = planning.battery_life(named)["days"][0]
    assert f"a battery would last {days:.0f} days (node 1) to {days:.0f} days (node 1)" in last and "; on mains: node 2, well)" in last
    assert last.endswith(" 0 of 1 batteries last the 1000 days that are asked for.")
    assert findings.of(named, battery={"mains": [1, 2, 3]})[-1].startswith("No radio that was on has a battery")


# Two contenders.


def test_contention(contenders: Log) -> None:
    by_slot = planning.contention(contenders, "slot")
    assert by_slot[["frame", "slot", "requests", "collided"]].values.tolist() == [[5, 1, 2, True], [9, 1, 1, False], [13, 5, 1, False]]
    assert by_slot["nodes"].tolist() == [(2, 3), (2,), (3,)]
    assert by_slot["slot_seconds"].tolist() == pytest.approx([21.034, 37.034, 53.166])
    assert planning.contention(contenders).iloc[0].to_dict() == {
        "rank": 0, "host_boot": 1, "host": 1, "rounds": 4, "slots": 4, "used": 3, "collided": 1, "requests": 4,
        "acknowledgements": 2, "success": 0.5,
    }  # fmt: skip
    by_node = planning.contention(contenders, "node")
    assert by_node.values.tolist() == [[2, 1, 2, 1, 1, 0.5], [3, 1, 2, 1, 1, 0.5]]


def test_streams_of_the_contenders(contenders: Log) -> None:
    table = planning.streams(contenders)
    second, third = row(table, node=2), row(table, node=3)
    assert second["requests"] == third["requests"] == 2
    assert second["requested_seconds"] == third["requested_seconds"] == pytest.approx(21.034)
    # The closings of frames 9 and 13 are in slots 2 and 6: the second round has four data slots.
    assert second["accepted_seconds"] == pytest.approx(37.067)
    assert third["accepted_seconds"] == pytest.approx(53.199)
    assert second["first_slot_seconds"] == pytest.approx(53.033)
    assert third["first_slot_seconds"] == pytest.approx(69.165)
    assert (second["slots"], second["packets"], third["slots"], third["packets"]) == (8, 1, 4, 1)
    assert planning.hosts(contenders)["all_accepted_seconds"].tolist() == pytest.approx([53.199])
    assert planning.latency(contenders)["median_seconds"].tolist() == pytest.approx([53.034 + ON_AIR + STEP / 2, 69.166 + ON_AIR + STEP / 2])


def test_a_stream_that_is_never_accepted() -> None:
    # The run ends before the round in which node 3 asks again.
    log = results.log(CONTENDERS.replace("frames 18", "frames 13"))
    table = planning.streams(log)
    assert table["accepted_seconds"].notna().tolist() == [True, False]
    host = planning.hosts(log).iloc[0]
    assert host["accepted"] == 1 and np.isnan(host["all_accepted_seconds"])
    assert planning.packets(log)["fate"].tolist() == ["queued", "queued"]
    # A source that delivers nothing has a row.
    assert planning.latency(log)[["source", "deliveries"]].values.tolist() == [[2, 0], [3, 0]]
    assert planning.latency(log)["median_seconds"].isna().all()


def test_a_node_out_of_reach_never_joins() -> None:
    log = results.log(LINE.replace("pair 2 3\n", ""))
    assert row(planning.joins(log), node=3)["rank"] == -1
    host = planning.hosts(log).iloc[0]
    assert host["joined"] == 2 and np.isnan(host["all_joined_seconds"])
    assert ticks(planning.radio_time(log), 3)["searching"] == 48 * SECOND


# A failover.


def test_hosts_and_outages(failover: Log) -> None:
    table = planning.hosts(failover)
    assert table[["rank", "host", "host_boot", "rounds"]].values.tolist() == [[0, 1, 1, 1], [1, 2, 1, 2]]
    assert table["first_seconds"].tolist() == [21, 109]
    assert table["last_seconds"].tolist() == [21, 125]
    # Node 1 has no power in the second term, so its absence there counts for nothing.
    assert table["all_joined_seconds"].tolist() == pytest.approx([21.06764, 109.06764])
    expected = {
        "off_seconds": 24, "last_round_seconds": 21, "first_round_seconds": 109, "last_delivery_seconds": 37.034 + ON_AIR,
        "first_delivery_seconds": 125.034 + ON_AIR, "ended": True, "outage_seconds": 88, "since_off_seconds": 101.034 + ON_AIR,
    }  # fmt: skip
    assert row(planning.outages(failover), from_host=1, to_host=2) == pytest.approx({"from_host": 1, "to_host": 2, **expected})
    assert row(planning.outages(failover, "stream"), source=3, stream=0) == pytest.approx(
        {"from_host": 1, "to_host": 2, "source": 3, "stream": 0, "cause": "host", **expected}
    )


def test_nodes_that_lost_their_host(failover: Log) -> None:
    table = planning.outages(failover, "node")
    assert table["node"].tolist() == [2, 3]
    # From the alarm of frame 9 on; node 2 until that of frame 26, node 3 to the end of its second relay in frame 27, step 3.
    assert table["start_seconds"].tolist() == pytest.approx([39.2, 39.2])
    assert table["end_seconds"].tolist() == pytest.approx([107.2, 109 + window(3, 10) / SECOND])
    assert table["joined_again"].tolist() == [True, True]


def test_joins_and_streams_of_both_terms(failover: Log) -> None:
    table = planning.joins(failover)
    assert table[["node", "rank", "host", "host_boot"]].values.tolist() == [
        [1, 0, 1, 1], [2, 0, 1, 1], [3, 0, 1, 1], [2, 1, 2, 1], [3, 1, 2, 1],
    ]  # fmt: skip
    assert table["joined_seconds"].tolist() == pytest.approx([21, 21.06764, 21.06764, 109, 109.06764])
    streams = planning.streams(failover)
    assert streams["accepted_seconds"].tolist() == pytest.approx([21.067, 109.067])
    assert streams["packets"].tolist() == [0, 1]


def test_delivery_counts_a_node_without_power_apart(failover: Log) -> None:
    assert planning.delivery_ratio(failover).iloc[0].to_dict() == {
        "source": 3, "stream": 0, "put": 4, "sent": 4, "sent_while_on": 2, "delivered": 2,
        "ratio_of_put": 0.5, "ratio_of_sent": 0.5, "ratio_of_sent_while_on": 1,
    }  # fmt: skip
    assert planning.packets(failover)["sent_seconds"].tolist() == pytest.approx([37.034, 125.034])


def test_radios_of_the_failover(failover: Log) -> None:
    # All reach each other. In frame 9 there is no host: the windows of the schedules are open to their end.
    assert ticks(planning.radio_time(failover), 2) == {
        "opening": CLOSE + window(2, 10) + window(2, 12),
        "data": 2 * window(3, 9),
        "empty data": 6 * CLOSE,
        "contention": 2 * window(3, 7) + 2 * CLOSE,
        "closing": window(3, 12) + CLOSE + 2 * window(2, 12),
        "searching": 21 * SECOND + window(3, 10) + 68 * SECOND,
        "on": 5_719_234_304,
    }
    table = planning.duty_cycle(failover)
    assert table["powered_seconds"].tolist() == [24, 128, 128]
    assert row(table, node=1)["duty_cycle"] == pytest.approx(1_229_434_368 / SECOND / 24)


def test_other_words_for_by(line: Log) -> None:
    for call in (planning.delivery_ratio, planning.latency, planning.contention, planning.outages):
        with pytest.raises(ValueError, match="not one of"):
            call(line, "hour")


def test_tables_has_every_answer(line: Log) -> None:
    tables = planning.tables(line)
    assert len(tables) == 25
    assert all(isinstance(table, pd.DataFrame) for table in tables.values())


def test_the_summary_of_a_run(failover: Log) -> None:
    expected = {
        "ratio_of_put": 0.5, "ratio_of_sent_while_on": 1, "latency_median_seconds": (37.034 + 125.034 - 80) / 2 + ON_AIR, "hosts": 2,
        "all_joined_seconds": 21.06764, "all_accepted_seconds": 21.067, "requests": 2, "request_success": 1, "outage_seconds": 88,
    }  # fmt: skip
    told = planning.summary(failover)
    assert {name: told[name] for name in expected} == pytest.approx(expected)
    assert planning.summary(FAILOVER) == pytest.approx(told, nan_ok=True)
    empty = planning.summary("frames 1\nsends 1\nnode 1 0\nnode 2 0\nhost 0 1\n")
    assert empty["hosts"] == empty["requests"] == 0 and np.isnan(empty["ratio_of_put"]) and np.isnan(empty["outage_seconds"])


@pytest.mark.parametrize(
    "text",
    [
        # Nobody has power, and what is put is dropped.
        "frames 9\nsends 1\nnode 1 0\nnode 2 0\nhost 0 1\nput 0 2 0 aa\n",
        # Nothing is put, and nothing but searching happens.
        "frames 1\nsends 1\nnode 1 0\nnode 2 0\nhost 0 1\non 0 1\n",
        # A round without streams.
        "frames 6\nsends 1\nnode 1 0\nnode 2 0\nhost 0 1\npair 1 2\non 0 1\non 0 2\n",
        # A node goes off and on within one frame, and nobody hosts.
        "frames 3\nsends 1\nnode 1 0\nnode 2 0\nhost 0 1\non 0 2\noff 1 2\non 1 2\nstream 1 2 0 4\nput 1 2 0 aa\noff 1 2\n",
    ],
)
def test_tables_of_runs_in_which_little_happens(text: str) -> None:
    log = results.log(text)
    tables = planning.tables(log)
    assert tables["radio-time"]["on"].tolist() == pytest.approx(log.energy["on_seconds"].tolist())
    assert len(tables["packets"]) == text.count("put")
    assert tables["duty-cycle"]["node"].tolist() == [1, 2]


# Puts, dropped and cleared.


def fates(script: str, frames: int = 3) -> list[str]:
    """The fates of puts of node 2, which nobody hosts."""
    log = results.log(f"frames {frames}\nsends 1\nnode 1 0\nnode 2 0\nhost 0 1\n{script}")
    return planning.packets(log)["fate"].tolist()


def test_puts_that_are_dropped_and_puts_that_are_cleared() -> None:
    assert fates("put 0 2 0 aa\n") == ["dropped: node off"]
    assert fates("on 0 2\nput 0 2 0 aa\nstream 0 2 0 4\nput 0 2 0 bb\n") == ["dropped: no stream", "queued"]
    assert fates("on 0 2\nstream 0 2 0 4\nput 0 2 0 aa\noff 1 2\n") == ["lost with its node"]
    assert fates("on 0 2\nstream 0 2 0 4\nput 0 2 0 aa\nleave 1 2 0\nput 2 2 0 bb\n") == ["withdrawn", "dropped: no stream"]
    # `on` at a node with power does nothing, and `off` and `stream` without power do nothing.
    assert fates("on 0 2\nstream 0 2 0 4\non 1 2\nput 1 2 0 aa\n") == ["queued"]
    assert fates("stream 0 2 0 4\noff 0 2\non 1 2\nput 1 2 0 aa\n") == ["dropped: no stream"]


def test_which_puts_meet_a_full_queue() -> None:
    puts = "put 0 2 0 aa\n" * 18
    head = "on 0 2\nstream 0 2 0 4\n"
    assert fates(head + puts) == ["queued"] * 16 + ["dropped: full queue"] * 2
    # Two frames: of the second all are dropped.
    assert fates(head + "put 0 2 0 aa\n" * 16 + "put 1 2 0 aa\n") == ["queued"] * 16 + ["dropped: full queue"]
    # A stream that is left and requested again within the frame has an empty queue.
    again = head + puts + "leave 0 2 0\nstream 0 2 0 4\n" + puts
    assert fates(again) == (["withdrawn"] * 16 + ["dropped: full queue"] * 2) + (["queued"] * 16 + ["dropped: full queue"] * 2)
    # So has one after a restart within the frame.
    restarted = head + puts + "off 0 2\non 0 2\nstream 0 2 0 4\n" + puts
    assert fates(restarted) == (["lost with its node"] * 16 + ["dropped: full queue"] * 2) + (["queued"] * 16 + ["dropped: full queue"] * 2)
    # The numbers count what was queued, anew after a restart.
    log = results.log(f"frames 3\nsends 1\nnode 1 0\nnode 2 0\nhost 0 1\n{restarted}")
    assert planning.packets(log)["number"].tolist() == ([*range(16), -1, -1]) * 2


def test_a_stream_that_the_next_host_never_accepts_is_in_the_main_numbers() -> None:
    # Node 3 hears nothing of the second host.
    cuts = "".join(f"cut {frame} 0 0 3\n" for frame in range(27, 32))
    log = results.log(FAILOVER.replace("on 0 1\n", "on 0 1\n" + cuts))
    assert planning.hosts(log)[["streams", "accepted"]].values.tolist() == [[1, 1], [1, 0]]
    told = planning.summary(log)
    # The first host accepted it, which alone would look as if all were well.
    assert told["all_accepted_seconds"] == pytest.approx(21.067) and told["never_accepted"] == 1
    assert planning.summary(FAILOVER)["never_accepted"] == 0
    assert any("later hosts never accepted 1 of 1" in sentence for sentence in findings.of(log))
    assert not any("never accepted" in sentence for sentence in findings.of(log_of(FAILOVER)))
    words = "times that a stream was never accepted by a host, over all hosts"
    assert {"value": "1", "words": words} in page._numbers(log, settings.Settings())


# Windows that meet after a clock was set back.


@pytest.mark.parametrize("ppm", [0, 20])
def test_two_windows_that_the_log_has_as_one(ppm: int) -> None:
    """Node 2 receives each packet of node 1 once, so it listens to the end of all windows but those of its searches. Where its
    clock loses on that of the host, the opening's window goes on into the next: 0.8 ms of drift in the 20 s from round to round
    are more than the 0.25 ms between two windows."""
    made = Scenario(24, profile=2).node(1, ppm=ppm).node(2, ppm=-ppm).host(0, 1).link(1, 2).on()
    log = results.log(made)
    window = 55.75e-3
    # Rounds in frames 5, 9, 13, 17 and 21; node 2 searches through the first opening.
    expected = {"opening": 4 * window, "contention": 5 * window, "closing": 5 * window, "data": 0.0, "empty data": 0.0}
    told = planning.radio_time(log).loc[2]
    # A window that begins late, at the end of the one before, is shorter by what the clock was set back.
    assert told[list(expected)].to_dict() == pytest.approx(expected, abs=5 * 0.8e-3 if ppm else 1e-9)
    assert told["on"] == pytest.approx(log.energy.set_index("node").loc[2, "on_seconds"])
    tunings = radio.tunings(log)
    inside = tunings[(tunings["node"] == 2) & (tunings["slot"] >= 0)]
    assert inside["slot"].tolist() == [1, 2] + [0, 1, 2] * 4
    assert (len(tunings) > len(log.tunings)) == bool(ppm)
