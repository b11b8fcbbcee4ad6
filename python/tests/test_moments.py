"""Times in seconds: which frames they take effect in, and that no answer about them is rosier than the truth. Worked examples are by hand,
and random runs are held against the times of their logs."""

from __future__ import annotations

import random
from dataclasses import replace

import numpy as np
import pytest
from networks import FAILOVER, LINE

from foldcairn import outcome, planning
from foldcairn.answers import outages
from foldcairn.many import capacity, tallies
from foldcairn.model import moments
from foldcairn.model.scenario import Leave, Off, On, Put, Scenario, ScenarioError, Stream
from foldcairn.runs import losses, results


def two(frames: int = 40, profile: int = 1) -> Scenario:
    return Scenario(frames, profile=profile).node(1).node(2).host(0, 1).pair(1, 2)


# Which frame a time takes effect in.


def test_times_become_frames_by_hand() -> None:
    """In profile 2 frame 61 starts at 305 s, and frame 62 at 310 s."""
    made = two(90, 2).on().put(2, b"a", seconds=309.0).put(2, b"b", seconds=310).put(2, b"c", seconds=310.1)
    assert [line.frame for line in made.script[2:]] == [62, 62, 63]
    assert [made.put_seconds(line) for line in made.script[2:]] == [309.0, 310, 310.1]
    made = two(90, 2).on(2, seconds=309.0).stream(2, 9, seconds=309.0).leave(2, seconds=311).off(2, seconds=314.9)
    assert made.script == [On(62, 2), Stream(62, 2, 0, 9), Leave(63, 2, 0), Off(62, 2)]
    # What is a frame's start but for the rounding of a computer is its start: 0.7 * 900 is 629.9999999999999.
    assert two(200, 2).off(1, seconds=0.7 * 900).script == [Off(126, 1)] and two(200).put(1, seconds=0.1 * 3 * 40).script == [Put(3, 1, 0, b"")]
    # Of a stream every 7 s the last packet that a frame of 4 s takes is that of 35 s: at 42 s none starts any more.
    assert [line.frame for line in two(11).every(7, 2).script] == [0, 2, 4, 6, 7, 9] and two(11).frame_at(43.9) == 10
    with pytest.raises(ScenarioError, match="`put` at 40.1 s: the run ends at 44 s, and its last frame starts at 40 s"):
        two(11).put(2, seconds=40.1)


def test_a_node_that_is_on_for_less_than_a_frame_goes_off_again() -> None:
    # On at 5 s, so from frame 2 on; off at 7 s, which is in frame 1, before that.
    assert two().on(2, seconds=5).off(2, seconds=7).script == [On(2, 2), Off(2, 2)]
    # Off at 5 s and on at 7 s: it is off for a frame. An `on` of a later time, or of another node, changes nothing.
    assert two().off(2, seconds=5).on(2, seconds=7).script == [Off(1, 2), On(2, 2)]
    assert two().on(2, seconds=7).off(2, seconds=5).script == [On(2, 2), Off(1, 2)]
    assert two().on(1, seconds=5).off(2, seconds=7).script == [On(2, 1), Off(1, 2)]
    assert two().on(2, frame=2).off(2, seconds=7).script == [On(2, 2), Off(1, 2)]


def test_each_frame_has_the_least_ratio_of_its_time() -> None:
    def told(*given: tuple[float, float]) -> list[float]:
        made = two()
        for seconds, ratio in given:
            made.ratio(1, 2, ratio, seconds=seconds)
        return [made.prr_at(frame=frame).get((1, 2), 1.0) for frame in range(5)]

    # A fall counts for the frame that it lies in, a rise from the next frame on.
    assert told((5, 0.5)) == [1, 0.5, 0.5, 0.5, 0.5] and told((4, 0.5), (9, 0.8)) == [1, 0.5, 0.5, 0.8, 0.8]
    # Within one frame: up and down, down and up, and two rises. What holds last holds on.
    assert told((0, 0.5), (9, 0.9), (10, 0.4)) == [0.5, 0.5, 0.4, 0.4, 0.4]
    assert told((0, 0.5), (9, 0.9), (10, 0.7)) == [0.5, 0.5, 0.5, 0.7, 0.7]
    assert told((0, 0.5), (9, 0.4), (10, 0.7)) == [0.5, 0.5, 0.4, 0.7, 0.7]
    # A rise in the last frame comes too late for the run.
    assert two(3).ratio(1, 2, 0.5).ratio(1, 2, 0.9, seconds=11).ratios == {}


# The times of puts are kept.


def test_a_text_keeps_the_times_of_puts() -> None:
    made = two().on().stream(2, 4).put(2, b"a", seconds=5.25).put(2, b"b", seconds=8).put(2, b"c", frame=3).put(2, b"d", seconds=9.1)
    lines = made.text(warn=False).splitlines()
    assert lines[-6:] == ["#: seconds 5.25", "put 2 2 0 61", "put 2 2 0 62", "put 3 2 0 63", "#: seconds 9.1", "put 3 2 0 64"]
    again = Scenario.read(made.text(warn=False))
    assert again == made and again.text(warn=False) == made.text(warn=False)
    assert [again.put_seconds(line) for line in again.script if isinstance(line, Put)] == [5.25, 8, 12, 9.1]
    # Who moves the line to another frame gives it that time, and other comments are none.
    moved = Scenario.read(made.text(warn=False).replace("put 2 2 0 61", "put 5 2 0 61").replace("#: seconds 9.1", "#: seconds x"))
    assert [moved.put_seconds(line) for line in moved.script if isinstance(line, Put)] == [20, 8, 12, 12]
    assert made.copy().put_seconds(made.script[3]) == 5.25 and replace(made, profile=2).put_seconds(made.script[6]) == 15
    assert losses.draw(made.copy().ratio(1, 2, 0.9), 1).text(warn=False).count("#: seconds") == 2
    assert results.log(made.text(warn=False)).scenario.put_seconds(made.script[3]) == 5.25


# Latencies by hand.


def test_latencies_count_from_the_given_time_by_hand() -> None:
    """The worked line: node 3 sends in slot 1 of frame 9, which begins at 37.033 s, 1 ms later. Its packet of 17 bytes takes 0.544 ms a hop."""
    made = Scenario.read(LINE.replace("put 0 3 0 aa\n", "")).put(3, b"\xaa", seconds=17.5)
    log = results.log(made)
    (packet,) = planning.packets(log).to_dict("records")
    assert (packet["frame"], packet["put_seconds"]) == (5, 17.5)
    first, second = planning.latencies(log).sort_values("delivered_seconds").itertuples()
    assert first.delivered_seconds == pytest.approx(37.034 + 17 * 2_048 / 64e6) and first.latency_seconds == first.delivered_seconds - 17.5
    # Within 19.535 s at node 2, and a little later at node 1; a deadline counts from the same time.
    assert planning.deadline(log, 19.535, "node")["in_time"].tolist() == [0, 1] and second.latency_seconds < 19.537
    # Without a log by the end of the slot, at 37.066 s; a sample has the end of slot 40 of that frame, at 36 + 1 + 41 * 0.033 s.
    without = planning.latencies(results.bus(made))
    assert without["planned_latency_seconds"].tolist() == pytest.approx([19.566] * 2)
    counted = planning.sample(made.copy().ratio(3, 2, 0.999_999), [1], deadline=20.9, progress=False)
    assert counted.latency("all")["mean"].tolist() == pytest.approx([38.353 - 17.5] * 2) and counted.deadline("all")["mean"].tolist() == [1]
    # The time of a put decides what counts: from 17.5 s on it is in, from 17.6 s on it is not.
    assert [planning.delivery_ratio(log, "all", start_seconds=start)["put"][0] for start in (17.5, 17.6)] == [2, 0]


def test_what_clocks_may_lose_by_hand() -> None:
    """A clock that is 20 ppm slow shows 160 s after 160.0032 s."""
    made = Scenario(40).node(1, ppm=-20).node(2, 256_000, ppm=20).host(0, 1).pair(1, 2)
    assert moments.late_seconds(made) == pytest.approx(0.0032, abs=1e-7) and moments.late_seconds(two()) == 0
    assert moments.early_seconds(two().put(2, seconds=5).put(2, seconds=7).put(1, frame=3)) == {(2, 0): 3, (1, 0): 0}
    assert tallies.most_seconds(made, np.array([2]), np.array([1.5])) == pytest.approx(8 + 1 + 41 * 0.033 + 0.0032 + 1.5, abs=1e-7)


# Random runs.


def busy(seed: int) -> Scenario:
    """A small network whose packets come at random times; clocks drift, links lose, and a second host takes over in half of them."""
    chance = random.Random(seed)
    made = Scenario(chance.randint(24, 40), profile=chance.choice([1, 2]))
    nodes = range(1, chance.randint(3, 5) + 1)
    for node in nodes:
        made.node(node, chance.randint(0, 256_000), chance.randint(-20, 20))
    made.host(0, 1).host(1, 2)
    for node in nodes[1:]:
        made.link(node - 1, node, round(chance.uniform(0.7, 1), 2)).link(node, node - 1, round(chance.uniform(0.7, 1), 2))
    made.on()
    for node in nodes[1:]:
        made.stream(node, chance.randint(2, 8))
        for _ in range(chance.randint(1, 6)):
            made.put(node, b"x", seconds=chance.uniform(0, made.seconds - made.frame_seconds))
    return made.off(1, seconds=chance.uniform(60, 90)) if seed % 2 else made


def true_latencies(log: results.Log, scenario: Scenario) -> dict[tuple[int, ...], float]:
    """The true time from each put to each delivery at a node, by the lines of the log and the times that were given."""
    given: dict[tuple[int, int, int, int], float] = {}
    numbers: dict[tuple[int, int], int] = {}
    fates = iter(results.fates(scenario.text(warn=False), 0).itertuples())
    for line in sorted((line for line in scenario.script if isinstance(line, Put)), key=lambda line: line.frame):
        row = next(fates)
        assert line.seconds is not None and line.frame * scenario.frame_seconds - scenario.frame_seconds < line.seconds <= line.frame * scenario.frame_seconds
        if row.became != "dropped":
            given[line.node, row.boot, line.stream, row.number] = line.seconds
            numbers[line.node, line.stream] = row.number
    found: dict[tuple[int, ...], float] = {}
    for row in log.receptions[log.receptions["kind"] == "data"].itertuples():
        packet = log.packets.loc[row.packet]
        key = packet["origin"], packet["boot"], packet["stream"], packet["number"]
        waited = row.end_ticks / 64_000_000 - given[key]
        found[(*key, row.node)] = min(waited, found.get((*key, row.node), waited))
    return {key: found[key] for key in log.deliveries[["source", "boot", "stream", "number", "node"]].itertuples(index=False, name=None)}


@pytest.mark.parametrize("first", range(0, 200, 20))
def test_no_latency_is_below_the_real_one(first: int) -> None:
    """The greatest real latency of each run, against the answers with a log, without one, and by counts of frames."""
    met = 0
    for seed in range(first, first + 20):
        network = busy(seed)
        log = results.log(losses.draw(network, seed), warn=False)
        real = true_latencies(log, log.scenario)
        if not real:
            continue
        met += 1
        exact = planning.latencies(log)
        assert len(exact) == len(real) and exact["latency_seconds"].max() == pytest.approx(max(real.values()), abs=1e-9) and exact["latency_seconds"].min() > 1
        by_key = planning.latencies(outcome(network, seed, warn=False)).set_index(["source", "boot", "stream", "number", "node"])
        planned = by_key["planned_latency_seconds"]
        over = np.array([planned[key] - waited for key, waited in real.items()])
        assert (over >= 0).all() and (over <= 0.056 + 0.005 + 0.004).all()
        came = tallies.arrivals(network, None, [seed])
        early = np.array([moments.early_seconds(network).get(stream, 0.0) for stream in came.streams])
        bounds = tallies.most_seconds(network, came.table["frames"].to_numpy(), early[came.table["group"].to_numpy()])
        assert max(real.values()) <= bounds.max() < max(real.values()) + network.frame_seconds + 41 * 0.056
        median = planning.sample(network, [seed], progress=False).runs["latency_median_seconds"][0]
        assert median >= np.quantile(list(real.values()), 0.5, method="inverted_cdf")
    assert met >= 15


def test_no_alarm_comes_before_it_happens() -> None:
    """Eighty alarms at random seconds, in rounds every 4 or 5 s."""
    chance = random.Random(1)
    for profile in (1, 2):
        made = two(400, profile).on().stream(2, 4, keep_alive=30)
        times = [chance.uniform(40, made.seconds - 60) for _ in range(40)]
        for place, seconds in enumerate(times):
            made.put(2, bytes([place]), seconds=seconds)
        log = results.log(made, warn=False)
        came = {line.payload: line.delivered_seconds for line in log.deliveries[log.deliveries["node"] == 1].itertuples() if line.payload != "-"}
        assert len(came) == 40
        real = [came[f"{place:02x}"] - seconds for place, seconds in enumerate(times)]
        assert min(real) > 1 and sorted(real) == pytest.approx(sorted(planning.latencies(log, receivers=1)["latency_seconds"]))


# Other answers that count from a put.


def test_a_packet_waits_from_its_frame_on() -> None:
    """For the cause of an outage a packet is there once it is handed over, and capacity counts what is put from a time on. The second host of
    the worked failover begins its first round at 109 s; a packet that is put at 108.9 s is handed over at 112 s."""
    for seconds, cause in ((107.9, outages.HOST), (108.9, outages.NO_PACKET)):
        made = Scenario.read(FAILOVER.replace("put 20 3 0 bb\n", "")).put(3, b"\xbb", seconds=seconds)
        assert outages.outages(results.log(made), "stream")["cause"].tolist() == [cause]
    made = two(30).on().stream(2, 4).put(2, b"a", seconds=1).put(2, b"b", seconds=81)
    table = capacity._counts(None, 80.0, outcome(made, warn=False))
    assert table[table["source"] == 2][["put", "delivered", "one"]].values.tolist() == [[1, 1, 1]]
