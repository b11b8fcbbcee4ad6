"""Outages that nobody ends, power cycles, two hosts at once, sporadic streams, and what a network has room for."""

from __future__ import annotations

import math
from dataclasses import replace

import numpy as np
import pandas as pd
import pytest
from networks import FAILOVER, LINE, log_of

from foldcairn import planning
from foldcairn.answers import service
from foldcairn.common.arguments import ArgumentError
from foldcairn.many import capacity
from foldcairn.model.scenario import On, Scenario
from foldcairn.runs import losses, results

# Node 1 hosts until frame 6, node 2 from frame 27 until frame 40, and then nobody.
SILENT = FAILOVER.replace("frames 32", "frames 60") + "off 40 2\nput 45 3 0 cc\n"
# Node 1 is off from frame 6 to 31, and by then node 2 hosts (docs/RETURN.md).
COMES_BACK = FAILOVER.replace("frames 32", "frames 58") + "on 31 1\nput 40 3 0 cc\n"


def test_an_outage_that_nobody_ends() -> None:
    log = results.log(SILENT)
    table = planning.outages(log)
    assert table[["from_host", "to_host", "ended"]].values.tolist() == [[1, 2, True], [2, -1, False]]
    last = table.iloc[1]
    assert last["off_seconds"] == 160 and np.isnan(last["first_round_seconds"])
    assert last["outage_seconds"] == pytest.approx(240 - last["last_delivery_seconds"])
    by_stream = planning.outages(log, "stream")
    assert by_stream[["to_host", "ended", "cause"]].values.tolist() == [[2, True, "host"], [-1, False, "host"]]
    told = planning.summary(log)
    assert told["no_host_from_seconds"] == 160 and told["outage_seconds"] == pytest.approx(last["outage_seconds"])
    assert "no host serves from 160 s to the end of the run, at 240 s" in planning.cautions(log)
    # A host that serves at the end has none.
    assert np.isnan(planning.summary(FAILOVER)["no_host_from_seconds"]) and planning.outages(log_of(LINE)).empty


def test_a_host_that_goes_silent_with_power() -> None:
    """Node 2 is cut off from node 1 for good, and never hosts itself: the only host is switched off."""
    log = results.log(LINE.replace("frames 12", "frames 30") + "off 20 1\n")
    assert planning.outages(log)[["from_host", "to_host", "off_seconds"]].values.tolist() == [[1, -1, 80]]


def test_a_host_that_loses_power_twice_is_counted_from_the_last_time() -> None:
    """Node 1 goes off at 24 s, is back and serves from 49 s to 65 s, and goes off at 80 s for good; node 2 takes over at 153 s."""
    log = results.log(FAILOVER.replace("frames 32", "frames 60").replace("off 6 1\n", "off 6 1\non 7 1\noff 20 1\n"))
    table = planning.outages(log)
    assert table[["from_host", "to_host", "off_seconds"]].values.tolist() == [[1, 1, 24], [1, 2, 80]]
    assert table["since_off_seconds"][1] == table["first_delivery_seconds"][1] - 80
    # Where nobody takes over, the network is without a host from then on.
    alone = results.log(LINE.replace("frames 12", "frames 40") + "off 8 1\non 9 1\noff 20 1\n")
    assert service.no_host_from(alone) == 80


def test_a_host_whose_last_closing_is_not_in_the_log() -> None:
    """The worked line has rounds in frames 5 and 9, and the next one would be due after the run. Where the log lacks the closing of the last,
    nobody knows when the next is due, so it is missed from the next frame on."""
    log = log_of(LINE)
    assert np.isnan(service.no_host_from(log))
    lost = (log.transmissions["kind"] == "closing") & (log.transmissions["start_seconds"] > 36)
    without = replace(log, transmissions=log.transmissions[~lost])
    assert planning.rounds(without)[["frame", "acknowledgements", "gap"]].values.tolist() == [[5, 1, 4], [9, 0, -1]]
    assert service.no_host_from(without) == 40


@pytest.mark.parametrize(
    ("script", "cause", "ended"),
    [
        ("", "host", True),
        # The source goes off before the new host comes, and stays off.
        ("off 20 3\n", "own power", False),
        ("off 20 3\non 22 3\nstream 22 3 0 4\nput 22 3 0 bb\n", "own power", True),
        # Its next packet comes after the first round of the new host.
        ("put 28 3 0 bb\n", "no packet", True),
    ],
)
def test_outages_by_their_cause(script: str, cause: str, ended: bool) -> None:
    text = FAILOVER.replace("frames 32", "frames 44")
    log = results.log(text if not script else text.replace("put 20 3 0 bb\n", script))
    row = planning.outages(log, "stream").iloc[0]
    assert (row["cause"], row["ended"]) == (cause, ended)


def test_power_cycles_are_apart_from_the_first_start() -> None:
    log = results.log(LINE.replace("frames 12", "frames 30") + "off 14 3\non 18 3\n")
    # The first start alone: 21.07 s, as in the network without the power cycle.
    assert planning.hosts(log)["all_joined_seconds"].tolist() == pytest.approx([21.067 + 94_208 / 64e6])
    assert planning.summary(log)["all_joined_seconds"] == pytest.approx(21.067 + 94_208 / 64e6)
    cycle = planning.power_cycles(log).iloc[0]
    assert (cycle["node"], cycle["boot"], cycle["off_seconds"], cycle["on_seconds"], cycle["host"]) == (3, 2, 56, 72, 1)
    assert 72 < cycle["joined_seconds"] < 90 and cycle["waited_seconds"] == cycle["joined_seconds"] - 72
    assert planning.joins(log)["start"].tolist() == ["first start", "first start", "first start", "power cycle"]
    assert planning.joins(log_of(FAILOVER))["start"].tolist()[3:] == ["another host", "another host"]
    assert planning.power_cycles(log_of(LINE)).empty
    # A node that is off to the end of the run, and one that never joins again.
    lost = planning.power_cycles(results.log(LINE + "off 6 3\non 11 3\n")).iloc[0]
    assert lost["host"] == -1 and np.isnan(lost["joined_seconds"])


def test_all_streams_accepted_speaks_of_the_first_start() -> None:
    text = LINE.replace("frames 12", "frames 30") + "off 14 3\non 18 3\nstream 28 3 0 4\nput 28 3 0 bb\n"
    assert planning.hosts(results.log(text))["all_accepted_seconds"].tolist() == pytest.approx([21.067])


def test_two_hosts_at_once() -> None:
    log = results.log(COMES_BACK)
    # Node 2 hosts from frame 27 on, node 1 again from frame 36 on, in each fourth frame.
    row = planning.hosts(log, "at once").iloc[0]
    assert (row["host"], row["other_host"], row["start_seconds"], row["end_seconds"]) == (2, 1, 145, 225)
    assert planning.hosts(log)["at_once_seconds"].tolist() == [0, 80, 80]
    told = next(caution for caution in planning.cautions(log) if "two hosts serve at once" in caution and caution.startswith("from"))
    assert "from 145 s to 225 s" in told and "`results.returns`" in told
    # The scenario alone tells it too.
    (before,) = [caution for caution in Scenario.read(COMES_BACK).cautions() if "two hosts" in caution]
    assert before.startswith("node 1 hosts again some 20 s after 124 s") and "`return`" in before
    assert not [caution for caution in Scenario.read(FAILOVER).cautions() if "two hosts" in caution]
    assert planning.hosts(log_of(FAILOVER), "at once").empty


# Sporadic streams.


def sporadic(**more: float) -> Scenario:
    """Node 3 asks for a slot every 4 s, and has a packet at the start and one after 160 s."""
    made = Scenario(60).node(1).node(2).node(3).host(0, 1).pair(1, 2).pair(2, 3).on()
    return made.stream(3, 4, **more).put(3, b"a").put(3, b"b", frame=40)


def test_a_stream_that_its_host_takes_away() -> None:
    (caution,) = [caution for caution in sporadic().cautions() if "takes a stream away" in caution]
    assert "stream 0 of node 3 after 64 s (its pauses are up to 160 s)" in caution and "keep_alive=seconds" in caution
    assert not [caution for caution in sporadic(keep_alive=40).cautions() if "takes a stream away" in caution]
    lost, kept = results.log(sporadic()), results.log(sporadic(keep_alive=40))
    # Taken away after 16 empty slots, it asks again, and so its second packet waits for one more round.
    assert planning.streams(lost)["requests"].tolist() == [2] and planning.streams(kept)["requests"].tolist() == [1]
    waits = [planning.latencies(log, receivers="hosts")["latency_seconds"].iloc[-1] for log in (lost, kept)]
    assert waits[0] - waits[1] >= 15


def test_packets_that_keep_a_stream_alive_count_nowhere() -> None:
    log = results.log(sporadic(keep_alive=40))
    assert planning.packets(log)["keep_alive"].sum() == 6 and len(planning.packets(log)) == 8
    assert planning.delivery_ratio(log, "all", receivers="hosts")["put"].tolist() == [2]
    assert planning.fates(log, "all")["puts"].tolist() == [2] and len(planning.latencies(log, receivers="hosts")) == 2
    assert planning.deadline(log, 60, "all", receivers="hosts")["due"].tolist() == [2]
    told = planning.importance(log.scenario, candidates=[(2, 3)], seeds=[1], receivers="hosts", progress=False)
    assert told["ratio"].tolist() == [1.0]


# What is hardly meant.


def line(count: int, ratio: float = 1.0, frames: int = 20) -> Scenario:
    made = Scenario(frames)
    for node in range(1, count + 1):
        made.node(node)
    for node in range(1, count):
        made.pair(node, node + 1, ratio)
    return made.host(0, 1).on()


def with_script(made: Scenario, more: list[On]) -> Scenario:
    made.script += more
    return made


@pytest.mark.parametrize(
    ("made", "says"),
    [
        (lambda: line(14), "node 14 is reached by no host within 12 hops, so it can't join"),
        (lambda: line(15), "nodes 14, 15 are reached by no host within 12 hops"),
        (lambda: line(8, 0.6), "the links to nodes 7, 8 lose so much that a flood needs more than its 12 steps"),
        (lambda: line(3).node(9).on(9), "node 9 has no link to or from any other node"),
        (lambda: line(3).link(1, 3, 0).node(9).link(9, 1, 0).link(1, 9, 0).on(9), "node 9 has no link"),
        (lambda: line(34, frames=720), "`run` and `log` without a seed take at most 16,384 nodes times frames, which with 34 nodes are 481 frames, or 32 "
                                      "minutes, and this network has 720 (48 minutes); for all of it take `results.outcome`"),
        (lambda: line(65), "`run` rejects this: it has 65 nodes, and at most 64 are run"),
        (lambda: with_script(line(3), [On(0, 1)] * 20_000), "`run` and `log` without a seed take at most 20,000 lines of a script, and this network has "
                                                             "20,003; for all of it take `results.outcome`"),
        (lambda: with_script(line(3), [On(0, 1)] * 262_144), "`outcome` rejects this: it has 262,147 lines of its script, and at most 262,144 are read"),
        (lambda: Scenario(4).node(1).node(2).pair(1, 2).on(), "`run` rejects this: no node hosts; say which one by `host(0, id)`"),
        (lambda: line(5).stream(2, 9).put(2).stream(3, 9).put(3).stream(4, 9).put(4), "3 nodes ask for their streams in one contention slot"),
    ],
)  # fmt: skip
def test_cautions(made, says: str) -> None:
    found = made().cautions()
    assert any(says in caution for caution in found), found


def test_nothing_to_caution() -> None:
    assert line(13).cautions() == [] and line(6, 0.8).cautions() == []
    assert not [caution for caution in line(3).stream(2, 9).put(2).stream(3, 9).put(3).cautions() if "one contention slot" in caution]


def test_a_run_in_which_nobody_joins() -> None:
    told = planning.cautions(results.log(line(14, frames=12).stream(14, 4).put(14), warn=False))
    assert "never joined a host: node 14" in told and "never accepted: stream 0 of node 14" in told


# Room for more.


def test_capacity_of_streams_and_slots() -> None:
    made = line(4, frames=60).every(10, 3, interval=8)
    told = planning.capacity(made, every=20, progress=False).iloc[0]
    assert (told["streams"], told["streams_left"], told["slots"], told["slots_left"]) == (1, 31, 0.5, 39.5)
    # Each node but the host has room for four streams, and node 3 has one.
    assert told["interval"] == 17 and told["further"] <= 11
    assert told["limit"] == ("streams of nodes" if told["further"] == 11 else "the run")


def test_capacity_by_the_run(tmp_path) -> None:
    # The link to node 3 passes nothing, so no stream of it is served.
    made = line(3, frames=60).link(3, 2, 0)
    told = planning.capacity(made, every=20, sources=[3], results=tmp_path, progress=False).iloc[0]
    assert (told["further"], told["limit"]) == (0, "the run")
    assert len(list(tmp_path.iterdir())) >= 2
    assert planning.capacity(made, every=20, sources=[2], progress=False)["further"].iloc[0] >= 3
    with pytest.raises(ValueError, match="there are not two packets with 60 s between them"):
        planning.capacity(made, start_seconds=239)


def test_capacity_with_a_packet_of_grace() -> None:
    """Of ten packets nine have to be delivered, but for one that may be on its way at the end."""
    search = capacity._Search(line(3, frames=60), [(3, 1)], 20, 17, 0.9, None, [1], None)
    search.before[1] = 0.0
    for delivered, served in ((9, True), (8, True), (7, False)):
        table = pd.DataFrame({"seed": 1, "source": [0, 3], "stream": [0, 1], "put": [0, 10], "delivered": [0, delivered], "one": [0.0, 1.0]})
        assert search._is_served(table, 1) is served


@pytest.mark.parametrize(
    ("given", "says"),
    [
        ({"interval": 0}, "`interval` is 0, and has to be a whole number from 1 to 120"), ({"interval": 2.5}, "`interval` is 2.5"),
        ({"every": 0}, "`every` is 0, and has to be a number above 0"), ({"every": math.nan}, "`every` is nan"), ({"ratio": math.nan}, "`ratio` is nan"),
        ({"ratio": 1.5}, "`ratio` is 1.5"), ({"seeds": []}, "`seeds` has no seed"), ({"seeds": [1, 1]}, "`seeds` has the seed 1 twice"),
        ({"sources": [2, 2, 2]}, "`sources` has node 2 twice; a node that is named once gets all streams"), ({"sources": []}, "`sources` has no node"),
        ({"sources": 2}, r"`sources` is 2, and has to be several nodes; write \[2\] for one"), ({"start_seconds": math.nan}, "`start_seconds` is nan"),
    ],
)  # fmt: skip
def test_arguments_of_capacity_that_are_wrong(given: dict[str, object], says: str) -> None:
    with pytest.raises(ArgumentError, match=says):
        planning.capacity(line(3, frames=60), **{"every": 20, **given}, progress=False)  # type: ignore[arg-type]
    with pytest.raises(ArgumentError, match="`scenario` is a str, and has to be a Scenario"):
        planning.capacity("frames 3", progress=False)  # type: ignore[arg-type]


def test_capacity_of_a_network_whose_losses_were_drawn() -> None:
    made = line(3, frames=60).pair(2, 3, 0.8)
    asked = {"every": 20, "sources": [3], "seeds": np.arange(1, 3), "progress": False}
    assert planning.capacity(losses.draw(made, 9), **asked).equals(planning.capacity(made, **asked))
