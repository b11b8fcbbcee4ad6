"""For whom packets are meant, on the networks of networks.py, whose numbers are worked out by hand."""

from __future__ import annotations

import numpy as np
import pytest
from networks import FAILOVER, LINE, log_of

from foldcairn import planning
from foldcairn.many import importance
from foldcairn.model.scenario import Scenario, ScenarioError
from foldcairn.runs import results
from foldcairn.runs.results import Log


@pytest.fixture(scope="module")
def failover() -> Log:
    """The packet aa is sent in a round without its host, node 1; bb in one of node 2, and node 2 delivers both."""
    return log_of(FAILOVER)


def ratios(log: Log, whom: object, by: str = "all") -> list[list[int]]:
    return planning.delivery_ratio(log, by, receivers=whom)[["put", "sent", "sent_while_on", "delivered"]].values.tolist()


def test_whichever_host_serves(failover: Log) -> None:
    # For aa the host is node 1, which has no power by then; for bb it is node 2.
    assert ratios(failover, "hosts") == [[2, 2, 1, 1]]
    assert ratios(failover, "hosts", "node") == [[1, 1, 0, 0], [1, 1, 1, 1]]
    # A list counts each of its nodes, and node 2 has both packets.
    assert ratios(failover, [1, 2]) == [[4, 4, 2, 2]] and ratios(failover, 2) == [[2, 2, 2, 2]]
    assert ratios(failover, "all") == ratios(failover, None) == [[4, 4, 2, 2]]
    assert planning.latencies(failover, receivers="hosts")["node"].tolist() == [2]
    assert planning.latency(failover, "node", receivers="hosts")["deliveries"].tolist() == [0, 1]
    assert planning.summary(failover, receivers="hosts")["ratio_of_put"] == 0.5


def test_a_packet_that_is_never_sent_is_not_delivered_and_in_no_row_of_a_node() -> None:
    # bb is put in the last frame, too late for a round; node 2 hosts by then, and nothing is sent in its rounds.
    log = results.log(FAILOVER.replace("put 20 3 0 bb", "put 31 3 0 bb"))
    assert ratios(log, "hosts", "node") == ratios(log, "hosts", "pair") == [[1, 1, 0, 0]]
    assert ratios(log, "hosts") == ratios(log, "hosts", "stream") == [[2, 1, 0, 0]]
    assert planning.deadline(log, 30, "all", receivers="hosts")[["due", "never"]].values.tolist() == [[1, 1]]
    # A named receiver has all that is put.
    assert ratios(log, 2, "node") == [[2, 1, 1, 1]]


def test_a_host_has_its_own_packets_already() -> None:
    made = Scenario.read(LINE).stream(1, 4).put(1, b"x").put(1, b"y")
    log = results.log(made)
    assert ratios(log, "hosts") == [[1, 1, 1, 1]]
    assert planning.delivery_ratio(log, receivers="hosts")["put"].tolist() == [0, 1]


def test_a_sink_for_each_stream() -> None:
    log = results.log(Scenario.read(LINE.replace("frames 12", "frames 20")).stream(2, 4, frame=9).put(2, b"x", frame=9))
    assert ratios(log, {2: 1, 3: [1, 2]}, "pair") == [[1, 1, 1, 1]] * 3
    assert ratios(log, {(2, 0): 3, "others": "hosts"}, "pair") == [[1, 1, 1, 1]] * 2
    with pytest.raises(ValueError, match='names no receiver for stream 0 of node 3; name one, or all others at once by "others"'):
        planning.delivery_ratio(log, receivers={2: 1})


def test_a_scenario_says_its_sinks_once() -> None:
    made = Scenario.read(LINE).sinks(1)
    log = results.log(made)
    assert ratios(log, None) == ratios(log, 1) == [[1, 1, 1, 1]] and ratios(log, "all") == [[2, 2, 2, 2]]
    assert results.log(made.copy().sinks("hosts")).scenario.receivers == "hosts"
    with pytest.raises(ScenarioError, match="the scenario has no node 99; it has 3 nodes: 1, 2, 3"):
        made.sinks(99)


@pytest.mark.parametrize("call", [planning.delivery_ratio, planning.latency, planning.latencies, planning.summary, planning.tables])
def test_an_unknown_receiver(call, failover: Log) -> None:
    with pytest.raises(ValueError, match="`receivers`: the scenario has no node 99; it has 3 nodes"):
        call(failover, receivers=[99])
    with pytest.raises(ValueError, match='`receivers` is \'host\', and neither "all" nor "hosts"'):
        call(failover, receivers="host")


def test_a_source_that_delivers_nothing_has_a_row() -> None:
    log = results.log(LINE.replace("pair 2 3\n", ""))
    assert planning.delivery_ratio(log)[["source", "put", "delivered"]].values.tolist() == [[3, 2, 0]]
    assert planning.latency(log)[["source", "deliveries"]].values.tolist() == [[3, 0]]
    assert planning.latency(log, "all")["deliveries"].tolist() == [0] and planning.latency(log, "all")["max_seconds"].isna().all()
    # Also outside of the time that counts, and without any packet.
    assert planning.delivery_ratio(log_of(LINE), start_seconds=40)["put"].tolist() == [0]
    silent = results.log(LINE.replace("put 0 3 0 aa\n", ""))
    assert planning.delivery_ratio(silent)["put"].tolist() == [0] and np.isnan(planning.delivery_ratio(silent)["ratio_of_put"][0])


def test_importance_of_what_arrives_at_the_host() -> None:
    made = Scenario.read(LINE).node(4).pair(2, 4).on(4)
    told = [importance.importance(made, "nodes", seeds=[1], receivers=whom, progress=False).set_index("node") for whom in ("all", "hosts")]
    # Without node 4 all others deliver, so it matters for the host as little as for all others.
    assert [table.loc[4, "change"] for table in told] == [0, 0] and [table.loc[2, "change"] for table in told] == [-1, -1]
    cut = importance.importance(made, candidates=[(2, 4)], seeds=[1], receivers="hosts", progress=False).iloc[0]
    assert (cut["ratio"], cut["ratio_cut"]) == (1, 1)
    cut = importance.importance(made, candidates=[(2, 4)], seeds=[1], progress=False).iloc[0]
    assert (cut["ratio"], cut["ratio_cut"]) == pytest.approx((1, 2 / 3))


def test_power_counts_in_the_frame_in_which_a_packet_is_sent() -> None:
    """Node 3 sends in frame 9. A neighbour of the host goes off just then, or one frame later, or comes on just then."""
    more = LINE + "node 4 0\npair 1 4\n"
    assert ratios(results.log(more + "on 0 4\noff 9 4\n"), 4) == [[1, 1, 0, 0]]
    assert ratios(results.log(more + "on 0 4\noff 10 4\n"), 4) == [[1, 1, 1, 1]]
    assert ratios(results.log(more + "on 9 4\n"), 4) == [[1, 1, 1, 1]]


def test_what_is_put_from_a_time_on_and_before_another(failover: Log) -> None:
    # The packets are put at 0 and at 80 s.
    for window, count in (((0, 80), 1), ((0, 80.001), 2), ((80, 128), 1), ((80.001, 128), 0), ((0, 128), 2)):
        given = dict(zip(("start_seconds", "end_seconds"), window), receivers=2)
        assert planning.delivery_ratio(failover, "all", **given)["put"].tolist() == [count]
        assert planning.latency(failover, "all", **given)["deliveries"].tolist() == [count]
        assert planning.deadline(failover, 48, "all", **given)["due"].tolist() == [count]


# Deadlines.


def test_the_share_within_a_deadline(failover: Log) -> None:
    # aa needs 37.035 s at node 2, bb, put at 80 s, 45.035 s; node 1 has no power for either.
    def told(seconds: float, whom: object = 2) -> list[list[float]]:
        return planning.deadline(failover, seconds, receivers=whom)[["due", "in_time", "late", "never"]].values.tolist()

    assert told(37) == [[2, 0, 2, 0]] and told(38) == [[2, 1, 1, 0]] and told(46) == [[2, 2, 0, 0]]
    # Just at the deadline is in time, and a deadline just at the end of the run, at 128 s, is due.
    first, second = sorted(planning.latencies(failover, receivers=2)["latency_seconds"])
    assert told(first) == [[2, 1, 1, 0]] and told(second) == [[2, 2, 0, 0]] and told(48) == [[2, 2, 0, 0]]
    assert told(np.nextafter(first, 0)) == [[2, 0, 2, 0]]
    # One after the end of the run tells nothing.
    assert told(49) == [[1, 1, 0, 0]] and told(46, "hosts") == [[2, 1, 0, 1]]
    assert planning.deadline(failover, 46, receivers="hosts")["share"].tolist() == [0.5]
    assert planning.deadline(failover, 46, "all")["share"].tolist() == [0.5]
    with pytest.raises(ValueError, match="`seconds` is 0, and has to be a number above 0"):
        planning.deadline(failover, 0)
