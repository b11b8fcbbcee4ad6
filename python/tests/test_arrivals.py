"""What was put and what arrived: packet by packet on a run that is worked out by hand, and as a whole on networks whose hosts fail, where it is
recomputed from the raw lines of the programs for several receivers."""

from __future__ import annotations

from collections import Counter
from collections.abc import Mapping
from dataclasses import replace

import numpy as np
import pandas as pd
import pytest
from networks import FAILOVER, log_of
from test_hosts import failing

from foldcairn import outcome, planning
from foldcairn.answers import arrivals, puts
from foldcairn.many import counts
from foldcairn.model import moments
from foldcairn.model.receivers import NO_HOST, hosts_of, meant
from foldcairn.model.scenario import Put, Scenario
from foldcairn.runs import losses, numbers, program, results

# The worked failover: of node 3 the packet aa is sent in frame 9 in a round of rank 0, whose host is off, and bb in frame 31 in one of rank 1.
# Node 2, which hosts rank 1, delivers both.


def changed(**columns: list[int]) -> results.Log:
    """The log of the failover as somebody may have recorded it, with other values in its two deliveries."""
    log = log_of(FAILOVER)
    assert log.deliveries[["frame", "rank", "node"]].values.tolist() == [[9, 0, 2], [31, 1, 2]]
    return replace(log, deliveries=log.deliveries.assign(**columns))


def told(log: results.Log, receivers: object) -> tuple[list[int], list[int]]:
    """What was put, sent and delivered, and where deliveries of `latencies` are."""
    ratio = planning.delivery_ratio(log, "all", receivers=receivers)
    return ratio[["put", "sent", "delivered"]].values[0].tolist(), planning.latencies(log, receivers=receivers)["node"].tolist()


def test_the_run_as_it_is() -> None:
    assert told(changed(), "hosts") == ([2, 2, 1], [2])
    assert told(changed(), 2) == ([2, 2, 2], [2, 2])
    assert told(changed(), [1, 2]) == ([4, 4, 2], [2, 2])


def test_of_a_packet_for_the_host_counts_the_round_in_which_it_was_sent() -> None:
    # aa was sent in a round of rank 0: a delivery in one of rank 1, at the host of that, is none at its host.
    assert told(changed(rank=[1, 1]), "hosts") == ([2, 2, 1], [2])
    # bb was sent in frame 31; whoever names node 2 takes it in any round.
    assert told(changed(frame=[9, 30]), "hosts") == ([2, 2, 0], [])
    assert told(changed(frame=[9, 30]), 2) == ([2, 2, 2], [2, 2])
    assert planning.packets(changed(frame=[9, 30]))[["deliveries", "host_delivered"]].values.tolist() == [[1, False], [1, False]]


def test_a_delivery_that_is_there_twice_counts_once() -> None:
    log = changed()
    twice = replace(log, deliveries=log.deliveries.iloc[[0, 1, 1]].reset_index(drop=True))
    for receivers in ("hosts", 2, "all"):
        assert told(twice, receivers) == told(log, receivers)
    assert planning.packets(twice)["deliveries"].tolist() == [1, 1]


def test_a_packet_of_which_the_log_has_no_transmission_was_never_sent() -> None:
    """It is delivered at a node that is named, and has no host."""
    log = changed()
    begun = log.transmissions["packet"].isin(log.initiations.loc[log.initiations["number"] == 0, "packet"]) & (log.transmissions["kind"] == "data")
    without = replace(log, transmissions=log.transmissions[~begun])
    assert without.initiations["kind"].eq("data").sum() == 1
    assert told(without, "hosts") == ([2, 1, 1], [2]) and told(without, 2) == ([2, 1, 2], [2, 2])


def test_a_delivery_of_a_packet_that_was_not_put_is_none() -> None:
    assert told(changed(number=[0, 7]), 2) == ([2, 2, 1], [2])


def test_what_nobody_put() -> None:
    log = results.log(FAILOVER.replace("put 0 3 0 aa\n", "").replace("put 20 3 0 bb\n", ""))
    assert told(log, "hosts") == told(log, 2) == ([0, 0, 0], [])
    seed = arrivals.of_seed(log.scenario, 1)
    assert seed.put.empty and seed.came.empty and seed.pairs(meant(log.scenario, "all")).empty


# Draws: by the lines of `outcome` and the script alone.


def test_what_came_of_a_stream() -> None:
    """Of the failover, whose packets are put at 0 s and at 80 s. A frame takes 4 s, a round starts 1 s after it, and a slot takes 33 ms."""
    network = results.log(FAILOVER).scenario
    outcome = numbers.outcome(network, 1)
    first, second = outcome.deliveries["slot"].tolist()
    run = arrivals.of_draw(network, outcome)
    ends = [9 * 4 + 1 + (first + 1) * 0.033, 31 * 4 + 1 + (second + 1) * 0.033]
    for receivers, of in (("hosts", [1]), (2, [0, 1]), ([1, 2], [0, 1]), (1, [])):
        came = run.by_stream(meant(network, receivers))[3, 0]
        assert came.put.tolist() == [0.0, 80.0] and came.of.tolist() == of and came.at.tolist() == [2] * len(of)
        assert came.seconds.tolist() == pytest.approx([ends[place] for place in of])
    at_one = arrivals.of_draw(network, numbers.outcome(network, 1, nodes=[1])).by_stream(meant(network, "all"))[3, 0]
    assert at_one.put.tolist() == [0.0, 80.0] and not len(at_one.of)


def test_what_a_host_sends_in_its_own_rounds_is_for_no_host() -> None:
    """All that it sent came at the other node, and the rest is waiting."""
    network = Scenario(24, 2, 2).node(1).node(2).host(0, 1).pair(1, 2).on().stream(1, 20, seconds=30).every(20, 1, start=31)
    run = arrivals.of_draw(network, numbers.outcome(network, 1))
    named, hosts = (run.by_stream(meant(network, receivers))[1, 0] for receivers in (2, "hosts"))
    assert named.put.tolist() == [31.0, 51.0, 71.0, 91.0, 111.0] and len(named.of)
    assert sorted([*named.put[named.of].tolist(), *hosts.put.tolist()]) == named.put.tolist() and not len(hosts.of)


def test_costs_alone_are_those_of_the_whole() -> None:
    network = results.log(FAILOVER).scenario
    whole, alone = numbers.outcome(network, 1).cost, numbers.cost(network, 1)
    for name in ("nodes", "transmit_seconds", "window_seconds", "scanned_frames"):
        assert getattr(whole, name).tolist() == getattr(alone, name).tolist()
    assert whole.nodes.tolist() == [1, 2, 3]


def restarted() -> Scenario:
    """A packet before there is power, one before there is a stream, two of the first boot, and one of the second."""
    made = Scenario(20, 2).node(1).node(2).host(0, 1).pair(1, 2).put(2, b"a", frame=0).on().put(2, b"b", frame=1).stream(2, 8, frame=2)
    made.put(2, b"c", frame=3).put(2, b"d", frame=4).off(2, frame=6).on(2, frame=8).stream(2, 8, frame=8)
    return made.put(2, b"e", frame=9)


def test_the_numbers_of_packets() -> None:
    told = puts.of_script(restarted())
    assert told.dropped == [puts.OFF, puts.NO_STREAM, "", "", ""] and told.columns["boot"].tolist() == [0, 1, 1, 1, 2]
    assert told.numbers().tolist() == [-1, -1, 0, 1, 0]
    puts.drop_by_full_queues(told, [(0, 2, 0), (1, 2, 0), (3, 2, 0)])
    assert told.dropped[2] == puts.FULL_QUEUE and told.numbers().tolist() == [-1, -1, -1, 0, 0]


def test_a_queue_that_is_emptied_takes_16_in_the_same_frame() -> None:
    made = Scenario(20, 2).node(1).node(2).host(0, 1).pair(1, 2).on().stream(2, 8, frame=2)
    for count in (3, 17):
        for _ in range(count):
            made.put(2, b"a", frame=5)
        made.leave(2, frame=5).stream(2, 8, frame=5)
    told = puts.of_script(made)
    puts.drop_by_full_queues(told, [(5, 2, 0)])
    assert told.numbers().tolist() == [*range(19), -1]


def test_when_packets_were_put() -> None:
    """What was given in seconds, or the start of the frame where it was given as a frame, or where its time is in another one by now."""
    made = Scenario(60, 2, 2).node(1).node(2).host(0, 1).pair(1, 2).on().put(2, b"a", seconds=133.3).put(2, b"b", frame=28)
    told = puts.of_script(made)
    assert told.columns["frame"].tolist() == [27, 28] and told.put_seconds(made).tolist() == [133.3, 140.0]
    made.profile = 1
    assert told.put_seconds(made).tolist() == [108.0, 112.0]
    assert moments.frames_from(np.array([0.0, 4.0, 4.1, 0.3 * 420]), 4).tolist() == [0, 1, 2, 32]


def test_packets_that_keep_a_stream_alive_do_not_count() -> None:
    made = restarted().put(2, b"", frame=10).put(2, b"", stream=1, frame=10)
    assert puts.of_script(made).counted(made).tolist() == [True] * 7
    made.keep_alive.add((2, 0))
    assert puts.of_script(made).counted(made).tolist() == [True] * 5 + [False, True]


def test_who_hosts_a_rank() -> None:
    made = Scenario(20, 2).node(7).node(9).host(0, 7).host(2, 9)
    assert hosts_of(made, np.array([0, 1, 2, 3, -1])).tolist() == [7, NO_HOST, 9, NO_HOST, NO_HOST]
    assert hosts_of(Scenario(20, 2), np.array([0, -1])).tolist() == [NO_HOST, NO_HOST]


# Networks whose hosts fail.


def lines_of(network: Scenario, seed: int) -> tuple[dict[tuple[int, ...], tuple[int, int]], list[str]]:
    """By node and packet the frame and the rank of each `deliver` line, and the lines of `fates`."""
    text = network.network_text(warn=False)
    came = {}
    for line in program.execute(["outcome", str(seed)], text).decode().splitlines():
        word, *fields = line.split()
        if word == "deliver":
            frame, rank, _, node, *packet = map(int, fields[:8])
            came[(node, *packet)] = frame, rank
    return came, program.execute(["fates", str(seed)], text).decode().splitlines()


def by_lines(
    network: Scenario, lines: tuple[dict[tuple[int, ...], tuple[int, int]], list[str]], whom: Mapping[tuple[int, int], object]
) -> tuple[Counter, Counter]:
    """How many packets each stream has for each node, `NO_HOST` among these, and how many of them it delivered after how many frames: from the
    lines of `outcome` and `fates` and the script alone."""
    came, fates = lines
    put, delivered = Counter(), Counter()
    rows = (line for line in sorted(network.script, key=lambda line: line.frame) if isinstance(line, Put))
    for row, line in zip(rows, fates, strict=True):
        words, key = line.split(), (row.node, row.stream)
        if key in network.keep_alive and not row.payload:
            continue
        sent = words[6:7] == ["sent"]
        at = (int(words[7]), int(words[8])) if sent else None
        if whom[key] == "hosts":
            nodes = {network.hosts[at[1]]} if sent else {NO_HOST}
        else:
            nodes = set(whom[key])
        for node in nodes - {row.node}:
            put[(*key, node)] += 1
            found = came.get((node, row.node, int(words[4]), row.stream, int(words[5]))) if sent else None
            if found is not None and (whom[key] != "hosts" or found == at):
                delivered[(*key, node, found[0] - row.frame)] += 1
    return put, delivered


def at_nodes(delivered: Counter) -> Counter:
    """The deliveries of each stream at each node, whenever they came."""
    found = Counter()
    for (*key, _), count in delivered.items():
        found[tuple(key)] += count
    return found


def of_sums(sums: arrivals.Sums) -> tuple[Counter, Counter]:
    """The same two counts by sums over one seed."""
    nodes = [*sums.nodes, NO_HOST]
    put = {(*stream, node): int(sums.put[0, group, at]) for group, stream in enumerate(sums.streams) for at, node in enumerate(nodes)}
    delivered = Counter()
    for row in sums.table.itertuples():
        delivered[(*sums.streams[row.group], nodes[row.at], row.frames)] += row.count
    return +Counter(put), delivered


@pytest.mark.parametrize("number", range(14))
def test_every_view_is_that_of_the_lines(number: int) -> None:
    network = failing(number)
    runs = results.log(losses.draw(network, number), warn=False), outcome(network, number, warn=False)
    seed, lines = arrivals.of_seed(network, number), lines_of(network, number)
    counted = None if network.keep_alive else counts.of(network, number, 1)
    for receivers in ("hosts", None, [1, 3], {2: "hosts", (3, 0): [1, 2, 4], "others": 1}):
        whom = meant(network, receivers)
        put, delivered = by_lines(network, lines, whom.by_stream)
        assert delivered
        for run in runs:
            table = planning.delivery_ratio(run, "pair", receivers=receivers).set_index(["source", "stream", "node"])
            assert +Counter(table["put"].to_dict()) == Counter({key: count for key, count in put.items() if key[-1] != NO_HOST})
            assert +Counter(table["delivered"].to_dict()) == at_nodes(delivered)
            late = planning.latencies(run, receivers=receivers)
            assert Counter(late[["source", "stream", "node"]].itertuples(index=False, name=None)) == at_nodes(delivered)
        assert of_sums(arrivals.Sums.of_runs([seed], whom)) == (put, delivered)
        if counted is not None:
            assert of_sums(arrivals.Sums.of_counts(counted, whom)) == (put, delivered)


def test_pairs_and_deliveries_are_of_each_other() -> None:
    network = failing(1)
    run, whom = arrivals.of_report(outcome(network, 1, warn=False)), meant(network, "hosts")
    pairs, came = run.pairs(whom), run.meant(whom)
    there = pairs[pairs["delivery"] >= 0]
    assert sorted(there["delivery"]) == list(range(len(came)))
    pd.testing.assert_frame_equal(
        came[["place", "node"]].reset_index(drop=True), there.sort_values("delivery")[["place", "node"]].reset_index(drop=True)
    )
