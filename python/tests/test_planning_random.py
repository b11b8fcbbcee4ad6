"""Planning answers on networks drawn at random, held against what the program says by itself."""

from __future__ import annotations

import random
import re
from functools import cache

import numpy as np
import pytest
from conftest import EXAMPLES

from foldcairn import planning
from foldcairn.answers import puts, radio
from foldcairn.model.scenario import Scenario
from foldcairn.runs import results

# By how much the radio's time in a window may differ from what is planned for it, in ticks, in profile 1 and 2.
NEAR = {1: 44_960, 2: 58_300}


def drawn(seed: int) -> Scenario:
    """A network with restarts, streams that are left, losses and many puts, each with a payload of its own."""
    chance = random.Random(seed)
    profile = chance.choice([1, 2])
    made = Scenario(90, chance.randint(1, 3), profile, chance.randint(0, 4) if profile == 2 else 0)
    nodes = range(1, chance.randint(4, 8))
    for node in nodes:
        made.node(node, chance.randint(0, 256_000), chance.choice([-20, 20, chance.randint(-20, 20)]))
    made.host(0, 1).host(1, 2)
    for one in nodes:
        for other in nodes:
            if one < other and chance.random() < 0.8:
                made.pair(one, other)
    made.on()
    count = 0
    for frame in range(made.frames):
        for node in nodes:
            if chance.random() < 0.05 or frame == 0:
                made.stream(node, chance.randint(1, 20), stream=chance.randint(0, 3), frame=frame)
            for _ in range(chance.choice([0, 0, 1, 1, 25 if chance.random() < 0.1 else 2])):
                made.put(node, count.to_bytes(3, "big"), stream=chance.randint(0, 1), frame=frame)
                count += 1
                if chance.random() < 0.01:
                    made.leave(node, stream=chance.randint(0, 1), frame=frame)
                    made.stream(node, chance.randint(1, 20), stream=chance.randint(0, 1), frame=frame)
            if chance.random() < 0.01:
                made.off(node, frame=frame)
                made.on(node, frame=min(made.frames - 1, frame + chance.randint(0, 9)))
                made.stream(node, 4, frame=made.script[-1].frame)
    links = sorted(made.links)
    for lost in {(chance.randrange(90), chance.randrange(9), chance.randrange(4), chance.choice(links)) for _ in range(400)}:
        made.lose(*lost[:3], *lost[3])
    return made


@cache
def log_of_drawn(seed: int) -> results.Log:
    """The log of such a network, with what has been worked out of it: once for all tests."""
    return results.log(drawn(seed).text(warn=False))


@pytest.fixture(scope="module", params=range(2))
def log(request: pytest.FixtureRequest) -> results.Log:
    return log_of_drawn(request.param)


def test_packets_that_were_sent_are_those_that_were_put(log: results.Log) -> None:
    table = planning.packets(log)
    data = log.initiations[log.initiations["kind"] == "data"]
    assert len(data) > 50
    payloads = dict(zip(table[results.PACKET].itertuples(index=False, name=None), table["payload"]))
    for packet in data["decoded"]:
        assert payloads[packet.node, packet.boot, packet.stream, packet.number] == packet.payload.hex()
    for one in log.deliveries.itertuples():
        assert payloads[one.source, one.boot, one.stream, one.number] == one.payload
    assert table["sent_seconds"].notna().sum() == len(data)
    assert table["fate"].astype(str).str.startswith("dropped").sum() == len(log.drops)
    assert (table.loc[table["fate"] == "queued"].groupby(["source", "stream"]).size() <= puts.QUEUE_LENGTH).all()
    assert table["deliveries"].sum() == len(log.deliveries)
    assert planning.fates(log, "all")["puts"].tolist() == [len(table)]


def windows(log: results.Log) -> None:
    """The windows of each node and frame are those of a round in their order, and as long as is planned for them."""
    table = radio.tunings(log)
    letters = dict(zip(radio.PURPOSES, "ODDCLS"))
    frame_ticks = log.scenario.frame_seconds * 64_000_000
    table["frame"] = table["start_ticks"] // frame_ticks
    inside = table[table["purpose"] != "searching"]
    for (_, node), purposes in inside.groupby(["frame", "node"])["purpose"]:
        assert re.fullmatch("O?D*C{0,4}L?", "".join(letters[purpose] for purpose in purposes)), (node, purposes)
    spent = (inside["end_ticks"] - inside["start_ticks"]).groupby(inside["node"]).sum()
    planned = log.energy.set_index("node")["window_ticks"]
    count = inside.groupby("node").size()
    for node in log.scenario.nodes:
        assert abs(spent.get(node, 0) - planned[node]) <= NEAR[log.scenario.profile] * count.get(node, 0)


def test_windows_are_those_of_rounds(log: results.Log) -> None:
    windows(log)
    on = planning.radio_time(log)["on"]
    assert np.allclose(on, log.energy.set_index("node")["on_seconds"])
    transmitted = planning.duty_cycle(log).set_index("node")["transmit_seconds"]
    assert np.allclose(transmitted, log.energy.set_index("node")["transmit_seconds"])


def test_every_table_comes_of_every_network(log: results.Log) -> None:
    for table in planning.tables(log).values():
        for name in table.columns[table.columns.str.contains("ratio|success|duty")]:
            values = table[name].dropna()
            assert ((values >= 0) & (values <= 1)).all(), name
    streams = planning.streams(log)
    assert not (streams["accepted_seconds"] < streams["requested_seconds"]).any()
    # A later boot may own a slot that its earlier boot was granted.
    once = streams[streams["boot"] == 1]
    assert not (once["first_slot_seconds"] < once["accepted_seconds"]).any()
    assert planning.contention(log)["acknowledgements"].sum() == planning.rounds(log)["acknowledgements"].sum()
    assert planning.joins(log)["waited_seconds"].dropna().gt(0).all()


def test_the_longest_run_with_the_worst_clocks() -> None:
    """After four and a half hours two clocks are ten slots apart, and the frame alarm of one is a third of a second late."""
    text = (EXAMPLES / "energy-of-a-night.scenario").read_text().replace("node 1 0", "node 1 256000")
    log = results.log(text + "rate 1 0 20\nrate 2 0 -20\nstream 4080 2 0 4\nput 4080 2 0 aa\n")
    windows(log)
    assert planning.packets(log)["fate"].tolist() == ["delivered"]
    # Slot 1 of frame 4085 by plan, but the host's clock is fast by 20 ppm of 16,341 s and 4 ms: it comes 331 ms sooner.
    packet = planning.packets(log).iloc[0]
    assert log.deliveries["planned_seconds"].tolist() == pytest.approx([4085 * 4 + 1.033])
    assert packet["first_seconds"] == packet["sent_seconds"] + 17 * 2_048 / 64_000_000
    assert packet["sent_seconds"] == pytest.approx(4085 * 4 + 1.034 - 0.331, abs=0.001)
