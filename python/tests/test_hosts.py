"""Packets that are meant for whichever host serves: one rule with a log, without one and over many seeds, held against the raw lines of the
programs on networks whose hosts fail."""

from __future__ import annotations

import random
from collections import Counter
from functools import cache

import pytest
from conftest import REPOSITORY

from foldcairn import outcome, planning
from foldcairn.many import capacity, counts, importance, seeds
from foldcairn.model.scenario import Put, Scenario
from foldcairn.pages import report
from foldcairn.runs import columns, kept, losses, program, results

WORKED = REPOSITORY / "tests" / "worked" / "three-in-a-line.network"


def failing(number: int) -> Scenario:
    """A small network with ratios and two to four hosts, of which some fail and come back; each node has packets, also the hosts, and in
    each third network packets keep a stream alive."""
    chance = random.Random(number)
    nodes = list(range(1, chance.randint(4, 6) + 1))
    made = Scenario(chance.randint(60, 90), chance.randint(1, 3))
    for node in nodes:
        made.node(node, chance.randint(0, 256_000), chance.randint(-20, 20))
    for rank, node in enumerate(chance.sample(nodes, chance.randint(2, 4))):
        made.host(rank, node)
    for node in nodes[1:]:
        for near in {node - 1, chance.randint(1, node - 1)}:
            made.link(node, near, round(chance.uniform(0.4, 1), 2)).link(near, node, round(chance.uniform(0.4, 1), 2))
    made.on()
    for node in nodes:
        alive = number % 3 == 0 and node == nodes[-1]
        made.stream(node, chance.randint(4, 12), frame=chance.randint(0, 5), keep_alive=chance.randint(8, 30) if alive else None)
        for frame in range(chance.randint(0, 6), made.frames, chance.randint(2, 6)):
            made.put(node, b"\xaa", frame=frame)
    # Of three hosts or four the first two fail in half of the networks, so that the third serves.
    failing = [made.hosts[rank] for rank in range(2 if number % 2 and len(made.hosts) > 2 else 1)]
    made.off(*failing, frame=chance.randint(15, 30))
    if chance.random() < 0.5:
        made.on(made.hosts[0], frame=made.frames - 20).stream(made.hosts[0], 4, frame=made.frames - 20)
    return made


def by_lines(network: Scenario, seed: int) -> dict[str, Counter]:
    """What was put and what was delivered, by stream and by node, and how many packets met each case, from the lines of `outcome` and
    `fates` alone."""
    text = network.network_text(warn=False)
    delivered = set()
    for line in program.execute(["outcome", str(seed)], text).decode().splitlines():
        word, *fields = line.split()
        if word == "deliver":
            frame, rank, _, node, source, boot, stream, number = map(int, fields[:8])
            delivered.add((frame, rank, node, source, boot, stream, number))
    found: dict[str, Counter] = {name: Counter() for name in ("put", "delivered", "put at", "delivered at", "cases")}
    puts = (line for line in sorted(network.script, key=lambda line: line.frame) if isinstance(line, Put))
    for put, line in zip(puts, program.execute(["fates", str(seed)], text).decode().splitlines(), strict=True):
        words = line.split()
        key = put.node, put.stream
        assert [int(word) for word in words[1:4]] == [put.frame, *key]
        if key in network.keep_alive and not put.payload:
            continue
        if words[6:7] != ["sent"]:
            found["put"][key] += 1
            found["cases"]["never sent"] += 1
            continue
        boot, number, frame, rank, told = int(words[4]), int(words[5]), int(words[7]), int(words[8]), int(words[11])
        host = network.hosts[rank]
        came = (frame, rank, host, put.node, boot, put.stream, number) in delivered
        assert told == came
        if host == put.node:
            found["cases"]["of the host itself"] += 1
            continue
        found["cases"][f"rank {rank}, {'delivered' if came else 'lost'}"] += 1
        found["put"][key] += 1
        found["put at"][host] += 1
        found["delivered"][key] += came
        found["delivered at"][host] += came
    return found


@cache
def known(number: int) -> dict[str, Counter]:
    """What the lines say of a network, which is the seed too."""
    return by_lines(failing(number), number)


@cache
def cases() -> Counter:
    """How many packets of all networks met each case."""
    return sum((known(number)["cases"] for number in range(40)), Counter())


def test_the_networks_meet_each_case() -> None:
    assert min(cases()[name] for name in ("never sent", "of the host itself", "rank 0, lost", "rank 1, delivered", "rank 1, lost")) >= 20
    assert cases()["rank 2, delivered"] >= 20


@pytest.mark.parametrize("number", range(40))
def test_one_rule_with_a_log_without_one_and_over_many_seeds(number: int) -> None:
    network, wanted = failing(number), known(number)
    log = results.log(losses.draw(network, number), warn=False)
    without = outcome(network, number, warn=False)
    sampled = planning.sample(network, [number], receivers="hosts", progress=False)._tallies
    for by, put, came, keys in (("stream", "put", "delivered", ["source", "stream"]), ("node", "put at", "delivered at", ["node"])):
        for told in (log, without):
            table = planning.delivery_ratio(told, by, receivers="hosts").set_index(keys)
            assert {key: count for key, count in table["put"].items() if count} == wanted[put]
            assert {key: count for key, count in table["delivered"].items() if count} == +wanted[came]
        rows = list(sampled.rows[by].itertuples(index=False, name=None))
        for name, counted in (("put", wanted[put]), ("delivered", wanted[came])):
            assert {row if by == "stream" else row[0]: count for row, count in zip(rows, sampled.groups[by][name][0]) if count} == +counted
    whole = [sum(wanted["put"].values()), sum(wanted["delivered"].values())]
    for told in (log, without):
        assert planning.delivery_ratio(told, "all", receivers="hosts")[["put", "delivered"]].values.tolist() == [whole]
        assert len(planning.latencies(told, receivers="hosts")) == whole[1]
    assert [sampled.groups["all"][name][0, 0] for name in ("put", "delivered")] == whole


def test_importance_and_capacity_count_the_same() -> None:
    for number in (1, 3):
        network, wanted = failing(number), known(number)
        ratio = sum(wanted["delivered"].values()) / sum(wanted["put"].values())
        link = sorted(network.links)[0]
        assert importance.importance(network, candidates=[link], seeds=[number], receivers="hosts", progress=False)["ratio"][0] == pytest.approx(ratio)
        table = capacity._counts("hosts", 0.0, outcome(network, number, warn=False))
        assert table["put"].sum() == sum(wanted["put"].values()) and table["delivered"].sum() == sum(wanted["delivered"].values())


def test_a_cut_node_is_no_receiver_and_a_packet_that_is_never_sent_still_counts() -> None:
    """Two hosts; of the two packets one is sent in a round of node 1, and one is put after the last round."""
    made = Scenario(12).node(1).node(2).node(3).host(0, 1).host(1, 2).pair(1, 2).pair(1, 3, 0.999_999).pair(2, 3).on()
    made.stream(3, 4).put(3, b"a").put(3, b"b", frame=11)
    table = importance.importance(made, "nodes", candidates=[1, 3], seeds=[1], receivers="hosts", progress=False).set_index("node")
    # Without node 1 as a receiver the second packet is left; without its source none is.
    assert table.loc[1, "ratio"] == 0 and table["ratio"].isna().tolist() == [index == 3 for index in table.index]


def test_plans_are_compared_alike_with_logs_and_by_samples() -> None:
    """Node 2 has a packet every 8 s; node 1 fails after 30 frames. Of 17 packets that are sent in its rounds two are sent while it is off, and
    node 2 hosts itself then."""
    made = Scenario(100, 2).node(1).node(2).host(0, 1).host(1, 2).pair(1, 2, 0.99).on().off(1, frame=30).stream(2, 4).every(8, 2)
    for by in ("log", "sample"):
        table = report.compare({"A": made, "B": made.copy()}, seeds=[1, 2], receivers="hosts", by=by, progress=False).table
        assert table["A"][0] == table["B"][0] == pytest.approx(100 * 15 / 17)


# Older programs, and results that were kept of them.


def test_lines_of_an_older_program_are_not_misread(fake) -> None:
    network = Scenario.read(WORKED)
    with pytest.raises(columns.UnknownLine, match="unknown line 'put 0 3 0 1 0 sent 9 1 2'"):
        results.fate_rows(b"put 0 3 0 1 0 sent 9 1 2\n")
    output = program.execute(["sample", "8", "1"], WORKED)
    assert counts.read(output, network, [8]).hosted.values.tolist() == [[8, 3, 0, 1, 3]]
    older = b"".join(line for line in output.splitlines(keepends=True) if not line.startswith(b"host"))
    with pytest.raises(program.CutOutput, match="or that of an older program: `hosted` lines are missing"):
        counts.read(older, network, [8])


def test_results_of_an_older_form_are_made_again(monkeypatch) -> None:
    asked = seeds.Question(Scenario.read(WORKED), lambda network, listed: [], "a test")
    key = asked.key()
    monkeypatch.setattr(kept, "FORM", kept.FORM - 1)
    assert asked.key() != key
    with pytest.raises(ValueError, match=r"`count`|count"):
        counts.of(Scenario.read(WORKED), 9_999_999_999_999, 2)
