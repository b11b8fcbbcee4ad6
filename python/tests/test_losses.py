"""Drawn losses: the coins are those of the written hash, and what is written makes the same run as all losses do."""

from __future__ import annotations

import io
import os
import random
from collections import Counter
from functools import cache

import networkx
import numpy
import pandas
import pytest
from hypothesis import given
from hypothesis import strategies as st

from conftest import EXAMPLES
from fixed_point import every_loss, fixed_point
from foldcairn.common.arguments import ArgumentError
from foldcairn.model.scenario import Loss, On, Scenario, ScenarioError, grid, line
from foldcairn.runs import losses, program
from scenarios import planned_grid

# The first outputs of SplitMix64 from the state 1234567, as its reference implementation has them.
SPLITMIX64 = [6457827717110365317, 3203168211198807973, 9817491932198370423, 4593380528125082431, 16408922859458223821]
GOLDEN = 0x9E3779B97F4A7C15


def test_the_generator():
    states = numpy.array([(1234567 + number * GOLDEN) % 2**64 for number in range(5)], numpy.uint64)
    assert losses.splitmix64(states).tolist() == SPLITMIX64


def splitmix64(state: int) -> int:
    state = (state + GOLDEN) % 2**64
    state = (state ^ (state >> 30)) * 0xBF58476D1CE4E5B9 % 2**64
    state = (state ^ (state >> 27)) * 0x94D049BB133111EB % 2**64
    return state ^ (state >> 31)


@given(
    st.integers(-(2**63), 2**64 - 1), st.integers(0, 4095), st.integers(0, 45), st.integers(0, 11), st.integers(1, 200), st.integers(1, 200)
)
def test_a_coin_is_as_it_is_written(seed, frame, slot, step, sender, receiver):
    key = (((frame * 64 + slot) * 16 + step) * 256 + sender) * 256 + receiver
    packed = losses.pack(*(numpy.array([value]) for value in (frame, slot, step, sender, receiver)))
    assert packed.tolist() == [key]
    assert [column.tolist() for column in losses.unpack(packed)] == [[frame], [slot], [step], [sender], [receiver]]
    expected = (splitmix64((splitmix64(seed % 2**64) + key * GOLDEN) % 2**64) >> 11) / 2**53
    assert losses.coin(seed, packed).tolist() == [expected]


def test_coins_are_fair():
    """The share of coins below a ratio is that ratio, for links, steps and seeds alike: within four standard deviations."""
    keys = losses.pack(*numpy.indices((20, 10, 4, 8, 8)).reshape(5, -1))
    for seed in range(5):
        coins = losses.coin(seed, keys)
        for ratio in (0.05, 0.5, 0.9):
            deviation = (ratio * (1 - ratio) / len(keys)) ** 0.5
            assert abs((coins < ratio).mean() - ratio) < 4 * deviation
    other = losses.coin(6, keys)
    assert abs(numpy.corrcoef(coins, other)[0, 1]) < 4 / len(keys) ** 0.5
    assert abs(numpy.corrcoef(coins[1:], coins[:-1])[0, 1]) < 4 / len(keys) ** 0.5


SLOTS = 14


def by_fixed_point(scenario: Scenario, seed: int) -> Scenario:
    """The scenario with its losses by `fixed_point`."""
    drawn = scenario.copy()
    drawn.losses += fixed_point(scenario, seed)
    return drawn


# By the planner's program, and by logs until nothing changes. What the bus does not go by, as a packet
# that a node hears while it scans, the first leaves as it comes; with the second each node hears the same.
ways = pytest.mark.parametrize("way", [losses.draw, by_fixed_point])


def networks(seed: int) -> Scenario:
    """A random small network: every kind of line, links of all ratios, some runs with a failover.

    Streams have at most two slots a round each, so rounds have at most SLOTS slots, and all losses fit a text.
    """
    chance = random.Random(seed)
    profile = chance.choice([1, 2])
    contend = chance.randint(0, 4) if profile == 2 else 0
    ids = chance.sample(range(1, 60), chance.randint(2, 4))
    frames = {2: 56, 3: 34, 4: 17}[len(ids)]
    made = Scenario(frames, chance.randint(1, 3), profile, contend)
    for node in ids:
        made.node(node, chance.randint(0, 256_000), chance.randint(-20, 20))
    made.host(0, ids[0])
    if chance.random() < 0.7:
        made.host(1, ids[1])
    ends = [(sender, receiver) for sender in ids for receiver in ids if sender != receiver and chance.random() < 0.9]
    for sender, receiver in ends:
        made.link(sender, receiver, chance.choice([1, 0.95, 0.9, 0.8, 0.7, 0.5, 0]))
    made.on()
    for node in ids:
        start = chance.randint(0, 5)
        made.stream(node, chance.randint(16, 30), frame=start)
        for _ in range(chance.randint(0, 12)):
            made.put(node, bytes([chance.randrange(256)]), frame=chance.randint(start, frames - 1))
    if chance.random() < 0.5:
        made.off(ids[0], frame=frames // 4)
        if chance.random() < 0.5:
            made.on(ids[0], frame=frames // 4 + chance.randint(0, 4))
    # Rounds are in frames 5, 9, 13, and so on, where nothing is lost.
    places = {(5 + 4 * chance.randrange((frames - 2) // 4), chance.randrange(8), chance.randrange(4)) for _ in range(8)}
    for place in sorted(places) if ends else ():
        made.lose(*place, *chance.choice(ends))
        made.capture(*place, *chance.choice(ends)[::-1])
    for place in sorted(places)[::3]:
        made.cut(*place, chance.choice(ids))
    return made


def receptions(scenario: Scenario) -> set[tuple]:
    """Who receives which packet, in which frame: with counters, so also in which step."""
    ticks = 64_000_000 * scenario.frame_seconds
    rows = (row.split() for row in program.execute(["log"], scenario.text(warn=False)).splitlines())
    return {(int(row[4]) // ticks, row[1], row[2], row[6]) for row in rows if row[0] == b"heard"}


def bus(scenario: Scenario) -> bytes:
    """The report of `bus`: the deliveries, the drops, and what radios are charged."""
    return program.execute(["bus"], scenario.text(warn=False))


@cache
def with_all_losses(seed: int) -> tuple[set[Loss], set[tuple], bytes]:
    """Of a random network all losses that its coins have, and who receives what and what the bus reports with them: once for both ways."""
    scenario = networks(seed)
    known = set(scenario.losses)
    everything = scenario.copy()
    everything.losses += [loss for loss in every_loss(scenario, seed, slots=SLOTS) if loss not in known]
    return set(everything.losses), receptions(everything), bus(everything)


@ways
@pytest.mark.parametrize("seed", range(24))
def test_drawn_losses_make_the_run_of_all_losses(seed, way):
    scenario = networks(seed)
    everything, received, reported = with_all_losses(seed)
    drawn = way(scenario, seed)
    assert set(scenario.losses) <= set(drawn.losses) <= everything and len(set(drawn.losses)) == len(drawn.losses)
    assert way is losses.draw or receptions(drawn) == received
    assert all(int(packet[2:4], 16) < SLOTS for *_, packet in received)
    assert bus(drawn) == reported
    assert way(drawn, seed).losses == drawn.losses
    assert scenario.losses == networks(seed).losses


@ways
@pytest.mark.parametrize("seed", range(24, 36))
def test_each_drawn_loss_is_needed(seed, way):
    """Without any one of them somebody else receives; but for captures, where all are kept."""
    scenario = networks(seed)
    scenario.captures.clear()
    drawn = way(scenario, seed)
    received = receptions(drawn)
    for number in range(len(scenario.losses), len(drawn.losses)):
        fewer = drawn.copy()
        del fewer.losses[number]
        assert receptions(fewer) != received


@ways
def test_drawn_losses_make_the_run_of_all_losses_in_a_grid_of_25(way):
    """Rounds are in frames 5 and 9, so the losses of these two are all that can matter; those of more don't fit a text."""
    scenario = Scenario.from_graph(grid(5, 5, diagonals=True), 10, hosts=[3], profile=2, contend=4)
    chance = random.Random(1)
    for link in sorted(scenario.links):
        scenario.link(*link, prr=chance.uniform(0.7, 1))
    for node in (1, 8, 15, 22, 25):
        scenario.stream(node, 12).put(node, bytes([node])).put(node, bytes([node, 2]))
    everything = scenario.copy()
    everything.losses = [loss for loss in every_loss(scenario, 4, slots=SLOTS) if loss.frame in (5, 9)]
    drawn = way(scenario, 4)
    received = receptions(everything)
    assert {frame for frame, *_ in received} == {5, 9}
    assert all(int(packet[2:4], 16) < SLOTS for *_, packet in received)
    assert way is losses.draw or receptions(drawn) == received
    assert 0 < len(drawn.losses) < len(everything.losses) / 50
    assert program.execute(["bus"], drawn.text(warn=False)) == program.execute(["bus"], everything.text(warn=False))


def test_the_losses_of_half_an_hour_are_drawn_in_30_seconds():
    begun = os.times()
    drawn = losses.draw(planned_grid(), 7)
    spent = sum(now - then for now, then in zip(os.times()[:4], begun[:4]))
    assert spent < 30
    assert 1_000 < len(drawn.losses) < 10_000
    report = program.execute(["run"], drawn.text(warn=False))
    # 1,497 packets at 24 receivers each are 35,928 deliveries at most.
    assert 20_000 < report.count(b"deliver ") < 35_928


@cache
def captured(seed: int, of_host: float) -> tuple[Scenario, set[Loss], set[tuple], bytes]:
    """Three nodes ask at once and the host captures one of them, whose request may be lost; a node is cut off twice in a frame. With
    all losses that the coins have, and who receives what and what the bus reports with them."""
    scenario = Scenario.from_graph(networkx.complete_graph([1, 2, 3, 4]), 14, hosts=[1])
    for node in (2, 3, 4):
        scenario.stream(node, 8).put(node, bytes([node]))
    scenario.capture(5, 1, 0, 1, 2).cut(9, 3, 0, 3).cut(9, 1, 0, 3)
    for link in sorted(scenario.links):
        scenario.link(*link, prr=of_host if link[0] == 1 else 0.5)
    everything = scenario.copy()
    everything.losses = every_loss(scenario, seed, slots=SLOTS)
    return scenario, set(everything.losses), receptions(everything), bus(everything)


@ways
@pytest.mark.parametrize("of_host", [0.5, 0.9])
@pytest.mark.parametrize("seed", range(3))
def test_losses_at_captures_and_cuts(seed, of_host, way):
    scenario, everything, received, reported = captured(seed, of_host)
    drawn = way(scenario, seed)
    assert set(drawn.losses) <= everything
    assert way is losses.draw or receptions(drawn) == received
    assert bus(drawn) == reported


@pytest.mark.parametrize("seed", range(24, 36))
def test_both_ways_of_drawing_deliver_the_same(seed):
    """Each may write losses that the other leaves out, as where all packets of a collision are lost; both write losses of the coins
    alone. The networks of the seeds before are those of `test_drawn_losses_make_the_run_of_all_losses`, which says it of each way."""
    scenario = networks(seed)
    drawn, other = losses.draw(scenario, seed), by_fixed_point(scenario, seed)
    everything = {*scenario.losses, *every_loss(scenario, seed, slots=SLOTS)}
    for made in (drawn, other):
        assert set(scenario.losses) <= set(made.losses) <= everything and len(set(made.losses)) == len(made.losses)
    assert bus(drawn) == bus(other)


def test_a_planner_that_draws(fake, monkeypatch):
    """Its text is taken for what it is, and what it rejects is told; of a program that has no such command it is said which one has."""
    scenario = Scenario.from_graph(line(3), 30, hosts=[1]).stream(3, 8).every(10, 3).lose(5, 0, 0, 1, 2).link(2, 3, 0.5)
    draws = fake('cat > /dev/null; echo "lose 5 0 0 1 2"; echo "lose 9 1 2 3 2"; echo "lose 9 1 0 2 3"')
    monkeypatch.setenv("FOLDCAIRN_PLAN", str(draws))
    drawn = losses.draw(scenario, 3)
    assert drawn.losses == [Loss(5, 0, 0, 1, 2), Loss(9, 1, 0, 2, 3), Loss(9, 1, 2, 3, 2)] and drawn.seed == 3
    for kind in ("TooMany", "TooBig"):
        fake(f'cat > /dev/null; echo "fault line 40: {kind}"; exit 1')
        with pytest.raises(program.Refused, match=kind):
            losses.draw(scenario, 3)
    with pytest.raises(program.NotFound, match="has no command `draw`.*: set the environment variable FOLDCAIRN_PLAN to the path of the program"):
        losses.draw(scenario, 3, program=program.find())
    for seed in (-3, 10_000_000_000_000):
        with pytest.raises(ArgumentError, match="`seed` is .*, and has to be a whole number from 0 to 9,999,999,999,999"):
            losses.draw(scenario, seed)


def test_losses_are_of_links_with_ratios_only():
    scenario = Scenario.from_graph(line(3), 30, hosts=[1]).stream(3, 8).every(10, 3)
    assert losses.draw(scenario, 1).losses == []
    assert every_loss(scenario, 1) == []
    scenario.link(2, 3, prr=0.0)
    drawn = losses.draw(scenario, 1)
    assert {(loss.sender, loss.receiver) for loss in drawn.losses} == {(2, 3)}
    assert drawn.prr == {(2, 3): 0.0}
    # Node 3 receives nothing at all: the run is that without the link.
    without = Scenario.from_graph(line(3), 30, hosts=[1]).stream(3, 8).every(10, 3)
    without.links.remove((2, 3))
    assert receptions(drawn) == receptions(without)


def test_a_link_taken_out_changes_no_coin_of_the_others():
    scenario = Scenario.from_graph(grid(2, 3), 30, hosts=[1]).stream(6, 8).every(10, 6)
    for link in sorted(scenario.links):
        scenario.link(*link, prr=0.7)
    everything = every_loss(scenario, 3, slots=6)
    fewer = every_loss(scenario.copy().unlink(1, 2), 3, slots=6)
    assert fewer == [loss for loss in everything if {loss.sender, loss.receiver} != {1, 2}]
    assert losses.draw(scenario, 3).losses != losses.draw(scenario, 4).losses
    counts = Counter((loss.sender, loss.receiver) for loss in everything)
    for link in scenario.links:
        assert 0.2 < counts[link] / (30 * 6 * 12) < 0.4


def test_more_losses_than_lines():
    scenario = Scenario.from_graph(grid(2, 3), 60, hosts=[1]).stream(6, 8).every(10, 6)
    for link in sorted(scenario.links):
        scenario.link(*link, prr=0.5)
    whole = losses.draw(scenario, 1)
    # 19,900 `on` lines that do nothing leave 100 lines, less those of the script.
    scenario.script += [On(59, 1)] * 19_900
    free = 20_000 - len(scenario.script)
    assert len(whole.losses) > free
    with pytest.raises(losses.TooManyLosses) as raised:
        losses.draw(scenario, 1)
    assert raised.value.fitting == free
    assert raised.value.frame == sorted(whole.losses)[free].frame
    assert f"used up in frame {raised.value.frame}" in str(raised.value)
    scenario.script += [On(59, 1)] * 100
    with pytest.raises((losses.TooManyLosses, program.Refused)):
        losses.draw(scenario, 1)


# The network and the two tables of docs/FROM-A-TESTBED.md, with the lines that its commands make of them.
NETWORK = (
    "sends 2\nnode 1 0\nnode 2 0\nhost 0 1\npair 1 2\nframes 14\non 0 1\non 0 2\nstream 0 2 0 4\nput 0 2 0 aa\nput 10 2 0 bb\n"
)  # fmt: skip
LOST = "seconds,slot,counter,from,to\n37.0,0,0,1,2\n37.2,6,0,1,2\n37.2,6,0,1,2\n"
MISSED = "seconds,slot,node\n37,1,1\n"


def test_recorded_losses_of_packets():
    made = losses.read_table(Scenario.read(NETWORK), io.StringIO(LOST))
    assert made.losses == [Loss(9, 0, 0, 1, 2), Loss(9, 6, 0, 1, 2)]
    answer = program.execute(["run"], made.text()).decode().splitlines()
    assert answer[:2] == ["deliver 9 0 1 1 2 1 0 0 aa", "deliver 13 0 1 1 2 1 0 1 bb"]


def test_recorded_losses_of_a_node():
    made = losses.read_table(Scenario.read(NETWORK), io.StringIO(MISSED))
    assert made.losses == [Loss(9, 1, step, 2, 1) for step in range(12)]
    assert b"deliver 9 " not in program.execute(["run"], made.text())
    again = losses.read_table(made, pandas.DataFrame({"frame": [9], "slot": [1], "node": [1]}))
    assert again.losses == made.losses


@pytest.mark.parametrize(
    ("table", "says"),
    [
        ("seconds,slot\n1,1\n", "has neither the columns counter, from and to, nor the column node"),
        ("seconds,node\n1,1\n", "the table of losses lacks the column slot"),
        ("seconds,slot,node\n1,1,9\n", "the table of losses, row 1: node 9 is not given"),
        ("seconds,slot,node\n1,1,1\n56,1,1\n", "the table of losses, row 2: `lose 14 1 0 2 1`: 14, the frame, is from 0 to 13"),
        ("slot,node\n1,1\n", "row 1: 'seconds' is not given"),
        ("seconds,slot,counter,from,to\n1,1,12,1,2\n", "12, the step, is from 0 to 11"),
        ("seconds,slot,counter,from,to\n1,1.5,1,1,2\n", "`slot` is 1.5, and has to be a whole number"),
    ],
)
def test_recorded_tables_that_are_wrong(table, says):
    with pytest.raises(ScenarioError) as raised:
        losses.read_table(Scenario.read(NETWORK), io.StringIO(table))
    assert says in str(raised.value)


def test_a_broken_program_is_an_exception(fake):
    scenario = Scenario.read((EXAMPLES / "packets-along-a-line.scenario").read_text())
    with pytest.raises(program.OutOfMemory):
        losses.draw(scenario, 1, program=fake("exit 5"))


def test_a_drawn_text_keeps_its_seed_and_ratios():
    made = Scenario.from_graph(line(3), 20, hosts=[1]).link(1, 2, 0.8).link(3, 2, 1 / 3).stream(3, 4).put(3)
    drawn = losses.draw(made, 7)
    text = drawn.text(warn=False)
    head = ["#: seed 7", "#: prr 1 2 0.8", "#: prr 3 2 0.3333333333333333", "profile 1"]
    assert text.splitlines()[:4] == head
    again = Scenario.read(text)
    assert (again.seed, again.prr, again.losses) == (7, made.prr, drawn.losses) and again.text(warn=False) == text
    # To the program they are comments; and what was not drawn says nothing.
    assert program.execute(["run"], text) == program.execute(["run"], "".join(text.splitlines(keepends=True)[3:]))
    assert made.text(warn=False).startswith("profile 1\n")
    # What is no such comment is passed over.
    other = Scenario.read("#: seed x\n#: prr 1 2 x\n#: prr 9 9 0.5\n#: prr 1 2 nan\n#:\n#\n" + made.text(warn=False))
    assert other.seed is None and other.prr == {}


def test_losses_are_never_drawn_on_top_of_others():
    """What a seed lost is left out before another seed draws; what the scenario loses by itself stays, also in a text."""
    network = small_lossy()
    network.lose(6, 0, 0, 1, 2).lose(9, 1, 1, 2, 3)
    first, second = losses.draw(network, 1), losses.draw(network, 2)
    assert len(first.losses) > 2 and first.drawn == set(first.losses) - set(network.losses) and first.undrawn() == network
    read = Scenario.read(first.text(warn=False))
    assert read.drawn == first.drawn and read.undrawn().network_text() == network.network_text() and read.text() == first.text()
    for drawn in (first, read, first.copy()):
        assert losses.draw(drawn, 2).text() == second.text() and fixed_point(drawn, 2) == fixed_point(network, 2)
        assert losses.Drawing(drawn, 2).drawn().text() == second.text() and losses.Outcome(drawn, 2).scenario == losses.Outcome(read, 2).scenario
    # What is lost on top later is its own, and a network that was never drawn is the one that is given.
    assert first.copy().lose(7, 0, 0, 1, 2).undrawn().losses == [*network.losses, Loss(7, 0, 0, 1, 2)] and network.undrawn() is network
    with pytest.raises(ArgumentError, match="`scenario` is a str, and has to be a Scenario"):
        losses.draw(network.text(), 1)


def small_lossy() -> Scenario:
    made = Scenario(30).node(1).node(2).node(3).host(0, 1).pair(1, 2, 0.7).pair(2, 3, 0.7).on()
    return made.stream(3, 4).every(8, 3)
