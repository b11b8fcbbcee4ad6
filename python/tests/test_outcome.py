"""The program of a planner draws the losses that `losses.draw` draws: what the bus gives is the same, to the byte."""

from __future__ import annotations

import random

import pytest

from conftest import REPOSITORY
from foldcairn.common import arguments
from foldcairn.many import importance
from foldcairn.model.scenario import Scenario
from foldcairn.runs import losses, program, results


def outcome(network: Scenario, seed: int) -> bytes:
    return program.execute(["outcome", str(seed)], network.network_text(warn=False))


def small_network(seed: int) -> Scenario:
    """Some nodes with links of all ratios, one host or two, streams, power cycles, and a cut or a lost link."""
    chance = random.Random(seed)
    count = chance.randint(3, 8)
    made = Scenario(chance.randint(12, 30), chance.randint(1, 4), 1)
    for node in range(1, count + 1):
        made.node(node)
    made.host(0, 1)
    if chance.random() < 0.5:
        made.host(1, 2)
    for node in range(2, count + 1):
        for near in {chance.randint(1, node - 1), chance.randint(1, node - 1)}:
            for ends in ((node, near), (near, node)):
                made.link(*ends, prr=round(chance.uniform(0.2, 1), 2))
    made.on(*range(1, count + 1), frame=0)
    for node in range(2, count + 1):
        made.stream(node, chance.randint(4, 12), frame=chance.randint(0, 6))
        for frame in range(chance.randint(0, 6), made.frames, chance.randint(2, 6)):
            made.put(node, b"\xaa", frame=frame)
    failing = chance.randint(1, count)
    made.off(failing, frame=10)
    if chance.random() < 0.5:
        made.on(failing, frame=11)
    made.lose(chance.randint(5, 11), 0, 0, 2, 1)
    made.cut(chance.randint(5, 11), 0, 1, count)
    return made


@pytest.mark.parametrize("seed", range(50))
def test_both_ways_of_drawing_give_one_bus(seed):
    network = small_network(seed)
    if seed % 2:
        # Half of them have ratios that change.
        network = losses.bursts(network, seed, good_seconds=20, bad_seconds=12)
    drawn = losses.draw(network, seed=seed)
    assert outcome(network, seed) == program.execute(["bus"], drawn.text(warn=False).encode())


def test_a_network_without_ratios_is_its_scenario():
    network = small_network(0)
    network.prr.clear()
    assert outcome(network, 3) == program.execute(["bus"], network.text(warn=False).encode())


def test_the_report_of_an_outcome():
    network = small_network(1)
    report, drawn = results.outcome(network, 4), losses.draw(network, 4)
    other = results.bus(drawn)
    assert report.deliveries.equals(other.deliveries) and report.drops.equals(other.drops) and report.energy.equals(other.energy)
    assert report.origin.seed == other.origin.seed == 4 and report.origin.program == program.checksum(program.find_planner())
    # Losses that are drawn are not drawn once more, and a text is run as it is.
    again = results.outcome(drawn, 9)
    assert again.deliveries.equals(other.deliveries) and again.origin.seed == 4
    assert results.outcome(network.network_text(warn=False), 4).deliveries.equals(other.deliveries)
    worked = (REPOSITORY / "tests" / "worked" / "three-in-a-line.network").read_text()
    assert len(results.outcome(worked, 8).deliveries) == 4
    with pytest.raises(arguments.ArgumentError, match="`seed` is -1"):
        results.outcome(network, -1)


@pytest.mark.parametrize("words", [["outcome", "1"], ["fates", "1"], ["sample", "0", "2"], ["draw", "1"]])
def test_a_rejected_ratio_is_explained(words):
    whole = small_network(0).network_text(warn=False)
    for one, other, says in (
        ("ratio 0 1 2 ", "ratio 0 1 2 9", "the fourth number, the ratio, is from 0 to 1,000,000 millionths"),
        ("ratio 0 1 2 ", "ratio 0 1 99 ", "no line above is `node 99 OFFSET`"),
        ("ratio 0 1 2 ", "ration 0 1 2 ", "did you mean `ratio`"),
    ):
        with pytest.raises(program.Refused, match=says):
            program.execute(words, whole.replace(one, other))


def test_what_is_too_long_is_told_what_to_take():
    """262,144 nodes times frames are 64 nodes over 4,096 frames; what `draw` writes is for `run`, which takes 16,384 of them."""
    text = "frames 4096\nsends 1\n" + "".join(f"node {node} 0\n" for node in range(1, 9)) + "host 0 1\nratios\n"
    with pytest.raises(program.Refused, match="at most 16,384 are run: take 2,048 frames, or `outcome` and `fates`, which take up to 262,144"):
        program.execute(["draw", "1"], text)
    assert results.outcome(text).deliveries.empty and results.fates(text).empty


def test_where_the_program_of_a_planner_is(monkeypatch, tmp_path, fake):
    assert program.has_command("outcome", program.find_planner()) and not program.has_command("bus", program.find_planner())
    stored = REPOSITORY / "bin" / "foldcairn-plan-x86_64-linux"
    monkeypatch.delenv("FOLDCAIRN_PLAN", raising=False)
    monkeypatch.setenv("FOLDCAIRN", str(REPOSITORY / "bin" / "foldcairn-x86_64-linux"))
    assert program.find_planner() == stored
    # By the front end, wherever it is linked from; a program alone is taken for itself.
    (tmp_path / "foldcairn").symlink_to(REPOSITORY / "foldcairn")
    monkeypatch.setenv("FOLDCAIRN", str(tmp_path / "foldcairn"))
    monkeypatch.setattr(program, "_is_to_be_built", lambda _: False)
    assert program.find_planner() == stored
    alone = fake("exit 5")
    monkeypatch.setenv("FOLDCAIRN", str(alone))
    assert program.find_planner() == alone and not program.has_command("outcome", alone)
    assert not program.has_command("outcome", tmp_path / "none")
    monkeypatch.setenv("FOLDCAIRN_PLAN", str(alone))
    with pytest.raises(program.OutOfMemory):
        results.outcome(small_network(0))
    monkeypatch.setenv("FOLDCAIRN_PLAN", str(tmp_path / "none"))
    with pytest.raises(program.NotFound, match="FOLDCAIRN_PLAN names no program"):
        program.find_planner()


def test_importance_asks_the_bus_alone(monkeypatch):
    """No lines of losses are drawn, so nothing is run again and again."""
    monkeypatch.setattr(losses, "draw", None)
    network = small_network(2)
    drawn = losses.Outcome(network, 3).result()
    ((ratio,),) = importance._ratios(None, [None], "", network, [3])
    assert ratio == len(drawn.deliveries) / (len(network.nodes) - 1) / sum(type(line).__name__ == "Put" for line in network.script)
