"""What networks a plan has: what each seed draws, when things happen, and what no seed changes. Times and ratios are worked out by hand."""

from __future__ import annotations

import math
import statistics
import time
from pathlib import Path

import pytest

import factory
from foldcairn.plan import Plan, PlanError
from foldcairn.receivers import meant
from foldcairn.scenario import Off, On, Put, Scenario, Stream

HALL = """\
[plan]
profile = 2
hours = 0.1   # 360 s, 72 frames of 5 s

[[node]]
name = "A"
id = 1
[[node]]
name = "B"
id = 2
[[node]]
name = "C"
id = 3

[[link]]
from = "A"
to = "B"
ratio = 0.9
both = true
[[link]]
from = "B"
to = "C"
ratio = 0.8
both = true

[[host]]
node = "A"
"""


def hall(more: str = "", **instead: str) -> Plan:
    text = HALL
    for old, new in instead.items():
        text = text.replace(old, new)
    return Plan.parse(text + more)


def puts(network: Scenario, node: int, stream: int = 0) -> list[float]:
    return [network.put_seconds(one) for one in network.script if isinstance(one, Put) and (one.node, one.stream) == (node, stream)]


def lines(network: Scenario, kind: type) -> list[tuple[int, int]]:
    return [(one.frame, one.node) for one in network.script if isinstance(one, kind)]


def test_a_plan_has_all_that_a_scenario_has() -> None:
    network = hall(
        '[[stream]]\nfrom = "C"\nto = "A"\nevery = 60\n[[stream]]\nname = "state"\nstream = 2\nfrom = "C"\nto = ["A", "B"]\nevery = 100\nkeep_alive = 90\n'
        '[[stream]]\nfrom = "B"\nto = "hosts"\nevery = 50\nbytes = 10\ninterval = 7\nstart = 12\n'
        '[[node]]\nname = "D"\nid = 9\nx = 1.5\ny = 2\nclock = -3\noffset = 64\non = 12\n[[link]]\nfrom = "D"\nto = "A"\nratio = 1\nboth = true\n'
    ).network()  # fmt: skip
    assert (network.frames, network.sends, network.profile, network.contend) == (72, 2, 2, 0)
    assert network.nodes == {1: 0, 2: 0, 3: 0, 9: 64} and network.hosts == {0: 1} and network.places == {9: (1.5, 2.0)}
    assert [(one.node, one.tick, one.ppm) for one in network.rates] == [(9, 0, -3)]
    assert network.labels == {1: "A", 2: "B", 3: "C", 9: "D"}
    assert network.prr == {(1, 2): 0.9, (2, 1): 0.9, (2, 3): 0.8, (3, 2): 0.8} and network.links == {*network.prr, (9, 1), (1, 9)}
    # 12 s is in the third frame, from 10 s on, so it holds from the fourth on.
    assert lines(network, On) == [(0, 1), (0, 2), (0, 3), (3, 9)]
    assert {(one.frame, one.node, one.stream, one.interval) for one in network.script if isinstance(one, Stream)} == {
        (0, 3, 0, 60), (0, 3, 2, 100), (3, 2, 0, 7)}  # fmt: skip
    assert puts(network, 3) == [0, 60, 120, 180, 240, 300] and puts(network, 2) == [12, 62, 112, 162, 212, 262, 312]
    assert sorted(puts(network, 3, 2)) == [0, 0, 90, 100, 180, 200, 270, 300] and network.keep_alive == {(3, 2)}
    assert {len(one.payload) for one in network.script if isinstance(one, Put) and one.node == 2} == {10}
    assert meant(network).by_stream == {(2, 0): "hosts", (3, 0): frozenset({1}), (3, 2): frozenset({1, 2})}
    assert Scenario.read(network.network_text(warn=False)).network_text(warn=False) == network.network_text(warn=False)


def test_what_a_seed_draws() -> None:
    plan = hall(
        '[[stream]]\nfrom = "C"\nsporadic = 20\n[[stream]]\nfrom = "B"\nevery = 30\nstart = "drawn"\n'
        '[[event]]\nnode = "C"\nbetween = [100, 300]\nfor = 20\n', vary_ids="vary_ids",
    )  # fmt: skip
    plan.settings.hours = 5.0
    drawer = plan.drawer()
    networks = [drawer.network(seed) for seed in range(100)]
    assert drawer.network(7).network_text(warn=False) == networks[7].network_text(warn=False) == plan.network(7).network_text(warn=False)
    assert len({one.network_text(warn=False) for one in networks}) == 100
    gaps = [after - before for one in networks for before, after in zip([0.0, *puts(one, 3)], puts(one, 3))]
    # Exponential gaps: the mean and the deviation are 20 s, and 1/e of the gaps are longer. Of some 90,000 the mean errs by 0.07 s.
    assert abs(statistics.fmean(gaps) - 20) < 0.25 and abs(statistics.stdev(gaps) - 20) < 0.4
    assert abs(sum(gap > 20 for gap in gaps) / len(gaps) - math.exp(-1)) < 0.005
    phases = [puts(one, 2)[0] for one in networks]
    assert min(phases) < 2 and 28 < max(phases) < 30 and abs(statistics.fmean(phases) - 15) < 2.6
    assert all(abs(puts(one, 2)[9] - puts(one, 2)[0] - 270) < 1e-9 for one in networks)
    begins = [frame * 5 for one in networks for frame, _ in lines(one, Off)]
    assert min(begins) >= 100 and max(begins) <= 300 and len(set(begins)) > 25


def test_without_a_seed_each_is_at_its_mean() -> None:
    network = hall(
        '[[stream]]\nfrom = "C"\nsporadic = 50\nstart = 10\n[[stream]]\nfrom = "B"\nevery = 100\nstart = "drawn"\n'
        '[[event]]\nnode = "C"\nbetween = [100, 200]\nfor = 20\n'
    ).network()  # fmt: skip
    assert puts(network, 3) == [60, 110, 160, 210, 260, 310] and puts(network, 2) == [50, 150, 250, 350]
    assert lines(network, Off) == [(30, 3)] and (34, 3) in lines(network, On)


def test_a_node_or_a_stream_more_moves_nothing_else() -> None:
    more = '[[stream]]\nfrom = "C"\nsporadic = 20\n[[event]]\nnode = "C"\nbetween = [100, 300]\n'
    one = hall(more).network(5)
    other = hall(
        '[[event]]\nlink = ["A", "B"]\nbetween = [10, 20]\n[[stream]]\nfrom = "B"\nsporadic = 9\n[[node]]\nname = "AA"\nid = 4\n' + more
    ).network(5)  # fmt: skip
    assert puts(one, 3) == puts(other, 3) and lines(one, Off) == lines(other, Off)


def test_ids_that_vary() -> None:
    plan = hall('[[stream]]\nfrom = "C"\nto = "A"\nevery = 60\n')
    assert plan.network(1).labels == plan.network(2).labels
    plan.settings.vary_ids = True
    assert plan.network().labels == {1: "A", 2: "B", 3: "C"}
    orders = {tuple(network.labels[node] for node in (1, 2, 3)) for network in map(plan.network, range(60))}
    assert len(orders) == 6
    network = next(network for network in map(plan.network, range(60)) if network.labels == {1: "C", 2: "A", 3: "B"})
    assert network.hosts == {0: 2} and puts(network, 1) == [0, 60, 120, 180, 240, 300] and meant(network).by_stream == {(1, 0): frozenset({2})}
    assert network.prr == {(2, 3): 0.9, (3, 2): 0.9, (3, 1): 0.8, (1, 3): 0.8}


def test_a_node_without_power_asks_for_its_streams_again() -> None:
    # Off at 101 s, in frame 20, from 100 s on; back at 131 s: from frame 27 on, at 135 s.
    more = '[[stream]]\nfrom = "C"\nevery = 60\n[[event]]\nnode = "C"\nat = 101\nfor = 30\n'
    network = hall(more).network()
    assert lines(network, Off) == [(20, 3)] and lines(network, On) == [(0, 1), (0, 2), (0, 3), (27, 3)]
    assert lines(network, Stream) == [(0, 3), (27, 3)]
    assert lines(hall(more + "restart = false\n").network(), Stream) == [(0, 3)]
    # Each 100 s, three times; what is off from 340 s on stays off.
    again = hall(more + "every = 120\n").network()
    assert lines(again, Off) == [(20, 3), (44, 3), (68, 3)] and lines(again, Stream) == [(0, 3), (27, 3), (51, 3)]
    forever = hall('[[stream]]\nfrom = "C"\nevery = 60\n[[event]]\nnode = "C"\nat = 101\n').network()
    assert lines(forever, Off) == [(20, 3)] and lines(forever, Stream) == [(0, 3)] and len(lines(forever, On)) == 3
    # A stream that begins while its node has no power is requested when it is back.
    assert lines(hall(more.replace("every = 60", "every = 60\nstart = 110")).network(), Stream) == [(27, 3)]
    # Two cuts that touch are one.
    both = hall(more + '[[event]]\nnode = "C"\nat = 131\nfor = 10\n').network()
    assert lines(both, Off) == [(20, 3)] and lines(both, On)[-1] == (29, 3)


def test_what_passes_less_for_a_time() -> None:
    network = hall('[[event]]\nlink = ["A", "B"]\nat = 101\nfor = 30\nratio = 0.3\n').network()
    assert network.prr[1, 2] == 0.9
    assert network.ratios == {(20, 1, 2): 0.3, (20, 2, 1): 0.3, (27, 1, 2): 0.9, (27, 2, 1): 0.9}
    # No event lets a link pass more than it does.
    assert hall('[[event]]\nlink = ["A", "B"]\nat = 101\nfor = 30\nratio = 0.95\n').network().ratios == {}
    node = hall('[[event]]\nnode = "B"\nat = 0\nfor = 5\nratio = 0\n').network()
    assert set(node.prr.values()) == {0.0} and node.ratios == {(1, *link): ratio for link, ratio in hall().network().prr.items()}
    assert lines(node, Off) == []
    # Two that overlap: the lesser holds.
    two = hall('[[event]]\nlink = ["A", "B"]\nat = 100\nfor = 50\nratio = 0.3\n[[event]]\nnode = "A"\nat = 120\nfor = 10\nratio = 0.1\n').network()
    assert [(frame, ratio) for (frame, *link), ratio in sorted(two.ratios.items()) if link == [1, 2]] == [(20, 0.3), (24, 0.1), (26, 0.3), (30, 0.9)]
    off = hall('[[event]]\nlink = ["B", "A"]\nat = 100\n').network()
    assert off.ratios == {(20, 1, 2): 0.0, (20, 2, 1): 0.0}


def test_an_area_is_of_its_floor() -> None:
    placed = HALL.replace('name = "A"', 'name = "A"\nx = 0\ny = 0').replace('name = "B"', 'name = "B"\nx = 10\ny = 0\nfloor = 1')
    placed = placed.replace('name = "C"', 'name = "C"\nx = 20\ny = 0')
    event = "[[event]]\narea = [5, -5, 15, 5]\nat = 100\nratio = 0\n"
    assert len(Plan.parse(placed + event).network().ratios) == 4 and Plan.parse(placed + event + "floor = 0\n").network().ratios == {}
    dark = Plan.parse(placed + "[[event]]\narea = [5, -5, 25, 5]\nat = 100\n").network()
    assert lines(dark, Off) == [(20, 2), (20, 3)] and dark.ratios == {}
    # On a map the second floor is above the first.
    assert {node: x for node, (x, _) in dark.places.items()} == {1: 0.0, 2: 10.0, 3: 20.0}


def test_a_series_is_the_least_of_each_frame(tmp_path: Path) -> None:
    rows = [("2026-01-31T10:00:00Z", 0.9), ("2026-01-31T10:00:12Z", 0.4), ("2026-01-31T10:00:17Z", 0.7), ("2026-01-31T10:00:30Z", 0.8)]
    text = "".join(f"{time},A,B,{ratio}\n" for time, ratio in rows) + "".join(f"{time},B,A,1\n" for time, _ in rows[:2])
    (tmp_path / "series.csv").write_text("timestamp,tx,rx,prr\n" + text)
    (tmp_path / "survey.csv").write_text("tx,rx,prr\nA,B,0.2\nB,A,0.3\nB,C,0.8\nC,B,0.8\n")
    start = HALL.index("[[link]]")
    plan = HALL[:start] + HALL[HALL.index("[[host]]"):] + '[tables]\nlinks = ["survey.csv", "series.csv"]\n'
    (tmp_path / "plan.toml").write_text(plan)
    network = Plan.read(tmp_path / "plan.toml").network(1)
    # Of frames of 5 s: 0.4 from 12 s on, in frame 2; 0.7 from 17 s on, in frame 3, which has 0.4 too; 0.8 from 30 s on, when frame 6 starts.
    assert network.prr == {(1, 2): 0.9, (2, 3): 0.8, (3, 2): 0.8}
    assert network.ratios == {(2, 1, 2): 0.4, (4, 1, 2): 0.7, (6, 1, 2): 0.8}


def test_a_series_in_the_plan_file_and_a_survey_of_the_other_direction() -> None:
    """The survey is of both directions, and the series of one, with a date and a time as TOML has them."""
    more = "".join(f'[[link]]\nfrom = "A"\nto = "B"\nat = 2026-01-31T10:0{minute}:00Z\nratio = {ratio}\n' for minute, ratio in ((0, 0.5), (1, 0.25)))
    network = hall(more).network(1)
    assert network.prr == {(1, 2): 0.5, (2, 1): 0.9, (2, 3): 0.8, (3, 2): 0.8} and network.ratios == {(12, 1, 2): 0.25}


def test_an_area_has_no_node_without_a_place() -> None:
    assert hall("[[event]]\narea = [0, 0, 9, 9]\nat = 10\nratio = 0\n").network().ratios == {}


def test_too_many_ratios(monkeypatch: pytest.MonkeyPatch) -> None:
    plan = hall()
    monkeypatch.setattr("foldcairn.model.lines.RATIO_LINES_MOST", 3)
    with pytest.raises(PlanError, match="its links have 4 ratios over time, and a run has at most 3: take fewer samples"):
        plan.network(1)


def test_counts_are_drawn_and_ratios_are_not() -> None:
    """20 probes say less than 2,000: by Jeffreys the mean of 18 of 20 is 0.8810, with deviations of 0.0690 and 0.0067."""
    for sent, deviation in ((20, 0.0690), (2_000, 0.0067)):
        drawer = hall(**{"ratio = 0.9": f"sent = {sent}\nreceived = {sent * 9 // 10}"}).drawer()
        drawn = [drawer.network(seed).prr[1, 2] for seed in range(400)]
        mean = (sent * 0.9 + 0.5) / (sent + 1)
        assert drawer.network().prr[1, 2] == pytest.approx(mean, abs=1e-12)
        assert abs(statistics.fmean(drawn) - mean) < 4 * deviation / 20 and 0.85 * deviation < statistics.stdev(drawn) < 1.15 * deviation
        assert {drawer.network(seed).prr[2, 3] for seed in range(3)} == {0.8}


def test_candidates_and_where_they_are_used() -> None:
    plan = hall('[[node]]\nname = "R"\ncandidate = true\n[[link]]\nfrom = "R"\nto = "A"\nratio = 0.5\nboth = true\n')
    before = plan.network(3)
    assert before.labels == {1: "A", 2: "B", 3: "C"} and len(before.links) == 4
    plan.nodes["R"].candidate = False
    after = plan.network(3)
    assert after.labels == {**before.labels, 4: "R"} and after.prr == {**before.prr, (4, 1): 0.5, (1, 4): 0.5}


def test_relays_are_candidates_that_are_nodes() -> None:
    plan = hall('[[node]]\nname = "D"\ncandidate = true\n[[node]]\nname = "E"\ncandidate = true\n[[link]]\nfrom = "D"\nto = "C"\nratio = 0.5\n')
    assert plan.candidates == ["D", "E"] and len(plan.network().nodes) == 3
    more = plan.with_relays("D")
    network = more.network()
    assert more.candidates == ["E"] and plan.candidates == ["D", "E"]
    assert network.labels == {1: "A", 2: "B", 3: "C", 4: "D"} and network.prr[4, 3] == 0.5
    assert plan.with_relays().nodes == plan.nodes
    for name, near in (("d", "did you mean D?"), ("A", "there are D, E")):
        with pytest.raises(PlanError, match=f"`candidate` is '{name}', and no candidate has this name; {near}"):
            plan.with_relays("E", name)


def test_batteries_tags_and_streams() -> None:
    plan = hall(
        '[[stream]]\nfrom = "C"\nevery = 60\ntags = ["slow"]\n[[stream]]\nfrom = "B"\nevery = 60\n[battery]\ncapacity_mah = {"2xAA" = 2500, battery = 2000}\n',
        **{'name = "A"': 'name = "A"\npowered = "mains"\ntags = ["hall", "gate"]', 'name = "B"': 'name = "B"\npowered = "2xAA"\ntags = "hall;slow"',
           'name = "C"': 'name = "C"\npowered = 900'},
    )  # fmt: skip
    assert [plan.capacity_mah(name) for name in "ABC"] == [None, 2500.0, 900.0] and plan.tagged("hall") == ["A", "B"]
    assert [one.name for one in plan.streams_of(tag="slow")] == ["C", "B"] and [one.name for one in plan.streams_of(["B"])] == ["B"]
    assert [one.name for one in plan.streams_of()] == ["C", "B"]


def test_the_factory(tmp_path: Path) -> None:
    plan = Plan.read(factory.write(tmp_path))
    assert len(plan.nodes) == 48 and len(plan.streams) == 32 and len(plan.links) == 440 + 48
    network = plan.network(1)
    assert len(network.nodes) == 48 and network.frames == 720 and len(network.ratios) > 100
    assert sum(isinstance(one, Put) and one.node == network.id("L-01") for one in network.script) == 714
    assert network.receivers[network.id("L-01"), 0] == [network.id("C-01")] and (network.id("AL-01"), 0) in network.keep_alive
    assert network.prr != plan.network(2).prr
    assert any("got theirs in the order of names" in one for one in network.cautions())


def test_a_seed_costs_little(tmp_path: Path) -> None:
    """The network of a seed and its text, for 48 nodes over an hour: 24 ms on an idle machine. The bound is several times that, since
    the gate's machines differ and its coverage watches each line."""
    drawer = Plan.read(factory.write(tmp_path)).drawer()
    drawer.network(0).network_text(warn=False)
    spent = []
    for seed in range(1, 9):
        before = time.process_time()
        drawer.network(seed).network_text(warn=False)
        spent.append(time.process_time() - before)
    assert min(spent) < 0.150, spent
