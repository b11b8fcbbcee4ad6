"""Importance of links and nodes: networks whose answers are plain, and what the definition says on lossy ones."""

from __future__ import annotations

from collections.abc import Callable
from concurrent.futures import ThreadPoolExecutor
from pathlib import Path

import numpy as np
import pytest
from networks import LINE

import foldcairn
from foldcairn import planning
from foldcairn.common.arguments import ArgumentError
from foldcairn.many import seeds as many
from foldcairn.model.scenario import Scenario
from foldcairn.runs import losses, results


@pytest.fixture(scope="module")
def pool():
    with ThreadPoolExecutor(2) as executor:
        yield executor


def lossy() -> Scenario:
    """A host, two relays, and a source that reaches the host through either relay, at ratios that lose packets."""
    made = Scenario(40)
    for node in (1, 2, 3, 4):
        made.node(node)
    made.host(0, 1).pair(1, 2, 0.9).pair(1, 3, 0.5).pair(2, 4, 0.8).pair(3, 4, 0.6).on()
    return made.stream(4, 4).every(5, 4)


def test_a_line_needs_all_its_links(pool: ThreadPoolExecutor) -> None:
    table = planning.importance(Scenario.read(LINE), seeds=[1, 2], executor=pool)
    assert table[["one", "other"]].values.tolist() == [[1, 2], [2, 3]]
    assert table["ratio"].tolist() == [1, 1]
    assert table["ratio_cut"].tolist() == [0, 0]
    assert table["change"].tolist() == [-1, -1]
    assert table[["spread", "error"]].values.tolist() == [[0, 0], [0, 0]]
    assert table[["low", "high", "p"]].values.tolist() == [[-1, -1, 0], [-1, -1, 0]]


def test_of_how_many_packets_the_ratios_are(pool: ThreadPoolExecutor) -> None:
    network = lossy().stream(3, 8).every(10, 3)
    puts = {node: sum(line.text().startswith("put") and line.node == node for line in network.script) for node in (3, 4)}
    for what, cut, packets in (("links", (2, 4), puts[3] + puts[4]), ("nodes", 2, puts[3] + puts[4]), ("nodes", 3, puts[4]), ("nodes", 1, 0)):
        table = planning.importance(network, what, candidates=[cut], seeds=[1, 2], receivers=1, executor=pool, progress=False)
        assert table["packets"].tolist() == [2 * packets]


def test_a_ring_needs_none_of_them(pool: ThreadPoolExecutor) -> None:
    ring = Scenario.read(LINE).pair(1, 3)
    table = planning.importance(ring, seeds=[1], executor=pool)
    assert len(table) == 3
    assert table["change"].tolist() == [0, 0, 0]
    assert table[["spread", "low", "high", "p"]].isna().all(axis=None)


def test_nodes_are_left_out_of_both_sides(pool: ThreadPoolExecutor) -> None:
    table = planning.importance(Scenario.read(LINE), "nodes", seeds=[1], executor=pool).set_index("node")
    # Without node 2 node 3 has no host, without node 1 nobody has; node 3 is the only source.
    assert table.loc[[1, 2], "ratio"].tolist() == [1, 1]
    assert table.loc[[1, 2], "change"].tolist() == [-1, -1]
    assert np.isnan(table.loc[3, "change"])


def test_losses_are_drawn_anew_for_each_cut(pool: ThreadPoolExecutor) -> None:
    network, seeds = lossy(), [1, 2, 3]
    table = planning.importance(network, candidates=[(2, 4)], seeds=seeds, executor=pool).iloc[0]

    def ratio(scenario: Scenario, seed: int) -> float:
        report = results.run(losses.draw(scenario, seed))
        return len(report.deliveries) / (3 * sum(1 for line in scenario.script if line.text().startswith("put")))

    before = np.array([ratio(network, seed) for seed in seeds])
    after = np.array([ratio(network.copy().unlink(2, 4), seed) for seed in seeds])
    assert table["ratio"] == pytest.approx(before.mean())
    assert table["ratio_cut"] == pytest.approx(after.mean())
    assert table["change"] == pytest.approx((after - before).mean())
    assert table["spread"] == pytest.approx((after - before).std(ddof=1))
    assert (table["least"], table["greatest"]) == pytest.approx((min(after - before), max(after - before)))
    assert table["spread"] > 0
    assert network.links == lossy().links


def test_a_run_that_fails_is_named(pool: ThreadPoolExecutor, fake: Callable[[str], Path], monkeypatch: pytest.MonkeyPatch) -> None:
    monkeypatch.setenv("FOLDCAIRN_PLAN", str(fake("exit 5")))
    with pytest.raises(ValueError, match="the run without (a cut|1-2) with seeds 1 to 2 failed: OutOfMemory: out of memory"):
        planning.importance(Scenario.read(LINE), candidates=[(1, 2)], seeds=[1, 2], executor=pool, progress=False)


def test_what_can_not_be_answered(pool: ThreadPoolExecutor) -> None:
    network = Scenario.read(LINE)
    with pytest.raises(ValueError, match="not one of"):
        planning.importance(network, "hosts", executor=pool)
    with pytest.raises(ArgumentError, match="`seeds` has no seed"):
        planning.importance(network, seeds=[], executor=pool)
    with pytest.raises(ArgumentError, match="`scenario` is a str, and has to be a Scenario; write Scenario.read"):
        planning.importance(LINE, executor=pool)  # type: ignore[arg-type]
    network.script = [line for line in network.script if not line.text().startswith("put")]
    with pytest.raises(ValueError, match="nothing is put"):
        planning.importance(network, executor=pool)


def test_the_network_of_a_log_answers_as_it_does_itself(pool: ThreadPoolExecutor) -> None:
    """Of what a seed ran it is the network that is asked, so nothing is drawn twice."""
    network = Scenario(60).node(1).node(2).node(3).node(4).host(0, 1).pair(1, 2, 0.8).pair(2, 3, 0.8).pair(3, 4, 0.8).on().stream(4, 4).every(8, 4)
    network.lose(9, 2, 0, 2, 1)
    log = foldcairn.run(network, seed=1, progress=False)
    for drawn in (log.scenario, Scenario.read(log.scenario.network_text(warn=False))):
        for what in ("links", "nodes"):
            asked = {"seeds": [1, 2], "executor": pool, "progress": False}
            assert planning.importance(drawn, what, **asked).equals(planning.importance(network, what, **asked))
    # The measure is that of the reports of the seeds.
    reports = [results.outcome(network, seed, warn=False) for seed in (1, 2)]
    wanted = np.mean([planning.delivery_ratio(one, "all")["ratio_of_put"][0] for one in reports])
    assert planning.importance(log.scenario, seeds=[1, 2], executor=pool, progress=False)["ratio"][0] == pytest.approx(wanted)


def test_what_is_kept_goes_by_the_nodes_that_are_cut(pool: ThreadPoolExecutor, tmp_path: Path) -> None:
    """The ratio without a cut leaves the nodes out that are cut, so it is another one for other nodes."""
    network = lossy().stream(3, 8).every(10, 3)
    for node in (4, 3):
        asked = {"what": "nodes", "candidates": [node], "seeds": [1, 2, 3], "executor": pool, "progress": False}
        assert planning.importance(network, **asked, results=tmp_path).equals(planning.importance(network, **asked))


def test_each_candidate_once(pool: ThreadPoolExecutor) -> None:
    """Holm's method multiplies the least chance by the number of cuts: a cut that is named twice is one."""
    asked = {"seeds": range(1, 7), "executor": pool, "progress": False}
    once = planning.importance(lossy(), candidates=[(4, 2), (1, 3)], **asked)
    again = planning.importance(lossy(), candidates=iter([(4, 2), (1, 3), (2, 4), [4, 2]]), **asked)
    assert again.equals(once) and sorted(once[["one", "other"]].values.tolist()) == [[1, 3], [4, 2]]
    assert planning.importance(lossy(), "nodes", candidates=[2, 2], **asked)["node"].tolist() == [2]


@pytest.mark.parametrize(
    ("what", "candidates", "says"),
    [
        ("links", [(1, 4)], "`candidates` has 1-4, and no link joins these; links join node 1 with 2, 3 and node 4 with 2, 3"),
        ("links", [(5, 1)], "`candidates` has 5-1, and no link joins these; links join node 5 with none and node 1 with 2, 3"),
        ("links", [(1, 9)], "the scenario has no node 9"), ("links", [1], r"`candidates` has 1, and for links has to have pairs of nodes, as \(1, 2\)"),
        ("nodes", [9], "the scenario has no node 9"),
    ],
)  # fmt: skip
def test_candidates_that_are_none(what: str, candidates: list[object], says: str) -> None:
    with pytest.raises(ArgumentError, match=says):
        planning.importance(lossy().node(5), what, candidates=candidates, progress=False)  # type: ignore[arg-type]


def test_two_seeds_are_not_sure(pool: ThreadPoolExecutor, monkeypatch: pytest.MonkeyPatch) -> None:
    """Changes of the same size have no spread, which is no certainty: two seeds can't tell, and six can by their signs."""
    for seeds, chance in ((2, np.nan), (5, np.nan), (6, 2 / 64)):
        ratios = [[0.9]] * seeds
        monkeypatch.setattr(many, "answers", lambda asked, listed, told=ratios, **_: [told, [[0.75]] * len(told)])
        row = planning.importance(lossy(), candidates=[(2, 4)], seeds=range(seeds), executor=pool).iloc[0]
        assert row["change"] == pytest.approx(-0.15) and row[["low", "high"]].isna().all() and row["p"] == pytest.approx(chance, nan_ok=True)


def test_seeds_of_any_kind(pool: ThreadPoolExecutor) -> None:
    wanted = planning.importance(lossy(), candidates=[(2, 4)], seeds=[1, 2], executor=pool, progress=False)
    for seeds in (np.arange(1, 3), (seed for seed in (1, 2)), range(1, 3)):
        assert planning.importance(lossy(), candidates=[(2, 4)], seeds=seeds, executor=pool, progress=False).equals(wanted)
