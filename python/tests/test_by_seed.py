"""Logs and reports of networks with the losses of a seed, by one call of the planner's program; of one that has no such words, a script stands
for it that draws the losses first."""

from __future__ import annotations

import hashlib
import os
from collections.abc import Iterator
from pathlib import Path

import pandas as pd
import pytest
from conftest import REPOSITORY
from test_objects import lossy
from test_outcome import small_network

import foldcairn
from foldcairn import planning
from foldcairn.__main__ import main
from foldcairn.answers import fates
from foldcairn.common.arguments import ArgumentError
from foldcairn.draw import plot
from foldcairn.model.scenario import Put, Scenario
from foldcairn.pages import export, page
from foldcairn.pages.settings import Settings
from foldcairn.runs import losses, program, results, running

THREE = REPOSITORY / "tests" / "worked" / "three-in-a-line.network"
STORED = program.find_planner()
HAS_WORDS = program.takes_seed("log", STORED)
# As the planner's program: the words that it has, and of `run SEED` and `log SEED` what the first program writes of the text of `draw SEED`.
STANDS_FOR = f"""
case $1 in
    usage) echo 'usage: draw SEED | outcome SEED | fates SEED | run SEED | log SEED | sample FROM COUNT'; exit 2 ;;
    run | log) drawn=$({STORED} draw "$2") || {{ status=$?; echo "$drawn"; exit $status; }}; echo "$drawn" | {os.environ["FOLDCAIRN"]} "$1" ;;
    *) exec {STORED} "$@" ;;
esac
"""


@pytest.fixture(autouse=True)
def planner(fake, monkeypatch: pytest.MonkeyPatch) -> Path:
    """The planner's program, with the words `run SEED` and `log SEED`."""
    found = STORED if HAS_WORDS else fake(STANDS_FOR)
    monkeypatch.setenv("FOLDCAIRN_PLAN", str(found))
    return found


@pytest.fixture
def without(monkeypatch: pytest.MonkeyPatch) -> Iterator[None]:
    """A planner's program without these words."""
    monkeypatch.setattr(program, "takes_seed", lambda *_: False)
    yield


def events(report: results.Report) -> list[list[object]]:
    """What the `deliver` and `drop` lines say."""
    return [report.deliveries.drop(columns=["planned_seconds", "delivered_seconds"], errors="ignore").values.tolist(), report.drops.values.tolist()]


@pytest.mark.parametrize("seed", range(40))
def test_a_log_by_one_call_has_the_events_of_the_log_of_the_draw(seed: int) -> None:
    network = small_network(seed)
    drawn = losses.draw(network, seed)
    log = results.log(network, seed, warn=False)
    assert events(log) == events(results.log(drawn, warn=False)) == events(results.run(network, seed)) == events(results.bus(drawn))
    assert log.origin.seed == seed and log.energy.shape == (len(network.nodes), 9)


def test_what_a_log_keeps_of_its_network() -> None:
    network = lossy()
    log = results.log(network, 5)
    assert log.scenario == network and log.scenario.is_to_be_drawn and not log.scenario.losses
    assert log.origin.text == hashlib.sha256(network.network_text().encode()).hexdigest()
    # What became of packets is asked of the same network and seed, and is what the log's own lines say.
    pd.testing.assert_frame_equal(fates.of(log), fates.by_log(log))
    pd.testing.assert_frame_equal(fates.of(log), results.fates(network, 5))
    assert {"delivered"} < set(planning.packets(log)["fate"].astype(str))
    again = foldcairn.run(network, seed=5, progress=False)
    assert again.deliveries.equals(log.deliveries) and again.origin == log.origin
    # A text and a file are run as the scenario is.
    assert events(results.log(THREE, 8)) == events(results.run(THREE.read_text(), 8)) and results.log(THREE, 8).origin.seed == 8
    assert len(results.log(THREE, 8).deliveries) == 4


def test_where_nothing_is_left_to_draw() -> None:
    drawn = losses.draw(lossy(), 5)
    log = results.log(drawn, 9)
    assert events(log) == events(results.log(drawn)) and log.origin.seed == 5
    plain = Scenario.read(lossy().text(warn=False))
    assert results.run(plain, 9).origin.seed is None and events(results.run(plain, 9)) == events(results.run(plain))


def test_answers_and_pictures_of_a_log_by_a_seed(tmp_path: Path, undrawn: None) -> None:
    log = results.log(lossy(), 5)
    answers = planning.tables(log)
    assert len(answers["packets"]) and len(answers["hosts"]) and planning.summary(log)["ratio_of_put"] < 1
    text = page.text(log)
    assert "One draw, seed 5" in text and "with the ratios by which the seed 5 draws the losses" in text and 'class="part"' not in text
    assert export.pcap(log, tmp_path / "run.pcap") == len(log.transmissions) and export.trace(log, tmp_path / "run.json") > 0
    assert "one draw, seed 5" in [one.get_text() for one in plot.timeline(log).axes[0].texts]


def test_a_page_of_a_long_run_keeps_a_part(monkeypatch: pytest.MonkeyPatch, undrawn: None) -> None:
    """Rounds come from frame 5 on, so some 20 s into the run the log has more than 40 entries."""
    log = results.log(lossy(), 5)
    whole = page.data(log)
    assert page.kept_seconds(log) == log.scenario.seconds == 160
    monkeypatch.setattr(page, "KEPT_MOST", 40)
    kept = page.kept_seconds(log)
    assert 20 <= kept < 160 and kept % 4 == 0
    part, ends = page.data(log), kept * results.TICKS_A_SECOND
    for name, table in (("transmissions", log.transmissions), ("receptions", log.receptions)):
        count = int((table["start_ticks"] < ends).sum())
        assert all(part[name][key] == whole[name][key][:count] for key in ("start", "length", "node"))
        told = [[one["packets"][place] for place in one[name]["packet"][:count]] for one in (part, whole)]
        assert told[0] == told[1] and len(part[name]["packet"]) == count
    assert len(part["transmissions"]["start"]) + len(part["receptions"]["start"]) + len(part["tunings"]["start"]) <= 60 < len(whole["tunings"]["start"])
    assert part["seconds"] == 160 and max(part["slots"]["start_ticks"]) < ends
    assert f"keeps slots and packets from 0 s to {kept:.0f} s, since all of the run, to 160 s," in page.text(log)


def test_a_page_is_made_again_from_what_it_keeps(tmp_path: Path, monkeypatch: pytest.MonkeyPatch, undrawn: None) -> None:
    """The scenario that a page keeps has the ratios, and its settings the seed."""
    kept: list[Settings] = []
    text = Settings.text
    monkeypatch.setattr(Settings, "text", lambda self: kept.append(self) or text(self))
    first = page.text(results.log(lossy(), 5))
    assert kept[-1].seed == 5
    (tmp_path / "run.scenario").write_text(lossy().network_text())
    (tmp_path / "run.page.json").write_text(text(kept[-1]))
    monkeypatch.chdir(tmp_path)
    assert main(["report", "run.scenario", "--page", "run.page.json", "--html", "again.html"]) == 0
    assert (tmp_path / "again.html").read_text() == first


def test_commands_of_the_package(tmp_path: Path, capsys: pytest.CaptureFixture[str]) -> None:
    path = tmp_path / "line.network"
    path.write_text(lossy().network_text())
    assert main(["trace", str(path), "-o", str(tmp_path / "run.json"), "--seed", "5"]) == 0
    assert main(["report", str(path), "--seed", "5", "--json"]) == 0
    assert '"seed": 5' in capsys.readouterr().out


def test_a_seed_that_is_none() -> None:
    for call in (results.log, results.run):
        with pytest.raises(ArgumentError, match="`seed` is -1, and has to be a whole number from 0 to 9,999,999,999,999"):
            call(lossy(), -1)


def test_a_fault_is_told_as_of_a_network(fake) -> None:
    with pytest.raises(program.Refused, match="`ratio 0 1 2 2000000`"):
        results.log(THREE.read_text() + "ratio 0 1 2 2000000\n", 1)


def test_a_program_without_the_word_is_named(without: None) -> None:
    with pytest.raises(program.NotFound, match=r"has no command `log SEED`, which runs a network with the losses of a seed: set .*FOLDCAIRN_PLAN"):
        results.log(lossy(), 5)
    with pytest.raises(program.NotFound, match="has no command `run SEED`"):
        results.run(lossy(), 5)


def test_without_the_word_losses_are_drawn_first(without: None) -> None:
    log = foldcairn.run(lossy(), seed=5, progress=False)
    assert log.scenario.seed == log.origin.seed == 5 and log.scenario.losses
    assert events(log) == events(running.by_seed(lossy(), 5))


def test_which_words_take_a_seed(fake) -> None:
    usage = fake("echo 'usage: draw SEED | run SEED | log SEED | sample FROM COUNT'; exit 2")
    assert program.takes_seed("log", usage) and program.takes_seed("run", usage) and not program.takes_seed("sample", usage)
    assert not program.takes_seed("log", Path(os.environ["FOLDCAIRN"])) and not program.takes_seed("log", Path("/none"))


def test_a_text_with_ratios_and_no_seed() -> None:
    with pytest.raises(program.Refused, match="for log, give a seed, by `foldcairn log --seed N FILE`, or draw the losses of a seed first"):
        results.log(THREE.read_bytes())
    with pytest.raises(program.Refused, match="for times, draw the losses of a seed first"):
        results.times(THREE.read_bytes())


@pytest.mark.skipif(not HAS_WORDS, reason="the stored program has no `log SEED`")
def test_a_log_that_no_scenario_has() -> None:
    """64 nodes over 300 frames, of which no draw writes a text."""
    made = Scenario(300, 2, profile=2).node(1).host(0, 1)
    for node in range(2, 65):
        made.node(node).link(node, 1, 0.5).link(1, node, 0.5).link(node, node - 1, 0.5).link(node - 1, node, 0.5)
    made.on().stream(64, 10).every(20, 64)
    with pytest.raises(program.Refused, match="64 nodes times 300 frames are 19,200"):
        losses.draw(made, 3)
    log = results.log(made, 3, warn=False)
    assert len(log.transmissions) > 10_000 and len(planning.packets(log)) == sum(isinstance(one, Put) for one in made.script)
    assert planning.delivery_ratio(log, "all")["put"].sum() > 0 and len(planning.duty_cycle(log)) == 64
