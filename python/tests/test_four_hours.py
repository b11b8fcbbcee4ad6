"""A factory hall of 48 nodes over four hours, with the ratios of its positions and its survey: its log in true time, a timeline and a page of it.

No scenario without ratios has such a run: 48 nodes times 2,880 frames are 138,240, and its losses would be more lines than one takes.
"""

from __future__ import annotations

from pathlib import Path

import factory_hall
import pandas as pd
import pytest

from foldcairn import plot, results
from foldcairn.pages import page
from foldcairn.plan import Plan

SEED = 1


@pytest.fixture(scope="module")
def log(tmp_path_factory: pytest.TempPathFactory) -> results.Log:
    plan = Plan.read(factory_hall.write(tmp_path_factory.mktemp("hall"), hours=4))
    return results.log(plan.network(SEED), SEED, warn=False)


def test_the_log_has_all_that_the_bus_delivers(log: results.Log) -> None:
    network = log.scenario
    assert len(network.nodes) * network.frames == 48 * 2_880 and log.origin.seed == SEED
    bus = results.outcome(network, SEED)
    timed = ["planned_seconds", "delivered_seconds"]
    pd.testing.assert_frame_equal(log.deliveries.drop(columns=timed, errors="ignore"), bus.deliveries.drop(columns=timed, errors="ignore"))
    pd.testing.assert_frame_equal(log.drops, bus.drops)


def test_its_timeline_and_its_page(log: results.Log, tmp_path: Path) -> None:
    plot.timeline(log).savefig(tmp_path / "timeline.png")
    assert (tmp_path / "timeline.png").stat().st_size > 10_000
    text = page.text(log)
    kept = page.kept_seconds(log)
    assert 0 < kept < 14_400 and f"from 0 s to {kept:,.0f} s, since all of the run, to 14,400 s," in text
    assert "One draw, seed 1" in text and len(text) < 30_000_000
