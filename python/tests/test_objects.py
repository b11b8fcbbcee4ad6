"""What shells and notebooks show of scenarios and runs, the calls at the top, and results of long work that are kept."""

from __future__ import annotations

import hashlib
import io
import os
from collections.abc import Callable
from pathlib import Path
from typing import Any
from unittest.mock import Mock

import pytest
from conftest import REPOSITORY
from networks import FAILOVER, LINE, log_of
from pandas.core.computation import expressions

import foldcairn
from foldcairn import planning
from foldcairn.many import capacity, counts, importance
from foldcairn.model.scenario import Scenario, ScenarioWarning
from foldcairn.runs import losses, program, results
from foldcairn.runs.results import Log


def lossy() -> Scenario:
    return Scenario(40).node(1).node(2).node(3).host(0, 1).pair(1, 2, 0.8).pair(2, 3, 0.7).on().stream(3, 4).every(6, 3)


@pytest.fixture(scope="module")
def failover() -> Log:
    return results.log(FAILOVER)


def test_what_a_shell_shows(failover: Log) -> None:
    made = Scenario.read(FAILOVER)
    assert repr(made) == "<Scenario: 3 nodes, 6 links, 2 hosts, 128 s>"
    digest = hashlib.sha256(FAILOVER.encode()).hexdigest()
    assert repr(failover) == f"<Log: 3 nodes, 128 s, 2 deliveries, text {digest[:12]}>"
    drawn = losses.draw(lossy(), 3)
    assert repr(drawn) == f"<Scenario: 3 nodes, 4 links, 1 hosts, 160 s, {len(drawn.losses)} losses of seed 3>"
    assert repr(results.run(drawn)).startswith("<Report: 3 nodes, 160 s, seed 3, ")


def test_what_a_notebook_shows(failover: Log) -> None:
    for shown in (failover._repr_html_(), failover.scenario._repr_html_(), results.run(FAILOVER)._repr_html_()):
        assert shown.startswith("<table>") and shown.count("<tr>") <= 5 and len(shown) < 2_000
    assert "50.0 % of what was put" in failover._repr_html_() and "median 41.0 s" in failover._repr_html_()
    told = Scenario(4).node(1).node(2)._repr_html_()
    assert "no node hosts" in told and "<li>" in told


def test_the_top_of_the_package() -> None:
    assert foldcairn.Scenario is Scenario and foldcairn.Log is Log
    assert foldcairn.__version__ == (Path(program.__file__).parents[4] / "VERSION").read_text().strip()
    with pytest.raises(AttributeError, match="no attribute 'scenarios'"):
        foldcairn.scenarios  # noqa: B018


def test_a_run_in_one_call() -> None:
    log = foldcairn.run(lossy(), seed=5, progress=False)
    assert log.deliveries.equals(results.log(losses.draw(lossy(), 5)).deliveries) and log.origin.seed == 5
    # Losses that are drawn already are kept, and a text is run as it is.
    assert foldcairn.run(losses.draw(lossy(), 6), progress=False).origin.seed == 6
    assert foldcairn.run(LINE).origin == results.log(LINE).origin
    # A text with ratios, which is none for `run` of the program, is drawn as its scenario is: docs/RATIOS.md has four deliveries.
    assert foldcairn.run(lossy().network_text(warn=False), seed=5, progress=False).deliveries.equals(log.deliveries)
    worked = foldcairn.run(REPOSITORY / "tests" / "worked" / "three-in-a-line.network", seed=8, progress=False)
    assert len(worked.deliveries) == 4 and worked.origin.seed == 8
    with pytest.warns(ScenarioWarning, match="node 9 is never switched on"):
        foldcairn.run(lossy().node(9), progress=False)


def test_where_results_come_from() -> None:
    made = lossy()
    for result in (results.run(made), results.log(made), results.bus(made), results.returns(made)):
        assert result.origin.text == hashlib.sha256(made.text(warn=False).encode()).hexdigest()
        assert result.origin.program == hashlib.sha256(Path(os.environ["FOLDCAIRN"]).read_bytes()).hexdigest()
        assert result.origin.seed is None


# Long work.


def test_a_drawing_that_is_kept(tmp_path: Path, monkeypatch: pytest.MonkeyPatch) -> None:
    made, seed = lossy(), 3
    bar = io.StringIO()
    drawn = losses.draw(made, seed, results=tmp_path, progress=bar)
    assert "40/40" in bar.getvalue() and len(list(tmp_path.iterdir())) == 1
    # Taken from the folder: no program is run.
    monkeypatch.setattr(program, "execute", lambda *_, **__: pytest.fail("the losses are there"))
    assert losses.draw(made, seed, results=tmp_path) == drawn
    with pytest.raises(pytest.fail.Exception):
        losses.draw(made, 2 * seed, results=tmp_path)


def test_a_drawing_of_the_planner_that_is_stopped(tmp_path: Path, monkeypatch: pytest.MonkeyPatch) -> None:
    """Nothing is kept of it, and the next call draws in one go."""
    made = lossy()
    with monkeypatch.context() as patched, pytest.raises(KeyboardInterrupt):
        patched.setattr(program, "execute", Mock(side_effect=KeyboardInterrupt))
        losses.draw(made, 3, results=tmp_path)
    assert not list(tmp_path.iterdir())
    assert losses.draw(made, 3, results=tmp_path) == losses.draw(made, 3)


@pytest.mark.parametrize("call", [importance.importance, capacity.capacity])
def test_answers_of_many_runs_are_kept(call, tmp_path: Path) -> None:
    from concurrent.futures import ThreadPoolExecutor

    given = {"candidates": [(1, 2)], "seeds": [1]} if call is importance.importance else {"every": 30, "sources": [2]}
    bar = io.StringIO()
    with ThreadPoolExecutor(2) as pool:
        first = call(lossy(), **given, executor=pool, results=tmp_path, progress=bar)
        kept = {path: path.stat().st_mtime_ns for path in tmp_path.iterdir()}
        assert kept and "s/" in bar.getvalue()
        assert call(lossy(), **given, executor=pool, results=tmp_path, progress=False).equals(first)
    assert {path: path.stat().st_mtime_ns for path in tmp_path.iterdir()} == kept


def test_a_fault_is_told_once() -> None:
    """The script of a repository explains the fault on standard error too."""
    fault = program.Refused(2, "Range", "sends 5", "line 2: `sends 5`: from 1 to 4", stderr="foldcairn: line 2, 'sends 5': out of its range")
    assert str(fault) == "line 2: `sends 5`: from 1 to 4 (Range)" and "out of its range" in fault.stderr


def test_logs_in_collections() -> None:
    """A log is equal to itself alone, as its tables have no truth of their own."""
    one, other = log_of(LINE), results.log(LINE)
    assert one == one and one != other and one in [other, one] and len({one, other, results.bus(LINE), counts.of(lossy(), 1, 1)}) == 4


def test_truths_are_not_multiplied(monkeypatch: pytest.MonkeyPatch) -> None:
    """In tables of a million rows pandas hands products to numexpr, which has none of truths, and warns."""
    products = []

    def noted(operator: Callable[..., object], _: object, one: Any, other: Any) -> object:
        products.append((operator.__name__, *(str(getattr(part, "dtype", "float")) for part in (one, other))))
        return operator(one, other)

    monkeypatch.setattr(expressions, "_evaluate", noted)
    planning.delivery_ratio(results.bus(LINE)), planning.deadline(results.bus(LINE), 30)
    assert products and not [one for one in products if one[1:] == ("bool", "bool") and "mul" in one[0]]


def test_arguments_by_name_in_any_order() -> None:
    log = results.bus(LINE)
    assert planning.delivery_ratio(by="node", log=log).equals(planning.delivery_ratio(log, "node"))
    assert planning.importance(what="links", scenario=lossy(), seeds=[1], progress=False).equals(planning.importance(lossy(), seeds=[1], progress=False))
