"""What breaks where any one node fails: plants of which that is known by hand, and the command `failures`."""

from __future__ import annotations

import json
import math
import os
import signal
import subprocess
import sys
import time
from collections.abc import Iterator
from concurrent.futures import Executor, ThreadPoolExecutor
from dataclasses import replace
from pathlib import Path

import numpy as np
import pandas as pd
import pytest
from conftest import REPOSITORY
from plans import asked, plan as pumps_plan, pumps
from plants import chain, halls, made, nodes, ring, star, stream

import foldcairn
from foldcairn import planning
from foldcairn.__main__ import main
from foldcairn.common.arguments import ArgumentError
from foldcairn.plan import Event, Plan, PlanError, Requirement
from foldcairn.requirements import cutting, failing_text, judging
from foldcairn.requirements.failing import Failures
from foldcairn.requirements.judging import Rule, Unit


@pytest.fixture(scope="module")
def threads() -> Iterator[Executor]:
    with ThreadPoolExecutor(2) as pool:
        yield pool


def _failed(plan: Plan, executor: Executor, **given: object) -> Failures:
    return planning.failures(plan, executor=executor, progress=False, **given)  # type: ignore[arg-type]


def _rows(found: Failures) -> dict[str, pd.Series]:
    return {row["failed"]: row for _, row in found.nodes.iterrows()}


# Which failures break what.


def test_in_a_chain_each_relay_cuts_off_those_behind(threads: Executor) -> None:
    found = _failed(chain(), threads)
    rows = _rows(found)
    behind = {"H": "R-1; R-2; R-3", "R-1": "R-2; R-3", "R-2": "R-3", "R-3": ""}
    for name, those in behind.items():
        row = rows[name]
        assert (row["whom"], row["cut_off"], row["lost"]) == (those, those, those), name
        assert (row["breaks"], row["requirements"]) == ((1, "all") if those else (0, "")), name
        assert math.isnan(row["broken_seconds"]) if those else row["broken_seconds"] == 0, name
    # Nothing comes any more in the 480 s that are left, or from the first packet on: those of R-2 are put at 60, 80, .. s, those of R-3 at 70, 90, ..
    assert rows["R-1"]["silent_seconds"] == 480 and rows["R-2"]["silent_seconds"] == 470 and rows["R-2"]["silent"] == "R-3"
    assert found.nodes["failed"].tolist() == ["H", "R-1", "R-2", "R-3"] and found.status() == 10
    assert rows["H"]["role"] == "host" and rows["R-1"]["role"] == "node" and repr(found) == "<Failures: 4 nodes at 240 s, 3 of them break a requirement>"
    assert found.requirements["planned"].eq("met").all() and found.nodes.attrs["seeds"] == [*range(1, 33)]


def test_in_a_ring_no_node_cuts_off_another(threads: Executor) -> None:
    found = _failed(ring(), threads, nodes=["R-1", "R-2", "R-3", "R-4"])
    assert not found.nodes["breaks"].any() and set(found.nodes["cut_off"]) == set(found.nodes["lost"]) == {""}
    assert found.requirements["verdict"].eq("met").all() and found.status() == 0
    assert "of 4 nodes: 0 break a requirement" in failing_text.text(found)


def test_a_backup_takes_over_in_a_star(threads: Executor) -> None:
    """It does 18 frames of 5 s after the last round, and then streams have to be accepted."""
    found = _failed(star(Requirement("soon", outage=200.0, when="H fails"), Requirement("at once", outage=60.0, when="H fails")), threads)
    rows = _rows(found)
    assert {name: row["requirements"] for name, row in rows.items()} == {"H": "at once", "B": "", "S-1": "", "S-2": "", "S-3": ""}
    assert set(rows["H"]["whom"].split("; ")) == {"S-1", "S-2", "S-3"}
    assert 90 <= rows["H"]["broken_seconds"] <= 130 and rows["H"]["broken_seconds"] == pytest.approx(rows["H"]["silent_seconds"])
    assert rows["H"]["cut_off"] == rows["H"]["lost"] == "" and (rows["H"]["role"], rows["B"]["role"]) == ("host", "backup")
    only = _failed(star(), threads, nodes="hosts", seeds=8)
    assert sorted(only.nodes["failed"]) == ["B", "H"]


def test_a_failure_for_a_time(threads: Executor) -> None:
    """R-1 is gone for a minute: packets of those behind wait, and come late but for those that were put in the last half of it."""
    found = _failed(chain(Requirement("all", share=0.99)), threads, nodes=["R-1"], at=240, duration=60, seeds=32)
    row = found.nodes.iloc[0]
    assert row["breaks"] == 1 and set(row["whom"].split("; ")) == {"R-2", "R-3"} and 24 <= row["broken_seconds"] <= 120
    assert 60 <= row["silent_seconds"] <= 180 and "for 60 s at 240 s" in found.remarks()[0]
    assert _failed(chain(Requirement("all", share=0.99)), threads, nodes=["R-1"], at=700, duration=5, seeds=8).requirements["packets"].sum() >= 0


def test_it_is_judged_as_verify_judges(threads: Executor) -> None:
    """Any one node fails: the verdict is that of the worst failure, with the same value and interval."""
    text = asked("level", tag="level", ratio=0.8, when="any one node fails", at=240)
    verdict = planning.verdicts(pumps_plan(text), 32, executor=threads, progress=False).iloc[0]
    found = _failed(pumps_plan(text), threads, at=240, seeds=32).requirements
    worst = found.sort_values("value").iloc[0]
    assert verdict["worst"] == f"{worst['worst']} without {worst['failed']}" and verdict["verdict"] == worst["verdict"] == "not met"
    assert (verdict["value"], verdict["high"], verdict["draws"]) == (worst["value"], worst["high"], worst["draws"])
    named = verdict["helps"].removeprefix("it breaks without ").split(";")[0]
    assert set(named.split(", ")) == set(found.loc[found["value"] < found["wanted"], "failed"]) >= set(found.loc[found["breaks"], "failed"])


def test_what_is_not_met_as_planned_breaks_by_others_only(threads: Executor) -> None:
    plan = halls(Requirement("all", share=0.9))
    found = _failed(plan, threads, seeds=8)
    assert _rows(found)["near"]["breaks"] == 0 and "all is not met as planned already" in found.remarks()[1]
    lone = _rows(found)["H"]
    # Without the host also the near one gets nothing through.
    assert (lone["breaks"], lone["whom"]) == (1, "near")


def test_lives_and_membership(threads: Executor) -> None:
    """Without the valve the tank searches on and on, so its battery is sooner empty, and it is no member in time."""
    text = asked("lives", years=0.2, nodes=["tank"]) + asked("members", joined=60, nodes=["tank"]) + asked("mostly", tag="level", ratio=0.5, part=0.5)
    found = _failed(pumps_plan(text, near=1.0), threads, nodes=["valve"], seeds=8)
    rows = {(row["failed"], row["requirement"]): row for _, row in found.requirements.iterrows()}
    assert rows["valve", "lives"]["breaks"] and math.isnan(rows["valve", "lives"]["broken_seconds"]) and rows["valve", "lives"]["unit"] == "years"
    assert rows["valve", "members"]["breaks"] and rows["valve", "members"]["value"] > 60
    assert rows["valve", "mostly"]["breaks"] and rows["valve", "mostly"]["unit"] == "of draws" and math.isnan(rows["valve", "mostly"]["broken_seconds"])
    assert _rows(found)["valve"]["requirements"] == "lives; members; mostly" and "tank" in _rows(found)["valve"]["lost"]


def test_what_arithmetic_says(threads: Executor) -> None:
    """The only host: nothing arrives without it, in any run; and a deadline below a round can't be had at all."""
    found = _failed(chain(Requirement("back", outage=100.0, when="H fails"), Requirement("at once", share=0.9, deadline=0.5)), threads, seeds=8)
    rows = {(row["failed"], row["requirement"]): row for _, row in found.requirements.iterrows()}
    assert rows["H", "back"]["verdict"] == "impossible" and rows["H", "back"]["breaks"] and rows["H", "back"]["whom"] == "R-1; R-2; R-3"
    assert rows["R-1", "at once"]["planned"] == "impossible" and not rows["R-1", "at once"]["breaks"] and rows["R-1", "back"]["verdict"] == "not met"
    assert any("at once is impossible as planned already" in remark for remark in found.remarks())
    nothing = _failed(chain(Requirement("at once", share=0.9, deadline=0.5)), threads)
    assert nothing.nodes["draws"].tolist() == [0] * 4 and nothing.nodes["cut_off"][0] == "R-1; R-2; R-3" and "-" in failing_text.text(nothing)


def test_a_node_whose_stream_is_all_that_is_asked_for(threads: Executor) -> None:
    found = _failed(ring(Requirement("one", share=0.5, streams=["R-1"])), threads, nodes=["R-1", "R-3"], seeds=8)
    assert found.requirements["failed"].tolist() == ["R-3"] and set(found.nodes["failed"]) == {"R-1", "R-3"}


def test_links_that_count_for_who_is_cut_off() -> None:
    """A weak second way counts if the least ratio lets it, and an island is none that a failure cuts off."""
    links = [("H", "A"), ("A", "B")]
    plan = made(nodes("H A B C"), links, ["H"], [stream("B")], [Requirement("all", share=0.5)], events=[Event(node="A", at=10.0, ratio=0.0)])
    plan.links.append(replace(plan.links[0], sender="H", receiver="B", ratio=0.4))
    assert cutting.cut_off(plan, ["H", "A", "C"], 0.5) == {"H": ["A", "B"], "A": ["B"], "C": []}
    assert cutting.cut_off(plan, ["A"], 0.4) == {"A": []}


def test_nodes_that_lost_their_host() -> None:
    """In half of the draws, for three quarters of the time: of 40 frames 30, more than as planned with the same seed."""
    planned = [{"a": 5, "b": 5, "c": 40}, {"a": 5, "b": 5, "c": 40}]
    failed = [{"a": 35, "b": 34, "c": 60}, {"a": 5, "b": 90, "c": 60}, {"a": 0, "b": 0, "c": 99}]
    assert cutting.lost(planned, failed, 40) == ["a", "b"]
    assert cutting.lost([], failed, 40) == []


# Verdicts of several cases.


def test_a_judgement_of_each_case() -> None:
    """`judge` says what the worst of them is; those that break it have an interval on the wrong side, with the error of all."""
    rule = Rule(0.9, most=32)
    bad = [Unit("good", [1.0] * 32, [20] * 32), Unit("none", [0.0] * 32, [20] * 32), Unit("half", [0.5] * 32, [20] * 32)]
    good = [Unit("good", [1.0] * 32, [20] * 32)]
    first, second = judging.judgements(rule, bad, good)
    whole = judging.judge(rule, bad, good)
    assert (first.verdict, first.broken, second.verdict, second.broken) == ("not met", ("none", "half"), "met", ())
    assert (whole.verdict, whole.broken, whole.worst, whole.low, whole.high) == (first.verdict, first.broken, "none", first.low, first.high)
    most = Rule(10.0, is_share=False, at_least=False, most=32)
    late = judging.judge(most, [Unit("late", list(np.linspace(30, 40, 32))), Unit("soon", list(np.linspace(1, 2, 32)))])
    assert late.broken == ("late",)
    part = Rule(0.9, part=0.9, most=32)
    assert judging.judge(part, bad).broken == ("none", "half")
    mixed = [Unit("one", [0.0, 1.0] * 16), Unit("other", [1.0, 0.0] * 16)]
    assert judging.judge(part, mixed).broken == ("one", "other")
    rare = [Unit(f"unit {number}", [0.0 if seed % 10 == number else 1.0 for seed in range(30)]) for number in range(10)]
    assert judging.judge(replace(part, part=0.9), rare).broken == ("unit 0",)
    assert judging.judge(rule, good).broken == ()


def test_networks_with_other_events() -> None:
    """As those that are made anew; an event that does not fit is an error."""
    plan = chain(events=[Event(node="R-3", at=100.0, duration=50.0)])
    more = [*plan.events, Event(node="R-1", at=240.0, off=True)]
    drawer = plan.drawer()
    assert drawer.network(3).network_text(warn=False) == plan.network(3).network_text(warn=False)
    assert drawer.with_events(more).network(3).network_text(warn=False) == replace(plan, events=more).network(3).network_text(warn=False)
    for seed in range(20):
        drawer.network(seed)
    with pytest.raises(PlanError, match="`node` is 'R-9', and no node has this name; did you mean R-"):
        drawer.with_events([Event(node="R-9", at=1.0)])


# What is asked wrongly.


@pytest.mark.parametrize(
    ("given", "said"),
    [
        ({"nodes": ["R-4"]}, "`nodes` is 'R-4', and no node has this name; did you mean R-"),
        ({"nodes": "H R-1"}, "`nodes` is 'H R-1', and no node has this name"),
        ({"nodes": []}, "`nodes` is empty"),
        ({"nodes": ["spare"]}, "`nodes` has spare, which is a candidate and no node yet, so it can't fail"),
        ({"at": 720}, "`at` is 720, and has to be a number from 0 to below 720, the seconds of the run"),
        ({"at": -1}, "`at` is -1, and has to be a number of at least 0"),
        ({"at": math.nan}, "`at` is nan"),
        ({"at": "240"}, "`at` is '240', and has to be a number of at least 0; write 240 without quotes"),
        ({"duration": 0}, "`duration` is 0, and has to be a number above 0"),
        ({"seeds": 0}, "`seeds` is 0, and has to be a whole number from 1 to 10,000"),
        ({"jobs": 0}, "`jobs` is 0"),
        ({"least_ratio": 1.5}, "`least_ratio` is 1.5, and has to be a number from 0 to 1"),
    ],
)
def test_what_is_no_failure(given: dict[str, object], said: str) -> None:
    plan = chain()
    plan.nodes["spare"] = replace(plan.nodes["R-3"], name="spare", id=None, candidate=True)
    with pytest.raises(ValueError, match=said.replace("(", r"\(")):
        planning.failures(plan, progress=False, **given)  # type: ignore[arg-type]


def test_what_is_no_plan() -> None:
    with pytest.raises(ArgumentError, match="`plan` is a PlanNetwork, and has to be a Plan"):
        planning.failures(chain().network())  # type: ignore[arg-type]
    with pytest.raises(ArgumentError, match=r"has no \[\[requirement\]\], so there is nothing that breaks"):
        planning.failures(replace(chain(), requirements=[]))


# The command.


@pytest.fixture(scope="module")
def file(tmp_path_factory: pytest.TempPathFactory) -> str:
    path = tmp_path_factory.mktemp("plan") / "chain.toml"
    path.write_text(chain().text(), encoding="utf-8")
    return str(path)


def test_the_command(file: str, tmp_path: Path, capsys: pytest.CaptureFixture[str]) -> None:
    words = ["failures", file, "--jobs", "1", "--nodes", "R-1, R-3", "--at", "240", "--seeds", "8"]
    assert main([*words, "--json", str(tmp_path / "it.json"), "-o", str(tmp_path / "map.svg")]) == 10
    told = capsys.readouterr().out
    lines = told.splitlines()
    assert lines[0].startswith("Each node fails for good at 240 s of 720 s.") and lines[2].split()[:4] == ["failed", "role", "breaks", "for"]
    assert "R-1     node  all     R-2, R-3  to the end    480 s, R-2  R-2, R-3  R-2, R-3" in told and "of 2 nodes: 1 breaks a requirement" in told
    assert "not decided, which more draws may be (--seeds N): without R-3" in told
    read = json.loads((tmp_path / "it.json").read_text())
    assert [row["failed"] for row in read["failures"]] == ["R-1", "R-3"] and {row["requirement"] for row in read["failed-requirements"]} == {"all"}
    assert "<svg" in (tmp_path / "map.svg").read_text()
    assert main([*words[:4], "--nodes", "R-3", "--seeds", "8"]) == 11
    assert main(["failures", file, "--nodes", "R-9"]) == 1 and "did you mean R-" in capsys.readouterr().err
    assert main(["failures", str(tmp_path / "none.toml")]) == 3
    with pytest.raises(SystemExit):
        main(["failures", file, "-o", "map.gif"])
    assert "'map.gif' ends with none of .svg, .png and .pdf" in capsys.readouterr().err
    assert main([*words[:4], "--nodes", "hosts", "--for", "200", "--seeds", "8"]) == 10
    assert "to the end" not in capsys.readouterr().out


def test_in_a_notebook(threads: Executor) -> None:
    shown = _failed(chain(), threads, seeds=8)._repr_html_()
    assert shown.startswith("<p>Each node fails") and "<table" in shown and "R-2; R-3" in shown


def test_a_kill_and_what_goes_on(tmp_path: Path) -> None:
    """A command that is killed leaves whole draws; the next one takes them, and says what one says that ran through."""
    path = tmp_path / "pumps.toml"
    path.write_text(pumps(asked("level", tag="level", ratio=0.5)), encoding="utf-8")
    words = [sys.executable, "-m", "foldcairn", "failures", str(path), "--jobs", "1", "--seeds", "16", "--json"]
    environment = {**os.environ, "PYTHONPATH": str(Path(foldcairn.__file__).parents[1])}
    folder = tmp_path / "kept"
    quiet = {"stdout": subprocess.DEVNULL, "stderr": subprocess.DEVNULL}
    stopped = subprocess.Popen([*words, str(tmp_path / "one.json"), "--resume", str(folder)], env=environment, **quiet)
    until = time.monotonic() + 300
    while len(list(folder.glob("*.json"))) < 8 and time.monotonic() < until:
        time.sleep(0.02)
    stopped.send_signal(signal.SIGKILL)
    stopped.wait()
    kept = {path.name: path.stat().st_mtime_ns for path in folder.glob("*.json")}
    assert len(kept) >= 8 and not (tmp_path / "one.json").exists()
    for name, more in (("two.json", ["--resume", str(folder)]), ("three.json", [])):
        subprocess.run([*words, str(tmp_path / name), *more], env=environment, check=False, capture_output=True)
    assert (tmp_path / "two.json").read_bytes() == (tmp_path / "three.json").read_bytes()
    after = {path.name: path.stat().st_mtime_ns for path in folder.glob("*.json")}
    assert kept.items() <= after.items() and len(after) > len(kept)


def test_the_page_shows_what_comes(tmp_path: Path, monkeypatch: pytest.MonkeyPatch, capsys: pytest.CaptureFixture[str]) -> None:
    """The plan of docs/FAILURES.md, and what is said of it."""
    page = (REPOSITORY / "docs" / "FAILURES.md").read_text()
    (tmp_path / "well.toml").write_text(page.partition("```toml well.toml\n")[2].partition("```")[0])
    monkeypatch.chdir(tmp_path)
    blocks = page.split("```text\n")[1:]
    for words, status, block in zip((["failures"], ["relays"]), (10, 0), blocks):
        assert main([*words, "well.toml", "--jobs", "2"]) == status
        assert capsys.readouterr().out == block.partition("```")[0]
