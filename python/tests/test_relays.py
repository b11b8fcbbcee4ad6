"""What a relay mends at candidate places: plants of which that is known by hand, and the command `relays`."""

from __future__ import annotations

import json
from collections.abc import Iterator
from concurrent.futures import Executor, ThreadPoolExecutor
from dataclasses import replace
from pathlib import Path

import pytest
from plants import chain, halls, made, nodes, stream

from foldcairn import planning
from foldcairn.__main__ import main
from foldcairn.common.arguments import ArgumentError
from foldcairn.plan import Floor, Link, Losses, Node, Plan, Requirement
from foldcairn.requirements import failing_text
from foldcairn.requirements.relaying import Relays


@pytest.fixture(scope="module")
def threads() -> Iterator[Executor]:
    with ThreadPoolExecutor(2) as pool:
        yield pool


def _relays(plan: Plan, executor: Executor, **given: object) -> Relays:
    return planning.relays(plan, executor=executor, progress=False, **given)  # type: ignore[arg-type]


def test_the_place_between_mends_the_far_one(threads: Executor) -> None:
    plan = halls(Requirement("all", share=0.9), Requirement("at once", share=0.9, deadline=0.5))
    found = _relays(plan, threads)
    assert found.places["candidate"].tolist() == ["between", "aside", "nothing"] and found.broken == 1 and found.status() == 0
    assert found.places["mended"].tolist() == [1, 0, 0] and found.places["gain"].tolist() == [1.0, 0.0, 0.0] and found.places["met"].tolist() == [1, 0, 0]
    best = found.requirements.set_index("candidate").loc["between"]
    assert (best["verdict"], best["before"], best["mended"], best["broken"]) == ("met", "not met", 1, 1) and best["value"] > 0.9 > best["value_before"]
    assert found.remarks()[0] == "all is not met: it does not hold for far." and found.remarks()[1].startswith("at once is impossible, with a relay or without")
    assert repr(found) == "<Relays: 3 places, 1 broken, the best mends 1>" and "<table" in found._repr_html_()
    # What is said of the place is what a verdict says of the plan with a node there.
    verdict = planning.verdicts(replace(plan.with_relays("between"), requirements=plan.requirements[:1]), 32, executor=threads, progress=False).iloc[0]
    assert (verdict["verdict"], verdict["value"]) == (best["verdict"], best["value"])


def test_a_second_way_for_a_failure(threads: Executor) -> None:
    """In a chain those behind a relay are cut off where it fails; another one beside it mends that, in this failure alone."""
    plan = chain(Requirement("any", share=0.5, when="any one node fails"))
    for name, ends in (("past R-1", ("H", "R-2")), ("past R-2", ("R-1", "R-3"))):
        plan.nodes[name] = Node(name, x=0.0, y=5.0, candidate=True)
        plan.links += [Link(name, end, 1.0, both=True) for end in ends]
    plan.check()
    found = _relays(plan, threads, seeds=8)
    whom = dict(zip(found.places["candidate"], found.places["whom"]))
    # Without the host nothing mends what all three have lost.
    assert whom == {"past R-1": "R-2 without R-1; R-3 without R-1", "past R-2": "R-3 without R-2"} and found.broken == 6 and found.status() == 10
    assert found.places["candidate"].tolist() == ["past R-1", "past R-2"] and found.requirements["verdict"].eq("not met").all()


def test_nothing_is_broken(threads: Executor) -> None:
    found = _relays(halls(Requirement("near", share=0.9, streams=["near"])), threads)
    assert (found.broken, len(found.places), found.status()) == (0, 0, 0) and "no relay is asked for" in failing_text.of_relays(found)
    assert repr(found) == "<Relays: 0 places, 0 broken>"


def test_times_that_are_too_long(threads: Executor) -> None:
    """Of a number that is to be small, a relay brings it nearer; one without a battery has no life to be judged."""
    plan = halls(Requirement("soon", joined=60.0, nodes=["far"]), Requirement("lives", years=0.001))
    found = _relays(plan, threads, candidates=["between", "nothing"], seeds=8)
    assert found.places["candidate"][0] == "between" and found.places["whom"][0] == "far" and found.places["gain"][0] == 1.0


def _on_a_floor() -> Plan:
    """Two nodes 119 m apart, of which the model says that they hear nothing of each other, on a floor of 120 by 20 m."""
    losses = Losses(source="positions", exponent=3.1, deviation_db=0.0)
    plan = made(nodes("H far", y=10.0, step=119.0), [], ["H"], [stream("far")], [Requirement("all", share=0.9)], seeds=16, losses=losses)
    plan.floor = Floor(extent=[0.0, 0.0, 120.0, 20.0])
    plan.check()
    return plan


def test_places_on_a_grid(threads: Executor) -> None:
    """Six columns 20 m wide, with places in the middle of each: links of 69 m pass 99 % by the model, and those of 89 m hardly anything, so the two in the
    middle mend it."""
    found = _relays(_on_a_floor(), threads, grid=20.0, seeds=8)
    assert sorted(found.places["x"]) == [10.0, 30.0, 50.0, 70.0, 90.0, 110.0] and set(found.places["y"]) == {10.0}
    assert set(found.places["candidate"][:2]) == {"50, 10", "70, 10"} and found.places["mended"].tolist() == [1, 1, 0, 0, 0, 0]
    assert found.plan.nodes["50, 10"].candidate and found.plan.nodes["50, 10"].is_on_mains


def test_floors_have_places_of_their_own(threads: Executor) -> None:
    plan = _on_a_floor()
    plan.floor, plan.losses.floor_db = Floor(), 14.0
    plan.nodes["far"].floor, plan.nodes["far"].y = 1, 50.0
    found = _relays(replace(plan, requirements=[Requirement("none", share=0.001)]), threads, grid=60.0, seeds=1)
    assert [name for name in found.plan.candidates] == ["59.5, 30 on 0", "59.5, 30 on 1"]


@pytest.mark.parametrize(
    ("given", "said"),
    [
        ({"candidates": ["betwen"]}, "`candidates` is 'betwen', and no candidate has this name; did you mean between?"),
        ({"candidates": ["near"]}, "`candidates` is 'near', and no candidate has this name"),
        ({"candidates": "H"}, "`candidates` is 'H', and no candidate"),
        ({"candidates": []}, "there is no candidate: write `candidate = true`"),
        ({"candidates": ["between"], "grid": 10}, "`candidates` and `grid` are both given; keep one of these"),
        ({"grid": 10}, "`grid` needs ratios of positions, and `from` of .losses. is survey; write positions or both"),
        ({"grid": 0}, "`grid` is 0, and has to be a number above 0"),
        ({"seeds": 0}, "`seeds` is 0"),
        ({"jobs": "two"}, "`jobs` is 'two'"),
    ],
)
def test_what_is_no_place(given: dict[str, object], said: str) -> None:
    with pytest.raises(ValueError, match=said.replace("?", r"\?")):
        planning.relays(halls(), progress=False, **given)  # type: ignore[arg-type]


def test_what_is_no_plan() -> None:
    with pytest.raises(ArgumentError, match="`plan` is a str, and has to be a Plan"):
        planning.relays("plan.toml")  # type: ignore[arg-type]
    with pytest.raises(ArgumentError, match="so there is nothing to mend"):
        planning.relays(replace(halls(), requirements=[]))
    with pytest.raises(ArgumentError, match="`grid` is 1, which makes 2,400 places, and there is room for 198; write more metres"):
        planning.relays(_on_a_floor(), grid=1.0)
    plan = halls()
    plan.losses.source = "both"
    for node in plan.nodes.values():
        node.x = node.y = None
    with pytest.raises(ArgumentError, match="`grid` is 9, and no node has a place"):
        planning.relays(plan, grid=9)


def test_the_command(tmp_path: Path, capsys: pytest.CaptureFixture[str]) -> None:
    path = tmp_path / "halls.toml"
    path.write_text(halls().text(), encoding="utf-8")
    words = ["relays", str(path), "--jobs", "1", "--seeds", "8"]
    assert main([*words, "--candidates", "between, nothing", "--json", str(tmp_path / "it.json"), "-o", str(tmp_path / "map.svg")]) == 0
    told = capsys.readouterr().out
    assert "place    mends   nearer by  requirements met  mended  draws" in told and "between  1 of 1  100 %" in told and "nothing  0 of 1  0 %" in told
    read = json.loads((tmp_path / "it.json").read_text())
    assert [row["candidate"] for row in read["relays"]] == ["between", "nothing"] and len(read["mended-requirements"]) == 2
    assert "a relay here mends all" in (tmp_path / "map.svg").read_text()
    assert main([*words, "--candidates", "nothing"]) == 10
    assert main([*words, "--grid", "10"]) == 1 and "`grid` needs ratios of positions" in capsys.readouterr().err
