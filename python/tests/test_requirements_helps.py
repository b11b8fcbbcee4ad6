"""What would help, and what can't be judged, drawn or read."""

from __future__ import annotations

from collections.abc import Iterator
from concurrent.futures import Executor, ThreadPoolExecutor

import pandas as pd
import pytest
from plans import asked, plan

from foldcairn.many.sweep import SweepStopped
from foldcairn.model.scenario import Scenario
from foldcairn.plan import PlanError
from foldcairn.requirements import counting, measuring, shown, verdicts
from foldcairn.requirements.cases import Case
from foldcairn.runs import program


@pytest.fixture(scope="module")
def threads() -> Iterator[Executor]:
    with ThreadPoolExecutor(2) as pool:
        yield pool


def _row(requirement: str, executor: Executor, seeds: int = 8, **given: object) -> pd.Series:
    """The row of the only requirement."""
    return verdicts(plan(requirement, **given), seeds, executor=executor, progress=False).iloc[0]


def _stream(source: str, to: str, **keys: object) -> str:
    """One more stream."""
    given = {"name": "more", "from": source, "to": to, **keys}
    return "[[stream]]\n" + "".join(f"{key} = {value!r}\n".replace("'", '"') for key, value in given.items())


def test_packets_that_are_lost(threads: Executor) -> None:
    """Each packet is sent at once over a link that loses most of what it is for."""
    more = _stream("gateway", "tank", every=20, interval=5, start=30, deadline=20)
    far = '[[node]]\nname = "far"\n[[link]]\nfrom = "gateway"\nto = "far"\nratio = 0.1\n'
    row = _row(asked(streams=["more"], ratio=0.999), threads, links=far, streams=more.replace('"tank"', '"far"'))
    assert row["verdict"] == "not met" and "do not reach their receivers: `sends = 3`, or a relay" in row["helps"]


def test_packets_for_which_the_queue_is_full(threads: Executor) -> None:
    streams = _stream("tank", "hosts", stream=1, every=4, interval=8, start=60)
    late = _row(asked(streams=["more"], ratio=0.51), threads, streams=streams)
    assert late["verdict"] != "met" and "its queue of 16 full" in late["helps"]


def test_packets_that_wait_too_long(threads: Executor) -> None:
    streams = _stream("valve", "hosts", stream=1, every=20, interval=18, start=60)
    row = _row(asked(streams=["more"], share=0.9, deadline=8), threads, streams=streams)
    assert row["verdict"] == "not met" and "`interval = 9` in place of 18" in row["helps"]


def test_packets_before_their_stream_is_accepted(threads: Executor) -> None:
    streams = _stream("pump", "hosts", every=10, interval=5, start=0)
    row = _row(asked(streams=["more"], share=0.99, deadline=20), threads, streams=streams, near=1.0)
    assert "before its host had accepted it: let it begin later, as `start = " in row["helps"]


def test_nodes_that_join_late(threads: Executor) -> None:
    assert "receives the rounds of its host late" in _row(asked(joined=30), threads, near=0.2)["helps"]


def test_a_relay_that_fails(threads: Executor) -> None:
    row = _row(asked(tag="level", outage=60, when="valve fails"), threads)
    assert row["verdict"] == "not met" and "what tank sends goes by valve" in row["helps"]


def test_members_after_a_failure(threads: Executor) -> None:
    """With the gateway gone all search until the pump hosts."""
    row = _row(asked(joined=60, when="gateway fails", nodes=["valve", "tank"]), threads)
    assert row["verdict"] == "not met" and row["value"] > 60


def test_what_no_draws_decide(threads: Executor) -> None:
    assert "no number of draws shows that all are in time" in _row(asked(streams=["valve"], ratio=1.0), threads, 2, near=1.0)["helps"]
    row = _row(asked(tag="level", share=0.9), threads, 2)
    same = _row(asked(tag="level", share=float(row["value"])), threads, 2)
    assert "too near to what is wanted" in same["helps"] and pd.isna(same["needs"])


def test_what_there_is_nothing_to_judge_by(threads: Executor) -> None:
    row = _row(asked(years=1, nodes="gateway"), threads)
    assert row["verdict"] == "not decided" and "no stream or node is left" in row["helps"] and row["draws"] == 0
    assert shown.interval(row) == "-"
    late = _row(asked(tag="level", share=0.5, deadline=700), threads, 2)
    assert late["verdict"] == "not decided" and "no packet of tank was due" in late["helps"]
    streams = _stream("valve", "pump", stream=1, at=[90.0])
    silent = _row(asked(streams=["more"], outage=60, when="gateway fails"), threads, 2, streams=streams)
    assert silent["verdict"] == "not decided"


def test_a_candidate_can_not_fail(threads: Executor) -> None:
    with pytest.raises(PlanError, match="`when` names relay, which is a candidate and no node yet"):
        _row(asked(tag="level", share=0.5, when="relay fails"), threads, nodes='[[node]]\nname = "relay"\ncandidate = true\n')


def test_an_executor_that_breaks_down() -> None:
    pool = ThreadPoolExecutor(1)
    pool.shutdown()
    with pytest.raises(SweepStopped, match="the executor broke down: "):
        verdicts(plan(asked(tag="level", share=0.5)), 1, executor=pool, progress=False)


def test_outputs_that_are_cut(monkeypatch: pytest.MonkeyPatch) -> None:
    network = Scenario(24, 2, 2).node(1).node(2).host(0, 1).pair(1, 2, 0.9).on().stream(2, 20, seconds=30).every(20, 2, start=31)
    whole = program.execute(["outcome", "1"], network.network_text(warn=False), program=program.find_planner())
    for cut, said in ((whole[: whole.rindex(b"cost")], "line of costs"), (whole.replace(b"deliver 13 ", b"deliver 13 13 ", 1), "is cut"),
                      (whole.replace(b" 2 1 0 0 ", b" 2 1 0 99 ", 1), "packets that the scenario has not")):  # fmt: skip
        assert cut != whole
        monkeypatch.setattr(program, "execute", lambda *_, cut=cut, **__: cut)
        with pytest.raises(program.CutOutput, match=said):
            counting.came(network, 1)


def test_a_stream_that_is_left() -> None:
    """Puts after it are dropped, and it may be requested again."""
    network = Scenario(60, 2, 2).node(1).node(2).host(0, 1).pair(1, 2, 0.9).on().stream(2, 10, seconds=30).every(10, 2, start=31, until=200)
    network.leave(2, seconds=90).stream(2, 10, seconds=150)
    came = counting.came(network, 1).by_stream({(2, 0): frozenset({1})})[2, 0]
    assert len(came.put) == 17 and set(came.put[came.of].tolist()) <= {31.0 + 10 * number for number in (*range(6), *range(12, 17))}


def test_drawers_are_kept_for_some_tasks() -> None:
    made = plan(asked(tag="level", share=0.5))
    for number in range(measuring._DRAWERS_MOST + 2):
        measuring._DRAWERS[f"other {number}"] = made.drawer()
        if number > 2:
            break
    monkey = {f"kept {number}": made.drawer() for number in range(2)}
    measuring._DRAWERS.update(monkey)
    assert measuring.measure(measuring.Task(made, Case(), (0,)), [1]) == measuring.measure(measuring.Task(made, Case(), (0,), "key", "one"), [1])
    assert "one " in measuring._DRAWERS
