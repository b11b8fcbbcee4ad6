"""Runs of hours, which are too long for a log: what a scenario says of them, and the answers that need no log."""

from __future__ import annotations

import warnings

import numpy as np
import pandas as pd
import pytest
from networks import FAILOVER
from test_planning_random import drawn, log_of_drawn

from foldcairn import outcome, planning
from foldcairn.common.arguments import ArgumentError
from foldcairn.model import cautions
from foldcairn.model.events import Leave
from foldcairn.model.scenario import Scenario, ScenarioWarning, grid, line
from foldcairn.runs import program, results

LONG = "which with 34 nodes are 481 frames, or 32 minutes, and this network has 720 \\(48 minutes\\); for all of it take `results.outcome`"


def told(build) -> list[str]:
    """What is said while a scenario is made and copied."""
    with warnings.catch_warnings(record=True) as found:
        warnings.simplefilter("always")
        build().copy().on(frame=3)
    return [str(one.message) for one in found if issubclass(one.category, ScenarioWarning)]


def tables() -> tuple[pd.DataFrame, pd.DataFrame]:
    ids = range(1, 35)
    return pd.DataFrame({"id": ids, "host": [0, *[None] * 33]}), pd.DataFrame({"from": ids[:-1], "to": ids[1:], "both": "yes"})


@pytest.mark.parametrize(
    "build",
    [
        lambda: Scenario.from_graph(line(34), 720, hosts=[1]),
        lambda: Scenario.from_tables(*tables(), frames=720),
        lambda: Scenario.read("frames 720\nsends 1\n" + "".join(f"node {node} 0\n" for node in range(1, 35)) + "host 0 1\n"),
        lambda: Scenario(720, nodes=dict.fromkeys(range(1, 35), 0)),
    ],
)
def test_what_is_too_long_for_a_log_is_said_at_once(build) -> None:
    with pytest.warns(ScenarioWarning, match=LONG):
        build()
    assert len(told(build)) == 1
    # It is no error, and `outcome` says nothing of it.
    assert not any("`run` and `log` without a seed" in one for one in cautions.of(build(), long=True))


def test_it_is_said_once_of_a_network_that_grows() -> None:
    def build() -> Scenario:
        made = Scenario(4_096)
        for node in range(1, 9):
            made.node(node)
        return made

    (words,) = told(build)
    assert "with 5 nodes are 3,276 frames, or 218 minutes, and this network has 4,096 (273 minutes)" in words
    assert told(lambda: Scenario.from_graph(line(16), 1_024, hosts=[1])) == []
    # More nodes than there may be is another fault.
    assert told(lambda: Scenario.from_graph(line(65), 4_096, hosts=[1])) == []


def test_longer_runs_than_any() -> None:
    made = Scenario.from_graph(line(64), 4_096, hosts=[1])
    assert len(results.bus(made).energy) == 64
    made.node(200)
    with pytest.raises(program.Refused, match="at most 64 nodes"):
        results.bus(made)
    with pytest.raises(program.Refused, match="64 nodes times 360 frames are 23,040, and at most 16,384 are run"):
        results.log(Scenario.from_graph(line(64), 360, hosts=[1]))


def test_more_script_lines_than_a_run_takes() -> None:
    made = Scenario.from_graph(line(2), 12, hosts=[1]).stream(2, 4).put(2)
    few = results.bus(made)
    # A stream that was never requested ends again and again.
    made.script += [Leave(11, 1, 0)] * 20_000
    with pytest.raises(program.Refused, match="at most 20,000 lines of its script, and this is one more: take fewer, or `outcome`, `fates` and `sample`"):
        results.run(made, timeout=60)
    assert not made.is_for_run and len(few.deliveries) == 1
    for report in (results.bus(made), outcome(made, 7)):
        assert report.deliveries.equals(few.deliveries) and report.energy.equals(few.energy)
    assert results.fates(made, 7)["became"].tolist() == ["sent"]


def test_answers_of_64_nodes_over_five_hours() -> None:
    network = Scenario.from_graph(grid(8, 8, diagonals=True), 4_096, hosts=[1, 36], profile=2).sinks("hosts")
    for link in sorted(network.links):
        network.link(*link, prr=0.9)
    for node in (8, 57, 64):
        network.stream(node, 60, seconds=40 * node).every(80, node, start=40.0 * node)
    network.off(1, seconds=10_000)
    report = outcome(network, 3)
    assert report.origin.seed == 3 and len(report.deliveries) > 20_000
    ratio = planning.delivery_ratio(report)
    assert ratio["ratio_of_put"].between(0.9, 1).all() and (ratio["put"] >= ratio["sent"]).all()
    assert (ratio["sent"] >= ratio["sent_while_on"]).all() and (ratio["sent_while_on"] >= ratio["delivered"]).all()
    assert planning.fates(report, "all")["puts"].tolist() == [sum(ratio["put"])]
    # Slots come every 60 s, and the search for the other host takes less than 36 of 5 s each.
    assert planning.latency(report, "all")["max_seconds"][0] < 1_000
    assert planning.deadline(report, 120, "all")["share"][0] > 0.8
    duty = planning.duty_cycle(report)
    assert len(duty) == 64 and duty["duty_cycle"].between(0, 0.1).all() and (planning.battery_life(report)["days"] > 0).all()
    told = planning.summary(report)
    assert told["ratio_of_put"] == planning.delivery_ratio(report, "all")["ratio_of_put"][0] and set(told) < set(planning.summary(FAILOVER))
    # A scenario that is too long for a log is run by the bus.
    assert planning.summary(network.copy().unlink(1, 2))["ratio_of_put"] > 0.9
    for call in (planning.outages, planning.hosts, planning.radio_time):
        with pytest.raises(ArgumentError, match="takes the log of a run, and was given a Report"):
            call(report)


@pytest.mark.parametrize("seed", range(2))
def test_answers_without_a_log_are_those_of_the_log(seed: int) -> None:
    network = drawn(seed)
    log, report, run = log_of_drawn(seed), results.bus(network), results.run(network)
    for by in ("stream", "node", "pair", "all"):
        for receivers in (None, "hosts", [2, 3]):
            with_log, without = (planning.delivery_ratio(one, by, receivers=receivers) for one in (log, report))
            pd.testing.assert_frame_equal(with_log, without)
    # Times are by plan: ends of slots with what the slowest clock may lose, and clocks are up to 4 ms ahead. So they are never too low, and
    # by less than a slot and twice that too high.
    columns = ["node", "source", "boot", "stream", "number"]
    with_log = planning.latencies(log).set_index(columns)["latency_seconds"]
    without = planning.latencies(report).set_index(columns)["planned_latency_seconds"]
    assert len(with_log) == len(without) > 0 and (without.reindex(with_log.index) - with_log).between(0, 0.056 + 0.02 + 0.004).all()
    pd.testing.assert_frame_equal(planning.fates(report), planning.fates(log))
    # The cost by plan is no less than that of the log, and that of `run` is the same.
    spent, charged, exact = (planning.duty_cycle(one).set_index("node") for one in (log, report, run))
    assert (charged["on_seconds"] >= spent["on_seconds"]).all() and np.allclose(exact["on_seconds"], spent["on_seconds"])
    assert np.allclose(charged["transmit_seconds"], spent["transmit_seconds"])
    assert np.allclose(charged["duty_cycle_in_rounds"], spent["duty_cycle_in_rounds"], atol=2e-4)
    assert (exact["searching_seconds"] - spent["searching_seconds"]).abs().max() < 0.1
    with pytest.raises(ArgumentError, match="tells the cost of the whole run alone"):
        planning.duty_cycle(report, start_seconds=10)
