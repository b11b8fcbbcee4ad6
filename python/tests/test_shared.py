"""Scenarios and what they are given are no one else's: a copy that changes changes nothing else. And what can be gone through once
alone, as a generator, counts as what can be gone through again."""

from __future__ import annotations

from collections.abc import Iterator
from dataclasses import fields, replace

import numpy
import pandas
import pytest

from foldcairn import planning
from foldcairn.draw import plot
from foldcairn.model.scenario import Cut, Loss, Rate, Scenario, line
from foldcairn.pages import page, report
from foldcairn.runs import results

WHOM = [1, 2]


def network() -> Scenario:
    """Three nodes in a line, of which the last has a packet each 8 s."""
    return Scenario(60).node(1).node(2).node(3).host(0, 1).pair(1, 2, 0.9).pair(2, 3, 0.9).on().stream(3, 4).every(8, 3)


@pytest.fixture(scope="module")
def log() -> results.Log:
    return results.log(network(), warn=False)


# What is shared.


def test_a_plan_that_was_made_of_another(log: results.Log) -> None:
    """By `dataclasses.replace`, as PLANNING has it, by `copy`, or of what a log has."""
    for made in (lambda one: replace(one, sends=1), Scenario.copy, lambda one: replace(one)):
        one = network().sinks({3: [1]}).ratio(1, 2, 0.5, frame=9)
        before = one.network_text(warn=False)
        other = made(one)
        other.off(3, frame=20).node(4).pair(3, 4, 0.3).rate(4, 3).host(1, 4).ratio(1, 2, 0.1, frame=5)
        other.lose(1, 0, 0, 1, 2).cut(1, 0, 0, 1).capture(1, 0, 0, 1, 2).stream(4, 9, keep_alive=30)
        other.labels[4], other.receivers[4] = "four", "all"
        other.receivers[3].append(2)
        assert one.network_text(warn=False) == before and one.receivers == {3: [1]} and not one.keep_alive and not one.remarks
        assert list(one.nodes) == [1, 2, 3] and len(one.links) == 4 and not one.labels and len(one.hosts) == 1


def test_no_container_of_a_scenario_is_anothers() -> None:
    one = network()
    for other in (replace(one), one.copy()):
        for what in fields(Scenario):
            if isinstance(getattr(one, what.name), (dict, list, set)):
                assert getattr(one, what.name) is not getattr(other, what.name), what.name
    assert replace(one) == one


def test_what_the_caller_keeps() -> None:
    whom, nodes, links = {3: WHOM, "others": "all"}, {1: 0, 2: 0}, {(1, 2)}
    made = Scenario(9, nodes=nodes, links=links).node(3).sinks(whom)
    whom[3] = "hosts"
    nodes[9] = links.pop()[0]
    assert made.receivers == {3: [1, 2], "others": "all"} and 9 not in made.nodes and made.links == {(1, 2)}
    made.receivers[3].append(3)
    assert WHOM == [1, 2]


def test_receivers_that_are_said_after_an_answer(log: results.Log) -> None:
    """An answer that was worked out for other receivers does not come again: three hops deliver to two nodes, and the host is one."""
    asked = results.log(network(), warn=False)
    put = len([event for event in asked.scenario.script if hasattr(event, "payload")])
    assert planning.delivery_ratio(asked, "all")["put"][0] == 2 * put
    asked.scenario.sinks("hosts")
    assert planning.delivery_ratio(asked, "all")["put"][0] == put
    asked.scenario.sinks({3: [2]})
    asked.scenario.receivers[3].append(1)
    assert planning.delivery_ratio(asked, "all")["put"][0] == 2 * put
    asked.scenario.keep_alive.add((3, 0))
    asked.scenario.put(3, frame=8)
    assert planning.delivery_ratio(asked, "all")["put"][0] == 2 * put


# What can be gone through once.


def once() -> Iterator[int]:
    return (node for node in WHOM)


def test_receivers_that_come_once(log: results.Log) -> None:
    assert network().sinks(once()).receivers == WHOM and network().sinks(range(1, 3)).receivers == WHOM
    assert network().sinks({3: once()}).receivers == {3: WHOM} and network().sinks(numpy.array([1, 2])).receivers == WHOM
    assert Scenario(9, links=((1, other) for other in (2, 3)), receivers=once()).links == {(1, 2), (1, 3)}
    for ask in (planning.latency, planning.delivery_ratio):
        for given in (once, lambda: map(int, WHOM), lambda: pandas.Series(WHOM), lambda: numpy.arange(1, 3), lambda: dict.fromkeys(WHOM).keys()):
            assert ask(log, "node", receivers=given()).equals(ask(log, "node", receivers=WHOM))
    assert planning.summary(log, receivers=once()) == pytest.approx(planning.summary(log, receivers=WHOM), nan_ok=True)
    told = planning.tables(log, receivers=once())
    assert all(table.equals(told[name]) for name, table in planning.tables(log, receivers=WHOM).items())
    made = page.Settings.of(log.scenario, receivers=once())
    assert made.whom() == WHOM


def test_seeds_that_come_once() -> None:
    """Also as an array, whose numbers are numpy's."""
    plain, plans = [1, 2], {"A": network(), "B": replace(network(), sends=1)}
    given = (lambda: (seed for seed in plain), lambda: numpy.arange(1, 3), lambda: pandas.Series(plain))
    room = planning.capacity(network(), 60, seeds=plain, sources=[2], progress=False)
    assert planning.capacity(network(), 60, seeds=given[1](), sources=(node for node in [2]), progress=False).equals(room)
    for by, ways in (("sample", given), ("log", given[:1])):
        expected = report.compare(plans, seeds=plain, receivers=WHOM, by=by, progress=False).table
        assert all(report.compare(plans, seeds=way(), receivers=once(), by=by, progress=False).table.equals(expected) for way in ways)
    expected = planning.sample(network(), plain, receivers=WHOM, progress=False).delivery_ratio()
    assert all(planning.sample(network(), way(), receivers=once(), progress=False).delivery_ratio().equals(expected) for way in given)
    expected = planning.importance(network(), seeds=plain, receivers=WHOM, candidates=[(1, 2)], progress=False)
    for way in given:
        assert planning.importance(network(), seeds=way(), receivers=once(), candidates=(link for link in [(1, 2)]), progress=False).equals(expected)


def test_hosts_and_links_that_come_once() -> None:
    graph = line(3)
    for given in ((node for node in (2, 1)), numpy.array([2, 1]), (2, 1)):
        assert Scenario.from_graph(graph, 9, hosts=given).hosts == {0: 2, 1: 1}
    figure = plot.topology(network(), failed=(link for link in [(1, 2)]))
    assert figure.axes[0].get_xlim() == plot.topology(network(), failed=[(1, 2)]).axes[0].get_xlim()


def test_containers_have_their_kinds() -> None:
    given = Scenario(
        9, nodes=[(1, 0), (2, 0)], links=[(1, 2)], rates=(Rate(1, 0, 3),), losses={Loss(0, 0, 0, 1, 2)}, cuts=iter([Cut(0, 0, 0, 1)])
    )  # type: ignore[arg-type]  # fmt: skip
    assert (given.nodes, given.links, given.rates, given.losses) == ({1: 0, 2: 0}, {(1, 2)}, [Rate(1, 0, 3)], [Loss(0, 0, 0, 1, 2)])
    assert given.cuts == [Cut(0, 0, 0, 1)]
