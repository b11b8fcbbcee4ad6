"""What a call can't take is told by its name, its value, its range and what to write, never by a traceback from inside."""

from __future__ import annotations

import math
from pathlib import Path

import networkx
import numpy
import pandas
import pytest
from networks import LINE, log_of

from foldcairn import planning
from foldcairn.common import arguments
from foldcairn.common.arguments import ArgumentError
from foldcairn.draw import plot
from foldcairn.model import tables
from foldcairn.model.scenario import Put, Scenario, ScenarioError
from foldcairn.pages import export, page
from foldcairn.runs import losses, program, results, running


@pytest.fixture(scope="module")
def log() -> results.Log:
    return log_of(LINE)


def two(**more: object) -> Scenario:
    return Scenario(20, **more).node(1).node(2).host(0, 1).pair(1, 2)  # type: ignore[arg-type]


def test_whole_numbers() -> None:
    for value in (3, 3.0, numpy.int64(3), numpy.uint8(3), numpy.float64(3)):
        assert arguments.whole("n", value, 1, 9) == 3 and type(arguments.whole("n", value)) is int
    for value in (3.5, math.inf, math.nan, True, numpy.bool_(True), "x", None, [3]):
        with pytest.raises(ArgumentError, match="`n` is .*, and has to be a whole number from 1 to 9$"):
            arguments.whole("n", value, 1, 9)
    with pytest.raises(ArgumentError, match="`n` is 10, and has to be a whole number of at most 9"):
        arguments.whole("n", 10, high=9)
    with pytest.raises(ArgumentError, match="of at least 1; write 3 without quotes"):
        arguments.whole("n", " 3 ", 1)


def test_numbers() -> None:
    assert arguments.real("x", numpy.float32(0.5), 0, 1) == 0.5
    for value in (math.nan, math.inf, "one", None, b"1", True, 1j):
        with pytest.raises(ArgumentError, match="`x` is .*, and has to be a number from 0 to 1$"):
            arguments.real("x", value, 0, 1)
    with pytest.raises(ArgumentError, match="above 0"):
        arguments.real("x", 0, above=0)


def test_texts(tmp_path: Path) -> None:
    path = tmp_path / "line.scenario"
    path.write_text(LINE)
    assert arguments.text("text", LINE) == arguments.text("text", path) == arguments.text("text", bytearray(LINE.encode()))
    with pytest.raises(ArgumentError, match="`text` is an int, and has to be a text, its bytes, or the pathlib.Path of a file"):
        arguments.text("text", 5)


def test_payloads() -> None:
    assert arguments.payload("payload", bytearray(b"ab")) == b"ab"
    with pytest.raises(ArgumentError, match=r"write b'aa', or bytes.fromhex\('aa'\)"):
        arguments.payload("payload", "aa")
    with pytest.raises(ArgumentError, match=r"`payload` is 5, and has to be bytes; write bytes\(\[5\]\) for one byte"):
        arguments.payload("payload", 5)
    with pytest.raises(ArgumentError, match="`payload` is None, and has to be bytes$"):
        arguments.payload("payload", None)


@pytest.mark.parametrize(
    ("build", "says"),
    [
        # A number that is a count of zero bytes to bytes().
        (lambda: two().put(2, 5), "`payload` is 5, and has to be bytes"),
        (lambda: two().put(2, 10**10), "`payload` is 10000000000, and has to be bytes"),
        (lambda: two().put(2, "aa"), "write b'aa'"),
        (lambda: Scenario("12"), "'12', the number of frames, is a whole number from 1 to 4,096; write 12 without quotes"),
        (lambda: Scenario(12, profile=2, contend="3"), "'3', the number of contention slots, is a whole number from 1 to 4; write 3"),
        (lambda: two().link(1, 2, prr="0.5"), "`prr` is '0.5', and has to be a number from 0 to 1; write 0.5 without quotes"),
        (lambda: two().on(1, seconds="10"), "`seconds` is '10', and has to be a number; write 10 without quotes"),
        (lambda: two().rate(1, 3, seconds=math.nan), "`seconds` is nan, and has to be a number"),
        (lambda: two().on(1, seconds=math.inf), "`seconds` is inf, and has to be a number"),
        (lambda: two().node(3, ppm=True), "True, the drift, is a whole number from -20 to 20 ppm"),
        (lambda: two().every(math.nan, 2), "`seconds` is nan, and has to be a number above 0"),
        (lambda: two().every(1e-9, 2), "are 80,000,000,000, and a network has at most 262,144 script lines; write at least 0.000305176 s"),
        (lambda: two().every(1, 2, start=-1), "`start` is -1, and has to be a number of at least 0"),
        (lambda: two().every(1, 2, until=math.nan), "`until` is nan"),
        (lambda: two(prr={(1, 2): math.nan}), "`link 1 2`: `prr` is nan, and has to be a number from 0 to 1"),
        (lambda: Scenario.read(12), "`text` is an int"),
    ],
)  # fmt: skip
def test_scenarios(build, says: str) -> None:
    with pytest.raises(ArgumentError) as raised:
        build()
    assert says in str(raised.value)


def test_a_fraction_is_not_cut_off() -> None:
    graph = networkx.DiGraph()
    graph.add_node(1, ppm=3.7)
    with pytest.raises(ScenarioError, match="3.7, the drift, is a whole number from -20 to 20 ppm"):
        Scenario.from_graph(graph, 30)
    graph.add_node(1, ppm=3.0, offset=2.5)
    with pytest.raises(ScenarioError, match="2.5, the clock offset, is a whole number"):
        Scenario.from_graph(graph, 30)
    graph.add_node(1, ppm=3.0, offset=2.0)
    assert Scenario.from_graph(graph, 30).rates[0].ppm == 3
    with pytest.raises(ScenarioError, match="the node 'gateway' of the graph is no id"):
        Scenario.from_graph(networkx.Graph([(1, "gateway")]), 30)


def test_a_ratio_that_became_no_number() -> None:
    made = two()
    made.prr[1, 2] = math.nan
    with pytest.raises(ScenarioError, match="`link 1 2`: `prr` is nan"):
        losses.draw(made, 1)
    with pytest.raises(ScenarioError, match="`link 1 2`: `prr` is nan"):
        made.copy()
    for call in (made.network_text, lambda: results.outcome(made), lambda: results.fates(made)):
        with pytest.raises(ScenarioError, match="`link 1 2`: `prr` is nan, and has to be a number from 0 to 1"):
            call()


def test_seeds_and_scenarios_to_draw() -> None:
    with pytest.raises(ArgumentError, match="`seed` is 1.5, and has to be a whole number"):
        losses.draw(two(), 1.5)  # type: ignore[arg-type]
    # Also where there is nothing to draw, and in the text of a scenario.
    for given in (two(), LINE):
        with pytest.raises(ArgumentError, match="`seed` is 1.5, and has to be a whole number"):
            running.run(given, seed=1.5)  # type: ignore[arg-type]
    with pytest.raises(ArgumentError, match=r"`scenario` is a str, and has to be a Scenario; write Scenario.read\(..\)"):
        losses.draw(LINE, 1)  # type: ignore[type-var]


def test_the_path_of_a_file_is_no_text(tmp_path: Path) -> None:
    """bytes() of a path are its letters."""
    path = tmp_path / "line.scenario"
    path.write_text(LINE)
    assert Scenario.read(path).text() == Scenario.read(LINE).text()
    assert results.run(path).energy.equals(results.run(LINE).energy)
    assert program.execute(["run"], path) == program.execute(["run"], LINE)


_NO_LOG = ("bounds", "capacity", "failures", "importance", "relays", "sample", "search", "summary", "verdicts")


@pytest.mark.parametrize("call", [page.text, page.write, *(getattr(planning, name) for name in planning.__all__ if name not in _NO_LOG)])
def test_a_scenario_where_a_log_is_due(call) -> None:
    with pytest.raises(ArgumentError, match=rf"`{call.__name__}` takes the log of a run(, or its report)?, and was given a Scenario; write {call.__name__}\("):
        call(Scenario.read(LINE))


def test_windows_of_time(log: results.Log, tmp_path: Path) -> None:
    calls = [
        planning.duty_cycle, planning.radio_time, planning.battery_life, planning.delivery_ratio, planning.latency,
        plot.timeline, lambda log, **window: export.pcap(log, tmp_path / "x.pcap", **window),
        lambda log, **window: export.trace(log, tmp_path / "x.json", **window),
    ]  # fmt: skip
    for call in calls:
        for window in ({"start_seconds": 40, "end_seconds": 10}, {"start_seconds": 50}, {"end_seconds": 49}, {"start_seconds": -1}):
            with pytest.raises(ArgumentError, match="is no part of the run, which goes from 0 to 48 s"):
                call(log, **window)
        with pytest.raises(ArgumentError, match="`start_seconds` is nan, and has to be a number"):
            call(log, start_seconds=math.nan)
        with pytest.raises(ArgumentError, match="`end_seconds` is '9', and has to be a number; write 9 without quotes"):
            call(log, end_seconds="9")
    assert list(tmp_path.iterdir()) == []


def test_tables_of_numbers() -> None:
    nodes, links = pandas.DataFrame({"id": [1, 2]}), pandas.DataFrame({"from": [1], "to": [2]})

    def made(nodes: pandas.DataFrame, links: pandas.DataFrame) -> Scenario:
        return Scenario.from_tables(nodes, links, frames=12)

    with pytest.raises(ScenarioError, match="the table of nodes, row 2: `id` is inf, and has to be a whole number"):
        made(pandas.DataFrame({"id": [1, math.inf]}), links)
    with pytest.raises(ScenarioError, match="row 1: `both` is 'maybe', and has to be yes or no"):
        made(nodes, links.assign(both="maybe"))
    for word in ("yes", "Y", "true", True, 1, 1.0, numpy.bool_(True)):
        assert made(nodes, links.assign(both=word)).links == {(1, 2), (2, 1)}
    for word in ("no", "n", "False", False, 0, 0.0, None):
        assert made(nodes, links.assign(both=word)).links == {(1, 2)}
    with pytest.raises(ScenarioError, match="row 1: `prr` is 'good', and has to be a number"):
        made(nodes, links.assign(prr="good"))
    with pytest.raises(ScenarioError, match="the table of links, row 1: `prr` is not given; write the ratio"):
        tables.set_ratios(two(), links.assign(prr=math.nan))
    with pytest.raises(ScenarioError, match="the table of nodes, row 1: 'y' is not given"):
        tables.positions(pandas.DataFrame({"id": [1], "x": [2.0], "y": [math.nan]}))


def test_payloads_of_a_function() -> None:
    assert two().every(40, 2, lambda count: b"x").script == [Put(0, 2, 0, b"x"), Put(10, 2, 0, b"x")]
    with pytest.raises(ScenarioError, match="`payload` is 0, and has to be bytes"):
        two().every(40, 2, lambda count: count)  # type: ignore[arg-type,return-value]
