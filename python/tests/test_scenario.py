"""Scenarios are built, written and read; what is out of range is named, and what is hardly meant is warned of."""

from __future__ import annotations

import warnings

import networkx
import pandas
import pytest
from hypothesis import given, settings

from conftest import EXAMPLES
from foldcairn.model.scenario import (
    Capture, Cut, Leave, Loss, Off, On, Put, Rate, Scenario, ScenarioError, ScenarioWarning, Stream, grid, line, random_geometric, star,
)
from foldcairn.runs import program
from scenarios import planned_grid, scenarios

# The text and its canonical text of docs/SCENARIO.md.
GIVEN = "sends 2\nnode 2 0\nnode 1 0\nhost 0 1\npair 1 2\nframes 6\non 0 1\non 0 2\n"
CANONICAL = (
    "profile 1\nframes 6\nsends 2\nnode 1 0\nnode 2 0\nhost 0 1\nlink 1 2\nlink 2 1\non 0 1\non 0 2\n"
)  # fmt: skip


def two(frames: int = 20, **more: int) -> Scenario:
    return Scenario(frames, **more).node(1).node(2).host(0, 1).pair(1, 2)


def test_the_canonical_text_of_the_documents():
    assert Scenario.read(GIVEN).text() == CANONICAL


@pytest.mark.parametrize("path", sorted(EXAMPLES.glob("*.scenario")), ids=lambda path: path.stem)
def test_an_example_and_its_canonical_text_run_alike(path):
    text = Scenario.read(path.read_bytes()).text()
    assert program.execute(["log"], text) == program.execute(["log"], path.read_bytes())


@settings(max_examples=40)
@given(scenarios())
def test_the_program_accepts_what_text_writes_and_read_gives_it_back(scenario):
    text = scenario.text(warn=False)
    program.execute(["bus"], text)
    again = Scenario.read(text)
    assert again.text(warn=False) == text
    assert (again.nodes, again.hosts, again.links) == (scenario.nodes, scenario.hosts, scenario.links)
    assert sorted(again.losses) == sorted(scenario.losses)
    assert [event for event in again.script if event.frame == 0] == [event for event in scenario.script if event.frame == 0]


def test_how_a_text_is_cut():
    """Line ends of Windows, tabs, comments with any bytes, and no line feed at the end are read as the program reads them."""
    given = GIVEN.replace("\n", "\r\n").replace(" ", " \t ").encode() + b"  # \xff\n\n\t\n" + b"off 1 2"
    assert Scenario.read(given).text() == CANONICAL + "off 1 2\n"
    assert program.execute(["run"], given) == program.execute(["run"], CANONICAL + "off 1 2\n")
    for text in (GIVEN + "off 1 2\r", "\ufeff" + GIVEN, GIVEN + "node 3 \udcff"):
        data = text.encode("utf-8", "surrogateescape")
        with pytest.raises(program.Refused) as refused:
            program.execute(["run"], data)
        with pytest.raises(ScenarioError) as raised:
            Scenario.read(data)
        assert str(raised.value) == refused.value.explanation


@pytest.mark.parametrize("text", ["sends 2\nprofile 2\n", "profile 1\ncontend 2\n", "profile 2\nsends 2\ncontend 2\n", "on 0 1\n"])
def test_lines_that_are_misplaced(text):
    with pytest.raises(program.Refused) as refused:
        program.execute(["run"], text)
    with pytest.raises(ScenarioError) as raised:
        Scenario.read(text)
    assert str(raised.value) == refused.value.explanation


def test_each_line_by_its_method():
    made = (
        Scenario(frames=12, sends=3, profile=2, contend=2)
        .node(7, 500, ppm=-3).node(2).node(9).rate(2, 20, seconds=2.5).host(0, 7).host(1, 2)
        .link(7, 2).pair(2, 9).on().off(9, frame=3).on(9, seconds=24.9).stream(9, 12, stream=3).put(9, b"\xAB", stream=3)
        .put(9, seconds=10).leave(9, stream=3, frame=11).lose(2, 0, 1, 7, 2).cut(5, 1, 0, 9).capture(4, 45, 11, 2, 9)
    )  # fmt: skip
    assert made.text(warn=False).splitlines() == [
        "profile 2", "contend 2", "frames 12", "sends 3", "node 2 0", "node 7 500", "node 9 0", "rate 2 160000000 20", "rate 7 0 -3",
        "host 0 7", "host 1 2", "link 2 9", "link 7 2", "link 9 2", "on 0 2", "on 0 7", "on 0 9", "stream 0 9 3 12", "put 0 9 3 ab",
        "put 2 9 0 -", "off 3 9", "on 5 9", "leave 11 9 3", "lose 2 0 1 7 2", "cut 5 1 0 9", "capture 4 45 11 2 9",
    ]  # fmt: skip
    program.execute(["run"], made.text(warn=False))
    assert made.rates == [Rate(7, 0, -3), Rate(2, 160_000_000, 20)]
    assert made.script[3:] == [
        Off(3, 9), On(5, 9), Stream(0, 9, 3, 12), Put(0, 9, 3, b"\xab"), Put(2, 9, 0, b""), Leave(11, 9, 3)
    ]  # fmt: skip
    assert (made.losses, made.cuts, made.captures) == ([Loss(2, 0, 1, 7, 2)], [Cut(5, 1, 0, 9)], [Capture(4, 45, 11, 2, 9)])


def test_periodic_packets():
    made = two(10).on().every(9, 2, start=3.5, until=30, interval=7)
    # At 3.5, 12.5 and 21.5 s, each handed over in the first frame that starts then or later.
    assert made.script[2:] == [Stream(1, 2, 0, 7), Put(1, 2, 0, b"\2\0\0"), Put(4, 2, 0, b"\2\0\1"), Put(6, 2, 0, b"\2\0\2")]
    puts = [event.payload for event in two(4).every(5, 1, lambda number: bytes([number] * number)).script]
    assert puts == [b"", b"\1", b"\2\2"]
    assert [event.frame for event in two(4).every(4, 2, until=1000).script] == [0, 1, 2, 3]
    assert [event.frame for event in two(4, profile=2).every(5, 1, b"x", stream=2).script] == [0, 1, 2, 3]


def test_lengths_in_seconds():
    assert (two(10).seconds, two(10, profile=2).seconds) == (40, 50)
    assert [two(10, profile=2).frame_at(time) for time in (0, 4.99, 5, 49)] == [0, 0, 1, 9]
    assert [two(10, profile=2, contend=count).contention_slots for count in (0, 1, 3)] == [1, 1, 3]


@pytest.mark.parametrize(
    ("build", "says"),
    [
        (lambda: Scenario(0), "`frames 0`: 0, the number of frames, is from 1 to 4,096"),
        (lambda: Scenario(9, sends=5), "from 1 to 4"),
        (lambda: Scenario(9, contend=2), "`contend` needs profile 2"),
        (lambda: Scenario(9, profile=3), "the profile, is from 1 to 2"),
        (lambda: two().node(201), "`node 201 0`: 201, the id of the node, is from 1 to 200"),
        (lambda: two().node(2), "node 2 is given already"),
        (lambda: two().node(3, ppm=21), "the drift, is from -20 to 20 ppm"),
        (lambda: two().link(1, 9), "node 9 is not given"),
        (lambda: two().link(1, 1), "the two ids must differ"),
        (lambda: two().link(1, 2, prr=1.1), "`link 1 2`: `prr` is 1.1, and has to be a number from 0 to 1"),
        (lambda: two().host(0, 2), "rank 0 or node 2 hosts already"),
        (lambda: two().on(1, frame=20), "20, the frame, is from 0 to 19"),
        (lambda: two().on(1, seconds=80), "`on` at 80 s: the run ends at 80 s, and its last frame starts at 76 s"),
        (lambda: two().put(1, seconds=76.1), "`put` at 76.1 s: the run ends at 80 s, and its last frame starts at 76 s"),
        (lambda: two().off(1, seconds=99999), "`off` at 99999 s: the run ends at 80 s, and its last frame starts at 76 s"),
        (lambda: two().stream(1, 4, seconds=-4), "`stream` at -4 s: times are from 0 s on"),
        (lambda: two().ratio(1, 2, 0.5, seconds=80), "`ratio` at 80 s: the run ends at 80 s"),
        (lambda: two().on(1, frame=1, seconds=4), "a time is given as a frame or in seconds"),
        (lambda: two().rate(1, 3, tick=1, seconds=4), "a time is given as a tick or in seconds"),
        (lambda: two().stream(2, 0), "the interval, is from 1 to 120 seconds"),
        (lambda: two().stream(2, 4.5), "4.5, the interval"),
        (lambda: two().put(2, bytes(33)), "the payload, is at most 32 bytes in profile 1"),
        (lambda: two().every(0, 2), "`seconds` is 0, and has to be a number above 0"),
        (lambda: two().lose(0, 43, 0, 1, 2), "43, the slot, is from 0 to 42"),
    ],
)  # fmt: skip
def test_what_is_out_of_range_is_named(build, says):
    with pytest.raises(ScenarioError) as raised:
        build()
    assert says in str(raised.value)


def test_taking_links_out():
    made = two().node(3).pair(2, 3, prr=0.5).lose(0, 0, 0, 2, 3).lose(0, 0, 0, 1, 2).capture(0, 0, 0, 3, 2)
    other = made.copy().unlink(3, 2)
    assert (other.links, other.prr, other.losses, other.captures) == ({(1, 2), (2, 1)}, {}, [Loss(0, 0, 0, 1, 2)], [])
    assert made.prr == {(2, 3): 0.5, (3, 2): 0.5}
    assert len(made.links) == 4


def test_graphs_of_common_shapes():
    square = grid(2, 3)
    assert sorted(square.edges) == [(1, 2), (1, 4), (2, 3), (2, 5), (3, 6), (4, 5), (5, 6)]
    assert square.nodes[6]["pos"] == (2, 1)
    assert {frozenset(ends) for ends in grid(2, 2, diagonals=True).edges} == {frozenset(ends) for ends in
        [(1, 2), (1, 3), (1, 4), (2, 3), (2, 4), (3, 4)]}  # fmt: skip
    assert sorted(line(3).edges) == [(1, 2), (2, 3)]
    assert sorted(star(4).edges) == [(1, 2), (1, 3), (1, 4)]
    assert sorted(random_geometric(9, 0.5, 3).edges) == sorted(random_geometric(9, 0.5, 3).edges)
    assert set(random_geometric(9, 0.5, 3)) == set(range(1, 10))


def test_from_a_graph_and_back():
    graph = networkx.DiGraph()
    graph.add_node(4, offset=100, ppm=-7, host=0)
    graph.add_node(5, host=1)
    graph.add_edge(4, 5, prr=0.8)
    graph.add_edge(5, 4)
    made = Scenario.from_graph(graph, 30, sends=1, profile=2, contend=3)
    assert made.text().splitlines() == [
        "profile 2", "contend 3", "frames 30", "sends 1", "node 4 100", "node 5 0", "rate 4 0 -7", "host 0 4", "host 1 5", "link 4 5",
        "link 5 4", "on 0 4", "on 0 5",
    ]  # fmt: skip
    assert made.prr == {(4, 5): 0.8}
    back = made.graph()
    assert dict(back.nodes(data=True)) == {4: {"offset": 100, "ppm": -7, "host": 0}, 5: {"offset": 0, "ppm": 0, "host": 1}}
    assert dict(back.edges) == {(4, 5): {"prr": 0.8}, (5, 4): {"prr": 1.0}}
    assert made.rate(4, 9, tick=5).graph().nodes[4]["ppm"] == -7
    both = Scenario.from_graph(line(3), 30, hosts=[2, 1], on=False)
    assert (both.hosts, both.links, both.script) == ({0: 2, 1: 1}, {(1, 2), (2, 1), (2, 3), (3, 2)}, [])
    with pytest.raises(ScenarioError, match="is from 1 to 200"):
        Scenario.from_graph(networkx.path_graph(3), 30)


def test_from_tables(tmp_path):
    (tmp_path / "nodes.csv").write_text("id,offset,ppm,host,on\n1,100,-3,0,\n2,,4,,8\n3,,,1,\n")
    (tmp_path / "links.csv").write_text("from,to,prr,both\n1,2,0.9,yes\n2,3,1,0\n")
    streams = pandas.DataFrame({"node": [2, 3], "interval": [4, 30], "every": [16, None], "start": [8, 0], "until": [30, None]})
    made = Scenario.from_tables(tmp_path / "nodes.csv", tmp_path / "links.csv", streams, frames=12)
    assert made.text(warn=False).splitlines() == [
        "profile 1", "frames 12", "sends 2", "node 1 100", "node 2 0", "node 3 0", "rate 1 0 -3", "rate 2 0 4", "host 0 1", "host 1 3",
        "link 1 2", "link 2 1", "link 2 3", "on 0 1", "on 0 3", "stream 0 3 0 30", "on 2 2", "stream 2 2 0 4", "put 2 2 0 020000",
        "put 6 2 0 020001",
    ]  # fmt: skip
    assert made.prr == {(1, 2): 0.9, (2, 1): 0.9}


@pytest.mark.parametrize(
    ("nodes", "links", "says"),
    [
        ({"name": [1]}, {}, "the table of nodes lacks the column id (or node); it has name"),
        ({"id": [1, 1]}, {}, "the table of nodes, row 2: node 1 is given already"),
        ({"id": [1, 2.5]}, {}, "the table of nodes, row 2: `id` is 2.5, and has to be a whole number"),
        ({"id": [1, None]}, {}, "the table of nodes, row 2: 'id' is not given"),
        ({"id": [1, 2]}, {"from": [1], "to": [3]}, "the table of links, row 1: `link 1 3`: node 3 is not given"),
    ],
)
def test_tables_that_are_wrong(nodes, links, says):
    with pytest.raises(ScenarioError) as raised:
        Scenario.from_tables(pandas.DataFrame(nodes), pandas.DataFrame(links or {"from": [], "to": []}), frames=12)
    assert says in str(raised.value)


def warned(scenario: Scenario) -> list[str]:
    with warnings.catch_warnings(record=True) as caught:
        warnings.simplefilter("always")
        scenario.text()
    assert all(issubclass(each.category, ScenarioWarning) for each in caught)
    return [str(each.message) for each in caught]


def test_the_warnings_of_a_planned_network():
    lost, contend, at_once, slack = warned(planned_grid())
    assert lost.startswith("the text of a scenario has no reception ratios, so the 141 of this one are lost in it, and its links lose nothing; `network_text`")
    assert "nodes ask for their streams in one contention slot" in at_once
    assert contend.startswith("the ids of nodes 1 and 17, 2 and 18, 4 and 20, 8 and 24 are equal modulo 16")
    assert "and 12 more" in slack


def test_nothing_to_warn_of():
    assert warned(two().on().every(10, 2, interval=8)) == []
    assert warned(Scenario.read((EXAMPLES / "two-contention-slots.scenario").read_text())) == []


@pytest.mark.parametrize(
    ("made", "says"),
    [
        (lambda: two().on(1), "node 2 is never switched on"),
        (lambda: two().on().put(2).stream(2, 4, frame=1).put(2, frame=2), "are dropped: 1 of stream 0 of node 2"),
        (lambda: two().on().stream(2, 4).off(2, frame=3).put(2, frame=3), "are dropped: 1 of stream 0 of node 2"),
        (lambda: two().on().stream(2, 4).leave(2, frame=3).put(2, frame=3), "are dropped: 1 of stream 0 of node 2"),
        (lambda: two().node(3).pair(3, 2).on().lose(0, 0, 0, 3, 1), "losses are given on links that the scenario doesn't have: 3 to 1"),
        (lambda: two().node(3).pair(3, 2).on().capture(0, 0, 0, 1, 3), "captures are given on links that the scenario doesn't have: 3 to 1"),
        (lambda: two().on().every(10, 2, interval=10), "interval about 15 % shorter: stream 0 of node 2 (every 10.0 s, interval 10: 8)"),
    ],
)  # fmt: skip
def test_what_is_hardly_meant_is_warned_of(made, says):
    (message,) = warned(made())
    assert says in message


def many(streams: int, interval: int) -> Scenario:
    made = Scenario.from_graph(star(10), 20, hosts=[1])
    for number in range(streams):
        made.stream(2 + number // 4, interval, stream=number % 4)
    return made


def test_more_streams_or_slots_than_there_are():
    assert warned(many(32, 4)) == []
    (message,) = warned(many(33, 4))
    assert "33 streams are requested at a time, and a host has room for 32" in message
    assert warned(many(20, 2)) == []
    (message,) = warned(many(11, 1))
    assert "44.0 slots a frame, and a round, at most one a frame, has 40" in message


def contenders(ids: tuple[int, int], *, frames: int = 500, contend: int = 4, apart: int = 0) -> Scenario:
    """Two nodes in reach of a host, with one packet each; the second puts it so many frames later."""
    made = Scenario(frames, profile=2, contend=contend).node(1)
    for node in ids:
        made.node(node).pair(1, node)
    made.host(0, 1).on()
    for number, node in enumerate(ids):
        made.stream(node, 4, frame=6 + apart * number).put(node, b"a", frame=6 + apart * number)
    return made


def deliveries(scenario: Scenario) -> int:
    return program.execute(["bus"], scenario.text(warn=False)).count(b"deliver ")


@pytest.mark.parametrize("contend", [1, 2, 4])
def test_ids_that_contend_for_ever(contend):
    made = contenders((7, 23), contend=contend)
    assert deliveries(made) == 0
    (message,) = warned(made)
    assert "the ids of nodes 7 and 23 are equal modulo 16" in message
    assert "start in rounds of their own (`contend 3` or another id parts two nodes, but not always more)" in message


def test_ids_that_part():
    for made in (contenders((7, 23), contend=3), contenders((7, 23), apart=8), contenders((7, 15))):
        assert deliveries(made) == 4
        assert warned(made) == []
    # With three slots the ids that stay together are those that are equal modulo 48.
    made = contenders((7, 55), contend=3)
    assert deliveries(made) == 0
    assert "7 and 55 are equal modulo 48" in warned(made)[0]


def test_who_asks_in_the_first_round():
    """All that ask before it ask in it; a host asks nobody."""
    made = two(40).node(18).pair(1, 18).on()
    for node, frame in ((2, 0), (18, 5)):
        made.stream(node, 4, frame=frame).put(node, frame=frame)
    assert deliveries(made) == 0
    assert "2 and 18" in warned(made)[0]
    host = two(40).node(17).pair(1, 17).on().stream(1, 4).put(1).stream(17, 4).put(17)
    assert deliveries(host) > 0
    assert warned(host) == []


def test_after_a_failover_all_ask_together():
    made = contenders((7, 23), apart=20).host(1, 7)
    assert warned(made) == []
    (message,) = warned(made.off(1, frame=200))
    assert "7 and 23" in message
