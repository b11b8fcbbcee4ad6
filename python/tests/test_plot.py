"""Pictures: what they are drawn from by hand-worked runs, that their words do not cover each other, and their files.

A picture is judged by eyes; these tests say that what is drawn is what it should be, and is where it can be read.
"""

from __future__ import annotations

import math
import re
from itertools import combinations
from pathlib import Path
from random import Random
from weakref import WeakSet

import numpy as np
import pandas as pd
import pytest
from browser import CHROMIUM, Browser
from matplotlib.collections import LineCollection
from matplotlib.figure import Figure
from matplotlib.text import Annotation, Text
from matplotlib.transforms import Bbox
from networks import CONTENDERS, FAILOVER, LINE, log_of
from PIL import Image

from conftest import EXAMPLES
from foldcairn import planning
from foldcairn.__main__ import main
from foldcairn.answers import timing
from foldcairn.draw import maps, plot
from foldcairn.model.scenario import Scenario, grid, line, random_geometric, star
from foldcairn.runs import results

LEGEND = {"no power", "radio on, channel of rank 0", "radio on, channel of rank 1", "opens a round", "delivers packets", "radio off"}


@pytest.fixture(scope="module")
def failover() -> results.Log:
    return log_of(FAILOVER)


@pytest.fixture(scope="module")
def large() -> results.Log:
    """64 nodes in 256 frames of profile 2, as many as a scenario may have; the host fails in the middle."""
    made = Scenario.from_graph(grid(8, 8), 256, hosts=[1, 28], profile=2, contend=3).off(1, frame=120)
    for node in (8, 57, 64):
        made.every(20, node, start=30, interval=15)
    return results.log(made)


_drawn: WeakSet[Figure] = WeakSet()


def texts(figure: Figure) -> list[Text]:
    """The texts of a picture that are seen; those of scales come with drawing, which is done once."""
    if figure not in _drawn:
        figure.draw_without_rendering()
        _drawn.add(figure)
    return [text for text in figure.findobj(Text) if text.get_visible() and text.get_text()]


def words(figure: Figure) -> list[str]:
    """All words of a picture that are seen."""
    return [text.get_text() for text in texts(figure)]


def covered(figure: Figure) -> list[tuple[str, str]]:
    """Which words of a picture cover others."""
    boxes = [(text.get_text(), text.get_window_extent()) for text in texts(figure)]
    # Marks of an axis that lie beyond its limits are not drawn.
    inside = [(word, box) for word, box in boxes if figure.bbox.overlaps(box)]
    smaller = [(word, box.shrunk(0.98, 0.9)) for word, box in inside]
    return [(one, other) for (one, box), (other, place) in combinations(smaller, 2) if box.overlaps(place)]


def bars(figure: Figure) -> dict[str, np.ndarray]:
    """The bars of a timeline by what they mean: a row for each with its start, its end and its row, rounded."""
    drawn = figure.axes[0]
    found = {}
    for patch in drawn.patches:
        corners = patch.get_path().vertices.reshape(-1, 6, 2)[:, :4]
        ends = [corners[:, :, 0].min(1), corners[:, :, 0].max(1), corners[:, :, 1].mean(1)]
        found[patch.get_label()] = np.stack(ends, axis=1)
    return found


# What pictures are drawn from.


def test_slots_of_a_round_with_four_data_slots() -> None:
    slots = timing.slots(log_of(LINE))
    ours = slots[slots["frame"] == 9]
    names = ["opening", "data 3.0", "data 3.0", "data 3.0", "data 3.0", "contention", "closing"]
    assert ours["name"].tolist() == names
    assert ours["start_seconds"].tolist() == pytest.approx([37 + 0.033 * slot for slot in range(7)])
    assert ours["end_ticks"].tolist() == [37 * 64_000_000 + 2_112_000 * slot for slot in range(1, 8)]


def test_slots_of_a_round_whose_host_has_failed(failover: results.Log) -> None:
    slots = timing.slots(failover)
    ours = slots[slots["frame"] == 9]
    assert len(ours) == 7 and ours["start_seconds"].min() == 37.0 and ours["name"].tolist()[5:] == ["contention", "closing"]
    # The round of the backup host, by its own plan, at the channel of rank 1.
    assert set(slots.loc[slots["frame"] == 31, "rank"]) == {1}


def test_rounds_and_searches_as_spells(failover: results.Log) -> None:
    spells = timing.spells(failover)
    host = spells[spells["node"] == 1]
    # It searches in frames 0 to 4, up to its alarm, and opens the round of frame 5, until the window of its closing ends.
    assert host["searching"].tolist() == [True, False]
    assert host["start_seconds"].tolist() == [0.0, 21.0] and host["end_seconds"].iloc[1] == pytest.approx(21.066 + 0.0031, abs=0.001)
    backup = spells[(spells["node"] == 2) & spells["searching"]]
    assert set(backup["rank"]) == {0, 1}
    assert (spells["end_seconds"] > spells["start_seconds"]).all()


def test_times_without_power(failover: results.Log) -> None:
    assert timing.pauses(failover).values.tolist() == [[1, 24.0, 128.0]]
    made = Scenario(10, nodes={1: 0, 2: 0}, hosts={0: 1}).on(1).on(2, frame=3).off(2, frame=5).on(2, frame=6)
    assert timing.pauses(results.log(made)).values.tolist() == [[2, 0.0, 12.0], [2, 20.0, 24.0]]


def test_hops() -> None:
    line = Scenario.read(LINE)
    assert plot.hops(line) == {1: 0, 2: 1, 3: 2}
    assert plot.hops(line, failed=[(2, 3)]) == {1: 0, 2: 1}
    assert plot.hops(line.copy().link(1, 2, 0.0)) == {1: 0}
    # Without node 1 the backup host counts, and the nodes that no host reaches are missing.
    failed = Scenario.read(FAILOVER)
    assert plot.hops(failed, at_seconds=23.9) == {1: 0, 2: 1, 3: 1}
    assert plot.hops(failed, at_seconds=24.0) == {2: 0, 3: 1}
    assert plot.hops(Scenario(4, nodes={1: 0, 2: 0})) == {}


def test_places_are_apart_and_the_same_each_time() -> None:
    for graph in (grid(5, 5, diagonals=True), star(40), random_geometric(64, 0.2, 3), grid(1, 2)):
        made = Scenario.from_graph(graph, 10)
        laid = plot.places(made)
        assert set(laid) == set(graph) and laid == plot.places(made)
        assert min(math.dist(one, other) for one, other in combinations(laid.values(), 2)) > 0.3
        if len(graph) == 25:
            # Corners of the grid are further from each other than their neighbours.
            assert math.dist(laid[1], laid[25]) > 3 * math.dist(laid[1], laid[2])


# Pictures of runs.


def test_a_timeline_of_rounds(failover: results.Log) -> None:
    figure = plot.timeline(failover, title="failover", note="a note")
    assert LEGEND | {"failover", "a note", "start of frame"} <= set(words(figure))
    # Each second of the 32 frames is named above, with a line at its start.
    assert {str(frame) for frame in range(0, 33, 2)} <= set(words(figure))
    lines = [collection for collection in figure.axes[0].collections if isinstance(collection, LineCollection)]
    assert [segment[0][0] for segment in lines[0].get_segments()] == [8.0 * place for place in range(17)]
    drawn = bars(figure)
    assert drawn["no power"].tolist() == [[24.0, 128.0, 0.0]]
    # Node 1 opens a round at 21 s, node 2, in the second row, three: at 109, and 125 s.
    assert drawn["opens a round"][:, [0, 2]].tolist() == [[21.0, 0.0], [109.0, 1.0], [125.0, 1.0]]
    first = drawn["radio on, channel of rank 0"]
    assert {0.0, 21.0} <= set(first[first[:, 2] == 0][:, 0])
    assert covered(figure) == []


def test_a_timeline_of_one_slot_shows_the_steps() -> None:
    log = log_of(LINE)
    figure = plot.timeline(log, start_seconds=37.033, end_seconds=37.041, nodes=[1, 2, 3])
    drawn = bars(figure)
    # Node 3 transmits 1 ms into slot 1 of the round at 37 s, a packet of 9 bytes: 17 * 32 µs; node 2 receives that.
    transmits, receives = drawn["transmits"], drawn["receives"]
    assert transmits[transmits[:, 2] == 2][0, :2] == pytest.approx([37.034, 37.034544], abs=1e-9)
    assert receives[receives[:, 2] == 1][0, :2] == pytest.approx([37.034, 37.034544], abs=1e-9)
    steps = [text.get_text() for text in figure.axes[0].texts if text.get_text().isdigit()]
    # Steps 0 to 2 of three nodes: each is transmitted, and received by its neighbours.
    assert {"0", "1", "2"} <= set(steps) and "slot 1: data 3.0" in words(figure)
    assert covered(figure) == []


@pytest.mark.parametrize("window", ["run", "round", "slot"])
def test_words_do_not_cover_each_other_at_64_nodes(large: results.Log, window: str) -> None:
    slots = timing.slots(large)
    last = slots[slots["frame"] == slots["frame"].max()]
    start, end = {
        "run": (0.0, None),
        "round": (last["start_seconds"].min(), last["end_seconds"].max()),
        "slot": (last["start_seconds"].iloc[1], last["end_seconds"].iloc[1]),
    }[window]
    figure = plot.timeline(large, start_seconds=start, end_seconds=end)
    assert covered(figure) == []
    assert sum(word.startswith(("node", "host")) for word in words(figure)) == 64


def test_a_timeline_as_a_part_of_another_figure(failover: results.Log) -> None:
    figure = Figure(figsize=(11, 5), layout="constrained")
    above, below = figure.subplots(2)
    assert plot.timeline(failover, end_seconds=60.0, axes=above) is figure
    plot.timeline(failover, start_seconds=60.0, axes=below)
    assert [axes.get_legend() for axes in figure.axes] == [None, None] and covered(figure) == []


def test_a_timeline_of_450_frames() -> None:
    made = Scenario.from_graph(grid(4, 4), 450, hosts=[1]).every(4, 16, interval=4)
    figure = plot.timeline(results.log(made))
    assert covered(figure) == []
    # The host opens a round in frame 5 and in each fourth one after it.
    opened = bars(figure)["opens a round"]
    assert len(opened) == 112 and (opened[:, 1] - opened[:, 0] > 2).all()


def test_a_window_that_is_none(failover: results.Log) -> None:
    for start, end in ((-1.0, 4.0), (4.0, 4.0), (0.0, 128.5)):
        with pytest.raises(ValueError, match="from 0 to 128 s"):
            plot.timeline(failover, start_seconds=start, end_seconds=end)
    with pytest.raises(ValueError, match="no node 9"):
        plot.timeline(failover, nodes=[1, 9])


# Maps and charts.


def test_a_map_of_a_network_with_a_failure() -> None:
    made = Scenario.from_graph(grid(3, 3), 40, hosts=[1, 5]).off(1, frame=20).link(1, 9)
    made.link(2, 3, 0.9).link(8, 9, 0.4).link(4, 7, 0.0)
    figure = plot.topology(made, at_seconds=90.0, failed=[(5, 6)])
    shown = set(words(figure))
    assert {"link of 85 to 95 %", "link below 50 %", "failed link", "no power", "host 0, no power"} <= shown
    assert {"the host: 0 hops", "1 hop", "2 hops", "3 hops"} <= shown and covered(figure) == []
    with pytest.raises(ValueError, match="no link from 1 to 3"):
        plot.topology(made, failed=[(1, 3)])
    with pytest.raises(ValueError, match="node 2 has no place"):
        plot.topology(made, positions={node: (node, 0) for node in made.nodes if node != 2})
    with pytest.raises(ValueError, match="no nodes"):
        plot.topology(Scenario(4))


def test_a_map_without_ratios() -> None:
    made = Scenario.from_graph(grid(1, 3), 10, hosts=[1]).link(1, 3)
    figure = plot.topology(made)
    assert {"link", "An arrow is a link in one direction."} <= set(words(figure)) and covered(figure) == []
    # A pair of links that look the same is one line, the link in one direction another.
    drawn = [segment for found in figure.axes[0].collections for segment in found.get_segments()]
    assert len(drawn) == 3
    made = Scenario.from_graph(grid(1, 3), 10, hosts=[1]).link(1, 2, 0.4)
    figure = plot.topology(made)
    drawn = [segment for found in figure.axes[0].collections for segment in found.get_segments()]
    assert len(drawn) == 3 and "The half of a line next to a node shows the link to that node." in words(figure)


def test_a_map_of_64_nodes_can_be_read() -> None:
    made = Scenario.from_graph(random_geometric(64, 0.2, 3), 10, hosts=[1])
    figure = plot.topology(made)
    ids = {str(node) for node in made.nodes}
    assert not [pair for pair in covered(figure) if set(pair) <= ids]


def plant() -> tuple[Scenario, dict[int, tuple[float, float]]]:
    """48 nodes with names on two floors, and some 600 links whose ratios fall with their length."""
    drawn = Random(4)
    places = {node: (5.0 * (node % 24) + drawn.uniform(0, 4), drawn.uniform(2, 40) + 55 * (node > 24)) for node in range(1, 49)}
    made = Scenario(20, nodes={node: 0 for node in places}, hosts={0: 12, 1: 36})
    made.labels = {node: f"{('L', 'T', 'AL', 'S')[node % 4]}-{node:0{2 + node % 2}}" for node in places}
    for one, other in combinations(places, 2):
        ratio = 1 / (1 + math.exp((math.dist(places[one], places[other]) - 38) / 6))
        if ratio > 0.5:
            made.pair(one, other, round(ratio, 3))
    return made, places


def circles(figure: Figure) -> dict[tuple[float, float], Bbox]:
    """The nodes of a map by their places, as squares in pixels."""
    drawn, found = figure.axes[0], {}
    for mark in drawn.lines:
        if len(mark.get_xdata()) == 1:
            place = float(mark.get_xdata()[0]), float(mark.get_ydata()[0])
            (x, y), half = drawn.transData.transform(place), mark.get_markersize() / 2 * figure.dpi / 72
            found[place] = Bbox.from_extents(x - half, y - half, x + half, y + half)
    return found


def gap(box: Bbox, other: Bbox) -> float:
    """How far a box is from the middle of another."""
    x, y = (other.x0 + other.x1) / 2, (other.y0 + other.y1) / 2
    return math.hypot(max(box.x0 - x, x - box.x1, 0), max(box.y0 - y, y - box.y1, 0))


@pytest.mark.parametrize("placed", [True, False])
def test_names_of_a_crowded_map(placed: bool) -> None:
    """Each name is at its own node, on none, and covers no other; of many links the weak ones are left out, and that is said."""
    made, places = plant()
    figure = plot.topology(made, positions=places if placed else None)
    assert covered(figure) == []
    names = [text for text in figure.axes[0].texts if isinstance(text, Annotation) and text.get_text().split(" (")[0] in made.labels.values()]
    nodes = circles(figure)
    assert len(names) == len(nodes) == 48
    for text in names:
        box, own = Text.get_window_extent(text), nodes[tuple(map(float, text.xy))]
        assert not [node for node in nodes.values() if box.shrunk(0.96, 0.9).overlaps(node)], text.get_text()
        assert all(gap(box, own) <= gap(box, node) for node in nodes.values()), text.get_text()
    told = next(word for word in words(figure) if "left out" in word)
    left, whole = map(int, re.match(r"(\d+) of (\d+) links are left out: those below \d+ %, but for the best of each node.", told).groups())
    assert whole == len(made.links) > 500 and whole - left <= 300 + 96


def test_which_links_of_many_are_left_out() -> None:
    made, places = plant()
    # A node at the end that has weak links alone keeps the best of them, and a failed link is shown.
    made.node(49).pair(48, 49, 0.2).pair(47, 49, 0.1)
    ratios = made.prr_at(frame=0)
    shown, told = maps._strong(made, ratios, {(1, 2)}, None)
    strong = {link for link in made.links if ratios.get(link, 1.0) >= 0.95}
    assert strong < shown and {(48, 49), (49, 48), (1, 2)} <= shown and not {(47, 49), (49, 47)} & shown
    assert told == f"{len(made.links) - len(shown)} of {len(made.links)} links are left out: those below 95 %, but for the best of each node."
    assert maps._strong(made, ratios, set(), 0.0) == (made.links, "")
    few = Scenario.from_graph(grid(3, 3), 10).link(1, 2, 0.1)
    assert maps._strong(few, few.prr_at(frame=0), set(), None) == (few.links, "")
    with pytest.raises(ValueError, match="`least_ratio` is 2"):
        plot.topology(few, least_ratio=2)


@pytest.mark.parametrize(("name", "inside"), [("7", True), ("48", True), ("102", True), ("L-15", True), ("WWWW", False), ("A-101", False)])
def test_names_that_are_inside_of_their_nodes_fit(name: str, inside: bool) -> None:
    made = Scenario(10, nodes={1: 0, 2: 0, 3: 0}, labels={1: name}).pair(1, 2).pair(2, 3)
    figure = plot.topology(made)
    text = next(text for text in texts(figure) if text.get_text() == name)
    assert isinstance(text, Annotation) != inside
    if inside:
        assert Text.get_window_extent(text).width <= 19.0 * figure.dpi / 72 and text.get_fontsize() >= 6.5


@pytest.mark.skipif(CHROMIUM is None, reason="chromium is missing; tools/setup-python.sh --optional installs it (apt-get install chromium)")
def test_names_of_a_crowded_map_in_a_browser(browser: Browser, tmp_path: Path) -> None:
    """Also by the letters of a browser no two words of the SVG file cover each other."""
    made, places = plant()
    browser.call("Page.navigate", url=plot.save(plot.topology(made, positions=places), tmp_path / "map.svg").as_uri())
    browser.wait("document.readyState === 'complete' && document.querySelector('text') !== null")
    found = browser.evaluate(
        "[...document.querySelectorAll('text')].map((one) => [one.textContent, one.getBoundingClientRect()])"
        ".map(([word, box]) => [word, box.left, box.top, box.right, box.bottom])"
    )
    boxes = [(word, Bbox.from_extents(*box)) for word, *box in found]
    assert len(boxes) > 50
    assert [(one, other) for (one, box), (other, place) in combinations(boxes, 2) if box.shrunk(0.98, 0.75).overlaps(place.shrunk(0.98, 0.75))] == []


def test_charts_of_tables(failover: results.Log) -> None:
    pairs = planning.delivery_ratio(failover, "pair")
    delivery = plot.delivery(pairs)
    # Node 1 is off when the two packets of node 3 are sent, node 2 has both.
    assert {"0 (0 of 2)", "100 (2 of 2)", "3"} <= set(words(delivery))
    cells = delivery.axes[0].images[0].get_array()
    assert cells.tolist() == [[0.0, 1.0]]
    latency = plot.latency(planning.latencies(failover))
    assert "3" in words(latency)
    energy = plot.energy(planning.radio_time(failover))
    assert set(planning.radio_time(failover).columns[:-1]) <= set(words(energy))
    # Node 1 is on for 19.2 s of its search, and for 0.01 s of its one round.
    assert {"19.2", "0.01"} <= set(words(energy))
    outages = plot.outages(planning.outages(failover, "stream"))
    assert {"88 s", "the host loses power", "first round of the new host"} <= set(words(outages))
    for figure in (delivery, latency, energy, outages):
        assert covered(figure) == []


def test_latencies_far_from_each_other() -> None:
    """A loop of a second beside one of minutes: each of its boxes can be seen, and the deadline is marked."""
    table = pd.DataFrame({"source": [1] * 3 + [2] * 3, "stream": 0, "latency_seconds": [0.5, 1.0, 2.0, 40.0, 100.0, 413.0]})
    figure = plot.latency(table, deadline_seconds=30)
    drawn = figure.axes[0]
    assert drawn.get_yscale() == "log" and {"1", "10", "100", "deadline 30 s", "seconds from put to delivery, logarithmic"} <= set(words(figure))
    # The box of the short one, from 0.75 to 1.5 s, is at least a twentieth of the height.
    low, high = (drawn.transAxes.inverted().transform(drawn.transData.transform((1, seconds)))[1] for seconds in (0.75, 1.5))
    assert high - low > 0.05 and covered(figure) == []
    near = plot.latency(table.iloc[:3])
    assert near.axes[0].get_yscale() == "linear" and near.axes[0].get_ylim()[0] == 0


def test_tables_that_cannot_be_drawn(failover: results.Log) -> None:
    for draw in (plot.delivery, plot.latency, plot.energy, plot.outages):
        with pytest.raises(ValueError, match="no column"):
            draw(pd.DataFrame({"frame": [1]}))
    with pytest.raises(ValueError, match="no rows"):
        plot.outages(planning.outages(log_of(LINE), "stream"))
    with pytest.raises(ValueError, match="no rows"):
        plot.latency(planning.latencies(log_of(CONTENDERS)).iloc[:0])


def test_a_stream_that_is_never_delivered_again() -> None:
    table = planning.outages(results.log(FAILOVER.replace("put 20 3 0 bb", "off 20 3")), "stream")
    # Its own power is apart from that of the host.
    assert {"no power", "the source had no power itself"} <= set(words(plot.outages(table)))
    assert "by the host" not in words(plot.outages(table))


def bar_ends(figure: Figure) -> list[float]:
    """Where the bars of a chart end."""
    return [patch.get_x() + patch.get_width() for patch in figure.axes[0].patches]


def arrows(figure: Figure) -> list[float]:
    """Where a chart has arrows for what goes on."""
    return [float(line.get_xdata()[0]) for line in figure.axes[0].lines if line.get_marker() == ">"]


def test_an_outage_that_nobody_ends_goes_to_the_end_of_the_run() -> None:
    # Node 3 has no link to the new host, and gets another packet that waits.
    log = results.log(FAILOVER.replace("on 0 1\n", "on 0 1\n" + "".join(f"cut {frame} 0 0 3\n" for frame in range(27, 32))))
    table = planning.outages(log, "stream")
    assert table["first_delivery_seconds"].isna().tolist() == [True] and table["cause"].tolist() == ["host"]
    figure = plot.outages(table)
    assert bar_ends(figure) == arrows(figure) == pytest.approx([128.0])
    assert "not back" in words(figure)
    # Another stream's times change nothing.
    more = pd.concat([table, table.assign(source=2, last_delivery_seconds=20.0, first_delivery_seconds=90.0, outage_seconds=70.0)])
    assert sorted(bar_ends(plot.outages(more))) == pytest.approx([90.0, 128.0])


def test_streams_have_the_names_of_their_nodes() -> None:
    pairs = pd.DataFrame({"source": [1, 1, 2], "stream": [0, 0, 0], "node": [2, 3, 3], "ratio_of_put": [0.5, 1.0, 0.0]})
    assert {"1", "2", "source"} <= set(words(plot.delivery(pairs))) and "1.0" not in words(plot.delivery(pairs))
    several = pairs.assign(stream=[0, 0, 3])
    assert {"1, stream 0", "2, stream 3", "source and stream"} <= set(words(plot.delivery(several)))


def test_a_heat_map_of_many_nodes_has_its_numbers() -> None:
    pairs = pd.DataFrame({"source": 1, "stream": 0, "node": range(2, 60), "ratio_of_put": 0.37})
    figure = plot.delivery(pairs)
    assert words(figure).count("37") >= 58 and covered(figure) == []


def test_every_picture_as_a_part_of_another_figure(failover: results.Log) -> None:
    figure = Figure(figsize=(18, 12), layout="constrained")
    places = figure.subplots(3, 3).ravel()
    energy = plot.energy(planning.radio_time(failover), axes=(places[0], places[1]))
    drawn = [
        energy, plot.topology(failover.scenario, axes=places[2]), plot.timeline(failover, axes=places[3]),
        plot.delivery(planning.delivery_ratio(failover, "pair"), axes=places[4]),
        plot.latency(planning.latencies(failover), axes=places[5]),
        plot.outages(planning.outages(failover, "stream"), axes=places[6]),
    ]  # fmt: skip
    assert all(one is figure for one in drawn) and len(figure.axes) == 9 + 0
    assert [axes.get_legend() for axes in places] == [None] * 9
    assert all(axes.has_data() for axes in places[:7])
    assert words(figure).count("seconds with the radio on") == 2


def test_no_node_hides_another(tmp_path: Path) -> None:
    made = Scenario(10).node(1).node(2).node(3).node(4).host(0, 1).pair(1, 2)
    for places in (
        {1: (0.0, 0.0), 2: (0.001, 0.0), 3: (100.0, 60.0), 4: (100.0, 60.0)},
        {1: (5.0, 5.0), 2: (5.0, 5.0), 3: (5.0, 5.0), 4: (5.0, 5.0)},
        {1: (0.0, 0.0), 2: (0.0, 1e-9), 3: (0.0, 7.0), 4: (0.0, 7.0)},
    ):
        figure = plot.topology(made, positions=places)
        figure.draw_without_rendering()
        drawn = figure.axes[0]
        nodes = [line for line in drawn.lines if line.get_marker() in ("o", "s") and len(line.get_xdata()) == 1]
        spots = np.array([drawn.transData.transform((line.get_xdata()[0], line.get_ydata()[0])) for line in nodes])
        size = nodes[0].get_markersize() * figure.dpi / 72
        assert len(spots) == 4
        for one, other in combinations(spots, 2):
            assert math.dist(one, other) > 0.9 * size, places
    # What is far enough apart stays where it is.
    far = {1: (0.0, 0.0), 2: (1.0, 0.0), 3: (2.0, 0.0), 4: (3.0, 1.0)}
    lines = plot.topology(made, positions=far).axes[0].lines
    assert {(float(line.get_xdata()[0]), float(line.get_ydata()[0])) for line in lines if len(line.get_xdata()) == 1} == set(far.values())


# Files.


def test_the_same_picture_gives_the_same_bytes(failover: results.Log, tmp_path: Path) -> None:
    for ending, part in (("svg", {"end_seconds": 48.0}), ("png", {"frame": 9})):
        files = [plot.save(plot.timeline(failover, **part), tmp_path / f"{name}.{ending}").read_bytes() for name in ("one", "two")]
        assert files[0] == files[1]
    text = (tmp_path / "one.svg").read_text()
    assert "prefers-color-scheme: dark" in text and 'fill: #0d1117' in text and "<text" in text
    assert len(text) < 60_000
    with pytest.raises(ValueError, match="svg, png or pdf, not txt"):
        plot.save(Figure(), tmp_path / "one.txt")


def test_the_commands(tmp_path: Path, capsys: pytest.CaptureFixture[str]) -> None:
    path = EXAMPLES / "packets-along-a-line.scenario"
    ratios, places, output = tmp_path / "ratios.csv", tmp_path / "places.csv", tmp_path / "map.png"
    ratios.write_text("from,to,prr\n1,2,0.6\n")
    places.write_text("id,x,y\n1,0,0\n2,1,0\n3,2,0\n4,3,0\n")
    assert main(["topology", str(path), "--ratios", str(ratios), "--places", str(places), "--at", "8", "-o", str(output)]) == 0
    width, height = Image.open(output).size
    assert width > height > 100
    behind = ["--background", str(output), "--extent=-1,4,-1,1", "-o", str(tmp_path / "plan.png")]
    assert main(["topology", str(path), "--places", str(places), *behind]) == 0 and (tmp_path / "plan.png").is_file()
    assert main(["topology", str(path), "--places", str(places), *behind, "--extent=1,2"]) == 1
    assert "`--extent` has 2 numbers, and has to have 4" in capsys.readouterr().err
    picture = tmp_path / "run.svg"
    assert main(["timeline", str(path), "--from", "37.03", "--to", "37.05", "--nodes", "3,4", "-o", str(picture)]) == 0
    assert "slot 1" in picture.read_text()
    assert main(["timeline", str(path), "--from", "9999", "-o", str(picture)]) == 1
    assert "the window from 9999" in capsys.readouterr().err


def test_labels_of_hosts_cover_nothing() -> None:
    """Neither a node nor a line, in the middle of a grid with lines to all sides."""
    made = Scenario.from_graph(grid(5, 5, diagonals=True), 4, hosts=[3, 13])
    places = {node: (float((node - 1) % 5), -float((node - 1) // 5)) for node in made.nodes}
    figure = plot.topology(made, positions=places)
    figure.draw_without_rendering()
    (drawn,) = figure.axes
    at = {node: drawn.transData.transform(place) for node, place in places.items()}
    labels = [text.get_window_extent() for text in figure.findobj(Annotation) if text.get_text().startswith("host ")]
    assert len(labels) == 2
    for box in labels:
        for one, other in made.links:
            for part in np.linspace(0, 1, 50):
                assert not box.contains(*(at[one] + part * (at[other] - at[one])))


def test_a_map_on_a_floor_plan(tmp_path: Path) -> None:
    made, places = Scenario.from_graph(grid(2, 2), 4, hosts=[1]), {1: (0, 0), 2: (9, 0), 3: (0, 9), 4: (9, 9)}
    Image.new("RGB", (40, 20), "#ff0000").save(tmp_path / "site.png")
    plain, behind = plot.topology(made, positions=places), plot.topology(made, positions=places, background=tmp_path / "site.png", extent=(-5, 35, -5, 15))
    (shown,) = behind.axes[0].get_images()
    assert list(shown.get_extent()) == [-5, 35, -5, 15] and not plain.axes[0].get_images()
    assert list(plot.topology(made, positions=places, background=(tmp_path / "site.png").read_bytes()).axes[0].get_images()[0].get_extent()) == [0, 40, 0, 20]
    with pytest.raises(ValueError, match="a background needs the positions of the nodes on it"):
        plot.topology(made, background=tmp_path / "site.png")


def test_hops_are_told_up_to_twelve() -> None:
    shown = words(plot.topology(Scenario.from_graph(line(15), 4, hosts=[1])))
    assert {"the host: 0 hops", "1 hop", "12 hops", "more than 12 hops"} <= set(shown) and "13 hops" not in shown


def test_the_timeline_of_a_round_by_its_frame(failover: results.Log) -> None:
    assert plot.timeline(failover, frame=9).axes[0].get_xlim() == pytest.approx((36.998, 37.233))
    with pytest.raises(ValueError, match="frame 10 has no round; `planning.rounds` has the frames that have one"):
        plot.timeline(failover, frame=10)
