"""Maps of plans, floor by floor: which links they have, and that their words touch nothing, as a browser lays them out."""

from __future__ import annotations

import json
from pathlib import Path

import pytest
from browser import CHROMIUM, Browser
from halls import HALLS, HOSTILE, floors as three_floors
from PIL import Image

from foldcairn.common.arguments import ArgumentError
from foldcairn.draw import floors, map_labels, style
from foldcairn.draw.floors import FloorMap
from foldcairn.model.scenario import Scenario
from foldcairn.plan import Host, Plan
from foldcairn.plan.model import Floor, Node

needs_chromium = pytest.mark.skipif(CHROMIUM is None, reason="there is no chromium")
# Of each word of a picture and of each node its text and its box in pixels.
BOXES = """[...document.querySelectorAll('text, g[id^=node-] use')].map(one => {
    const {left, top, right, bottom} = one.getBoundingClientRect(); return [one.textContent, left, top, right, bottom]})"""


def touching(boxes: list[tuple[str, float, float, float, float]]) -> list[tuple[str, str]]:
    """Which words touch another word or a node; a number within its node is meant to. A box of letters is higher than these."""
    def letters(box: tuple[str, float, float, float, float]) -> tuple[float, float, float, float]:
        room = 0.12 * (box[4] - box[2]) if box[0] else 0.0
        return box[1], box[2] + room, box[3], box[4] - room

    found = []
    for place, one in enumerate(boxes):
        for other in boxes[place + 1 :]:
            (left, top, right, bottom), (begin, high, end, low) = letters(one), letters(other)
            within = {one[0].isdigit(), other[0].isdigit()} == {True, False} and "" in (one[0], other[0])
            if (one[0] or other[0]) and not within and min(right, end) > max(left, begin) and min(bottom, low) > max(top, high):
                found.append((one[0], other[0]))
    return found


@needs_chromium
@pytest.mark.parametrize("hall", HALLS)
def test_no_word_of_a_map_touches_another_or_a_node(hall: str, browser: Browser, tmp_path: Path) -> None:
    plan, network = HALLS[hall]()
    shown: list[str] = []
    maps = floors.of_plan(plan, network)
    for place, one in enumerate(maps):
        path = tmp_path / f"{place}.svg"
        path.write_bytes(style.rendered(one.figure, "svg"))
        browser.call("Page.navigate", url=path.as_uri())
        browser.wait(f"document.URL === {json.dumps(path.as_uri())} && document.documentElement.tagName === 'svg' && document.readyState === 'complete'")
        boxes = browser.evaluate(BOXES)
        assert touching(boxes) == []
        shown += [words.split(", host")[0] for words, *_ in boxes if words]
        # Nothing is beyond the edge of the picture.
        width, height = browser.evaluate("(({width, height}) => [width, height])(document.documentElement.getBoundingClientRect())")
        assert all(left >= 0 and top >= 0 and right <= width + 1 and bottom <= height + 1 for _, left, top, right, bottom in boxes)
    numbered = {node: name for one in maps for node, name in one.numbered.items()}
    for node, name in network.labels.items():
        assert (str(node) if node in numbered else map_labels.shortened(name, 22)) in shown
    assert len(maps) == (3 if hall == "floors" else 1) and len(numbered) <= len(network.nodes) / 3
    assert hall not in ("grid", "floors") or numbered == {}


def test_names_that_do_harm_elsewhere_are_letters() -> None:
    plan, network = three_floors()
    texts = [style.rendered(one.figure, "svg").decode() for one in floors.of_plan(plan, network)]
    assert not any("<script" in text for text in texts)
    # A name of 200 letters is told whole in a table; a map has its beginning.
    assert any(f"{HOSTILE[2][:21]}…" in text for text in texts) and not any("W" * 22 in text for text in texts)


SQUARE = {"A": (0.0, 0.0, 0), "B": (30.0, 0.0, 0), "C": (60.0, 0.0, 0), "D": (30.0, 20.0, 0), "E": (30.0, 20.0, 1)}


@pytest.fixture
def square() -> tuple[Plan, Scenario]:
    """Five nodes: A to B 95 %, B to A 60 %; B and C 90 % both ways, C and D 40 %, D and E of another floor 80 %; C to A alone."""
    plan = Plan(nodes={name: Node(name, place, x, y, floor) for place, (name, (x, y, floor)) in enumerate(SQUARE.items(), 1)}, hosts=[Host("A", 0)])
    network = Scenario(60, 2, 2, labels=dict(enumerate(SQUARE, 1)), hosts={0: 1})
    for node in range(1, 6):
        network.node(node)
    network.link(1, 2, 0.95).link(2, 1, 0.6).pair(2, 3, 0.9).pair(3, 4, 0.4).pair(4, 5, 0.8).link(3, 1, 0.99)
    return plan, network


def colours(one: FloorMap) -> list[str]:
    """The colours of the lines of a map by their ratios."""
    return [low for low, colour, _ in style.RATIOS for drawn in one.figure.axes[0].collections if style.to_hex(drawn.get_colors()[0]) == colour]


def test_which_links_a_map_has(square: tuple[Plan, Scenario]) -> None:
    plan, network = square
    ground, above = floors.of_plan(plan, network, least_ratio=0.7)
    # A pair counts by its weaker direction: that of A and B is below the threshold, and the best that A has; that of D the same.
    assert floors.weaker(network) == {(1, 2): 0.6, (2, 3): 0.9, (3, 4): 0.4, (4, 5): 0.8}
    assert colours(ground) == [0.85, 0.5, 0.0] and colours(above) == []
    assert (ground.title, above.title) == ("Floor 0", "Floor 1")
    assert "On this floor 1 pairs pass 70 % or more of the packets both ways, and 2 less: 3 are drawn" in ground.note
    assert "1 such pairs go from floor to floor" in ground.note
    up, down = ([line.get_marker() for line in one.figure.axes[0].lines if line.get_marker() in ("^", "v")] for one in (ground, above))
    assert (up, down) == (["^"], ["v"])


def test_the_frame_is_in_metres_and_has_the_floor_plan(square: tuple[Plan, Scenario], tmp_path: Path) -> None:
    plan, network = square
    Image.new("RGB", (8, 4), "#ffeecc").save(tmp_path / "floor.png")
    plan.path, plan.floor = tmp_path / "plan.toml", Floor("floor.png", [-10.0, -5.0, 110.0, 55.0])
    ground = floors.of_plan(plan, network)[0].figure.axes[0]
    assert ground.get_xlim() == (-10, 110) and ground.get_ylim() == (-5, 55) and ground.get_xlabel() == "metres"
    assert [float(edge) for edge in ground.images[0].get_extent()] == [-10, 110, -5, 55]


def test_what_has_no_map(square: tuple[Plan, Scenario]) -> None:
    plan, network = square
    plan.nodes["C"].x = plan.nodes["C"].y = None
    assert floors.of_plan(plan, network) == []
    with pytest.raises(ArgumentError, match=r"`least_ratio` is 7, and has to be .*1"):
        floors.of_plan(plan, network, least_ratio=7)


def test_letters_that_are_left_out() -> None:
    assert [map_labels.shortened(text, 6) for text in ("abcdef", "abcdefg", "abcd efg")] == ["abcdef", "abcde…", "abcd…"]
