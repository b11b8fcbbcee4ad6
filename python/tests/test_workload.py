"""What a page says of its scenario: streams that are alike are one row by their real periods, and nothing of the script is left out."""

from __future__ import annotations

import pandas as pd
import pytest
from networks import FAILOVER, log_of

from foldcairn.answers import happens, workload
from foldcairn.draw import plot
from foldcairn.model.scenario import Scenario, line
from foldcairn.pages import page

NODES = {node: 0 for node in range(1, 9)}


@pytest.mark.parametrize(
    ("profile", "packets", "told"),
    [
        # Loops that begin at other times have other numbers of packets, and one period: 1,000 s have 100, 99 and 95 of them.
        (2, [(10, 0), (10, 15), (10, 55)], [(3, "10", "95 to 100")]),
        # Frames of 4 s: the gaps are 8 and 12 s, and 4 and 8 s.
        (1, [(10, 0), (10, 3), (5.5, 0)], [(2, "10", "100"), (1, "5.5", "182")]),
        (1, [(12, 0), (60, 0), (60, 30)], [(2, "60", "17"), (1, "12", "84")]),
        # Several packets a frame, up to the start of the last one at 996 s, and a few packets that fit the period of others.
        (1, [(0.5, 0)], [(1, "0.5", "1993")]),
        (1, [(10, 0), (10, 975)], [(2, "10", "3 to 100")]),
    ],
)
def test_loops_of_one_period_are_one_row(profile: int, packets: list[tuple[float, float]], told: list[tuple[int, str, str]]) -> None:
    made = Scenario(1000 // (4 if profile == 1 else 5), profile=profile, nodes=NODES)
    for node, (every, start) in enumerate(packets, 1):
        made.every(every, node, b"ab", start=start, interval=8)
    table = workload.table(made)
    assert table[["streams", "period (s)", "packets each"]].values.tolist() == [list(row) for row in told]
    assert set(table["bytes"]) == {"2"} and set(table["interval asked (s)"]) == {"8"} and set(table["kept alive"]) == {"no"}


def test_streams_without_a_period() -> None:
    made = Scenario(200, nodes=NODES)
    for frame in (3, 4, 17, 30, 31, 90, 91, 92, 150):
        made.put(1, b"a", frame=frame)
    made.put(2, b"abc", frame=7).stream(2, 4).stream(2, 8, frame=20).stream(3, 9, keep_alive=60)
    # Every 8 s, and nothing while it is off for 100 s.
    made.every(8, 4, b"a", until=300).every(8, 4, b"a", start=400)
    table = workload.table(made).set_index("nodes")
    assert table["period (s)"].to_dict() == {"node 1": "irregular", "node 2": "one packet", "node 3": "–", "node 4": "8, with pauses"}
    assert table.loc["node 2", ["interval asked (s)", "packets each", "bytes"]].tolist() == ["4, then 8", "1", "3"]
    assert table.loc["node 3", ["interval asked (s)", "packets each", "kept alive"]].tolist() == ["9", "0", "yes"]
    assert workload.table(Scenario(8, nodes=NODES)).empty


def test_all_that_happens() -> None:
    """The forklift: a link is worse for five minutes; and each other line that changes something."""
    made = Scenario.from_graph(line(8), 200, hosts=[1])
    for node in range(2, 9):
        made.pair(node - 1, node, 0.9)
    for seconds, ratio in ((300, 0.2), (600, 0.9)):
        made.ratio(1, 2, ratio, seconds=seconds).ratio(2, 1, ratio, seconds=seconds)
    made.ratio(3, 4, 0.0, seconds=300).ratio(4, 5, 0.512, seconds=700)
    made.off(4, frame=10).off(5, frame=10).on(4, frame=20).rate(6, -7, seconds=44)
    made.stream(2, 4).stream(3, 4, seconds=40).stream(3, 8, frame=50).leave(2, frame=60)
    made.cut(30, 0, 0, 7).cut(30, 2, 0, 7).cut(33, 0, 0, 7).lose(70, 1, 0, 1, 2).capture(71, 1, 0, 1, 2)
    assert happens.sentences(made) == [
        "2 streams request slots for the first time from 0 to 40 s.",
        "At 40 s node 4, node 5 are switched off.",
        "From 44 s on the clock of node 6 gains -7 ppm.",
        "At 80 s node 4 is switched on.",
        "Between 120 and 136 s all links of node 7 are cut to the end of the frame: 2 frames.",
        "At 200 s stream 0 of node 3 requests a slot each 8 s from now on.",
        "At 240 s stream 0 of node 2 ends, with what is queued.",
        "Between 280 and 284 s single links lose what is sent: 1 time.",
        "Between 284 and 288 s one of several unlike packets is received: 1 time.",
        "From 300 s on the reception ratios of 3 links change to 0 to 20 %: 1 – 2 20 %, 3 → 4 0 %.",
        "From 600 s on the reception ratios of 2 links change to 90 %: 1 – 2 90 %.",
        "From 700 s on the reception ratio of a link changes to 51.2 %: 4 → 5 51.2 %.",
    ]
    made.seed = 3
    assert "single links lose what is sent (with those drawn by seed 3): 1 time" in "".join(happens.sentences(made))
    many = Scenario(200, nodes=NODES)
    for frame in range(1, 200):
        many.off(1 + frame % 8, frame=frame).on(1 + frame % 8, frame=frame)
    assert len(page._events(many)) == 201 and page._events(many)[-1] == "and 198 more, which the scenario has"
    assert happens.sentences(log_of(FAILOVER).scenario) == ["At 24 s node 1 is switched off."]


def test_percents_are_rounded() -> None:
    """Two of three are 67 %, and what is not all is not 100."""
    table = pd.DataFrame({"source": 1, "stream": 0, "node": range(2, 9), "ratio_of_put": [2 / 3, 1 / 8, 1.0, 0.999, 0.001, 0.0, 1 / 3]})
    figure = plot.delivery(table)
    assert [text.get_text() for text in figure.axes[0].texts] == ["67", "13", "100", ">99", "<1", "0", "33"]
