"""Numbers in another unit than they are meant, networks that lack a host or a direction, and names where ids are due: each is told."""

from __future__ import annotations

import warnings
from pathlib import Path

import pytest

from foldcairn import planning
from foldcairn.common.arguments import ArgumentError
from foldcairn.model.scenario import Off, On, Put, Scenario, ScenarioError, ScenarioWarning, Stream
from foldcairn.pages import page
from foldcairn.runs import results
from networks import LINE, log_of


def two(frames: int = 360, **more: int) -> Scenario:
    return Scenario(frames, **more).node(1).node(2).host(0, 1).pair(1, 2).on()


@pytest.mark.parametrize(
    ("made", "says"),
    [
        # 12 s and 20 s in milliseconds, in a run of 1,440 s.
        (lambda: two().every(12_000, 2, interval=9), "a packet every 12,000 s is one packet of stream 0 of node 2 in the 1,440 s that it has: periods "
         "are in seconds; if 12000 is in milliseconds, write 12"),
        (lambda: two().stream(2, 9, stream=1).every(2_000, 2, stream=1, start=40, until=1_040), "every 2,000 s is one packet of stream 1 of node 2 in the "
         "1,000 s that it has"),
        (lambda: two().stream(2, 10, keep_alive=9_999), "`keep_alive` of stream 0 of node 2 is 9,999 s, and a host takes a stream away whose slots stay "
         "empty 16 times in a row, here after 160 s: write less than that"),
        (lambda: two().stream(2, 10, keep_alive=160), "is 160 s, and a host takes a stream away"),
        # An hour as a number of frames.
        (lambda: two(3_600), "the run has 3,600 frames of 4 s, which are 4 hours: if 3,600 s were meant, they are 900 frames"),
        (lambda: two(1_800, profile=2), "the run has 1,800 frames of 5 s, which are 2.5 hours: if 1,800 s were meant, they are 360 frames"),
        (lambda: Scenario(9).node(1).node(2).node(3).host(1, 2).host(2, 3).pair(1, 2).pair(2, 3).on(),
         "there are hosts of rank 1, 2, and none of rank 0; ranks go from 0, the first choice, up to 3 without a gap"),
        (lambda: two().node(3).link(3, 2).on(3), "node 3 has links from other nodes and none to it, so it can't take part: a link is one direction"),
        (lambda: two().node(3).link(1, 3).on(3), "node 3 has links to other nodes and none from it, so it can't take part: a link is one direction"),
        (lambda: two().node(3).on(3), "node 3 has no link to or from any other node, so it can't take part"),
    ],
)  # fmt: skip
def test_what_is_told_of_a_scenario(made, says: str) -> None:
    told = [words for words in made().cautions() if says in words]
    assert len(told) == 1, made().cautions()


def test_what_is_no_doubt() -> None:
    for made in (two().every(900, 2, interval=8), two().stream(2, 10, keep_alive=159), two(900), two().every(50, 2, start=2_000),
                 two(20).every(40, 2, until=30)):  # fmt: skip
        assert not any(told in words for words in made.cautions() for told in ("milliseconds", "write less than that", "were meant"))
    with pytest.raises(ScenarioError, match="7200, the number of frames, is from 1 to 4,096; frames are no seconds: a frame has 4 s, in profile 2 5 s"):
        Scenario(7_200)


def told(call) -> list[str]:
    with warnings.catch_warnings(record=True) as caught:
        warnings.simplefilter("always")
        call()
    assert all(issubclass(each.category, ScenarioWarning) for each in caught)
    return [str(each.message) for each in caught]


def test_deadlines_that_cannot_be_kept() -> None:
    """The first data slot of a round follows on the schedule, in the slot after 1 s: in profile 1 at 1.033 s, in profile 2 at 1.056 s. LINE
    has one packet, put in frame 0 and delivered in frame 9."""
    log = log_of(LINE)
    assert told(lambda: planning.deadline(log, 40)) == []
    for seconds, says in (
        (0.5, "no packet is delivered within 0.5 s: a round begins 1 s after the start of its frame, with the schedule in its first slot, so a "
              "deadline has to be above 1.033 s"),
        (3, "a deadline below 5.033 s, as this one of 3 s, can't be kept by all"),
        (20_000, "a deadline of 20,000 s is no shorter than the run, which has 48 s, so no packet is due within it; deadlines are in seconds: if 20000 "
                 "is in milliseconds, write 20"),
    ):  # fmt: skip
        (words,) = told(lambda: planning.deadline(log, seconds))
        assert says in words
    network = two(60, profile=2).pair(1, 2, 0.9).stream(2, 9).every(12, 2)
    (words,) = told(lambda: planning.sample(network, [1], deadline=1.05, progress=False))
    assert "has to be above 1.056 s" in words
    assert planning.deadline(log, 0.5)["share"].tolist() == [0.0]


@pytest.mark.parametrize(
    ("battery", "says"),
    [
        ({"capacity_mah": 2.6}, "`capacity_mah` is 2.6 mAh, and is usually from 20 to 1,000,000 mAh: if 2.6 is in Ah, write 2600"),
        ({"capacity_mah": 2.6e6}, "if 2.6e+06 is in µAh, write 2600"),
        ({"sleep_ma": 20}, "`sleep_ma` is 20 mA, and is usually from 0 to 1 mA: if 20 is in µA, write 0.02"),
        ({"receive_ma": 0.0188}, "`receive_ma` is 0.0188 mA, and is usually from 0.5 to 1,000 mA: if 0.0188 is in A, write 18.8"),
        ({"transmit_ma": 17_400}, "if 17400 is in µA, write 17.4"),
    ],
)  # fmt: skip
def test_batteries_in_another_unit(battery: dict[str, float], says: str) -> None:
    (words,) = told(lambda: planning.battery_life(log_of(LINE), **battery))
    assert says in words
    assert told(lambda: planning.battery_life(log_of(LINE), capacity_mah=225, sleep_ma=0.002, transmit_ma=0, receive_ma=300)) == []


def test_nodes_are_given_by_their_names() -> None:
    made = two().node(3)
    made.labels = {1: "gw", 2: "S1", 3: "A-101"}
    made.pair("S1", "A-101", 0.5).on("A-101").stream("S1", 9).put("S1", b"x", frame=3).every(1_000, "A-101").off("A-101", frame=9).leave("S1", frame=9)
    made.host(1, "S1").rate("gw", 3).ratio("S1", "A-101", 0.4, frame=5).lose(1, 0, 0, "gw", "S1").cut(1, 0, 0, "S1").capture(1, 0, 0, "gw", "S1")
    assert made.script[2:6] == [On(0, 3), Stream(0, 2, 0, 9), Put(3, 2, 0, b"x"), Put(0, 3, 0, b"\3\0\0")] and Off(9, 3) in made.script
    assert made.prr == {(2, 3): 0.5, (3, 2): 0.5} and made.ratios == {(5, 2, 3): 0.4} and made.hosts == {0: 1, 1: 2}
    assert made.unlink("S1", "A-101").prr == {}
    for call in (lambda: made.off("s1"), lambda: made.stream("s1", 9), lambda: made.every(9, "s1"), lambda: made.unlink("s1", "gw")):
        with pytest.raises(ScenarioError, match="the scenario has no node s1; it has 3 nodes: gw, S1, A-101; did you mean S1?"):
            call()
    # A name may have digits alone, as on the command line, where it comes as a number.
    made.labels[3] = "101"
    assert made.id(101) == made.id("101") == 3 and made.id(3) == 3
    with pytest.raises(ScenarioError, match="`on 0 gw`: 'gw', the id of the node, is a whole number from 1 to 200"):
        two().on("gw")
    with pytest.raises(ValueError, match="`receivers` is 'host', and neither .* nor the name of a node; did you mean hosts?"):
        two().sinks("host")
    with pytest.raises(ValueError, match="`by` is 'nodes', and not one of stream, node, pair, all; did you mean node?"):
        planning.delivery_ratio(log_of(LINE), "nodes")


def test_words_that_a_page_does_not_have(tmp_path: Path) -> None:
    log = results.log(LINE)
    for word, says in (("places", "a page has no 'places'; did you mean positions? it has title, site, plan,"), ("tittle", "did you mean title?"),
                       ("x", "a page has no 'x'; it has title, site")):  # fmt: skip
        for call in (lambda **given: page.write(log, tmp_path / "x.html", **given), lambda **given: page.text(log, **given)):
            with pytest.raises(ArgumentError) as raised:
                call(**{word: {}})
            assert says in str(raised.value)
    assert list(tmp_path.iterdir()) == []
