"""Reception ratios over time: as calls, as lines of a network text, from tables, and as links that are good and bad by turns."""

from __future__ import annotations

import json
from collections import defaultdict
from fractions import Fraction
from pathlib import Path

import numpy
import pandas
import pytest
from conftest import REPOSITORY
from fixed_point import bound as bound_of, every_loss

from foldcairn.common.arguments import ArgumentError
from foldcairn.draw import plot
from foldcairn.model import faults, tables
from foldcairn.model.scenario import Ratio, Scenario, ScenarioError, grid, line
from foldcairn.pages.settings import Settings
from foldcairn.runs import losses, results

WORKED = REPOSITORY / "tests" / "worked" / "three-in-a-line.network"


def small() -> Scenario:
    return Scenario.from_graph(line(3), 40, hosts=[1]).stream(3, 8).every(12, 3)


def test_ratios_over_time() -> None:
    made = small().ratio(1, 2, 0.9).ratio(1, 2, 0.5, seconds=41).ratio(1, 2, 1, frame=20).ratio(3, 2, 1 / 3, frame=5)
    assert made.prr == {(1, 2): 0.9}
    assert made.ratio_lines() == [Ratio(0, 1, 2, 0.9), Ratio(5, 3, 2, 1 / 3), Ratio(10, 1, 2, 0.5), Ratio(20, 1, 2, 1)]
    assert made.prr_at() == {(1, 2): 0.9} and made.prr_at(frame=10) == {(1, 2): 0.5, (3, 2): 1 / 3} == made.prr_at(seconds=40)
    assert made.prr_at(frame=39) == {(3, 2): 1 / 3}
    below = ["ratios", "ratio 0 1 2 900000", "ratio 5 3 2 333333", "ratio 10 1 2 500000", "ratio 20 1 2 1000000"]
    assert made.network_text(warn=False) == made.text(warn=False) + "\n".join(below) + "\n"
    # The later of two calls counts, and what goes takes its ratios along.
    assert made.copy().ratio(1, 2, 0.7, frame=10).prr_at(frame=10)[1, 2] == 0.7 and made.prr_at(frame=10)[1, 2] == 0.5
    assert made.copy().unlink(2, 1).ratios == {(5, 3, 2): 1 / 3}
    assert made.is_to_be_drawn and not small().is_to_be_drawn
    assert small().network_text(warn=False) == small().text(warn=False)


@pytest.mark.parametrize(
    ("call", "says"),
    [
        (lambda made: made.ratio(1, 3, 0.5), "`ratio 0 1 3 500000`: there is no link from 1 to 3"),
        (lambda made: made.ratio(1, 2, 0.5, frame=40), "40, the frame, is from 0 to 39"),
        (lambda made: made.ratio(1, 2, 1.5), "`prr` is 1.5, and has to be a number from 0 to 1"),
        (lambda made: made.ratio(1, 2, 0.5, frame=2, seconds=8), "as a frame or in seconds, not as both"),
        (lambda made: made.ratio(1, 9, 0.5), "node 9 is not given"),
    ],
)
def test_ratios_that_are_wrong(call, says) -> None:
    with pytest.raises(ScenarioError) as raised:
        call(small())
    assert says in str(raised.value)


def test_a_network_text_is_read_back() -> None:
    text = WORKED.read_text()
    read = Scenario.read(text)
    assert read.prr == {(1, 2): 0.7, (2, 1): 0.7, (2, 3): 0.7, (3, 2): 0.7} and read.ratios == {}
    assert [row for row in read.network_text(warn=False).splitlines() if row.startswith("ratio")] == text.splitlines()[-5:]
    made = small().ratio(1, 2, 0.25).ratio(2, 1, 0.125, frame=3)
    again = Scenario.read(made.network_text(warn=False))
    assert (again.prr, again.ratios) == (made.prr, made.ratios)
    # A drawn text keeps them as comments, and has no ratios to be drawn once more.
    drawn = losses.draw(made, 3)
    again = Scenario.read(drawn.network_text(warn=False))
    assert (again.seed, again.prr, again.ratios, again.losses) == (3, made.prr, made.ratios, drawn.losses)
    assert "ratios" not in drawn.network_text(warn=False).splitlines()


HEAD = "sends 2\nnode 1 0\nnode 2 0\nhost 0 1\nlink 1 2\nframes 12\nratios\n"


@pytest.mark.parametrize(
    ("text", "says"),
    [
        (HEAD + "lose 0 0 0 1 2\n", "all lines are ratios, and `lose` comes above it"),
        (HEAD + "ratio 0 1 2\n", "`ratio` has 4 values"),
        (HEAD + "ratio 0 1 2 0.5\n", "the fourth value, the ratio, is no number as texts have them: `0.5`"),
        (HEAD + "ratio 0 1 2 1000001\n", "the ratio, is from 0 to 1,000,000 millionths"),
        (HEAD + "ratio 12 1 2 5\n", "the frame, is from 0 to 11, since the run has 12 frames"),
        (HEAD + "ratio 0 1 3 5\n", "no line above is `node 3 OFFSET`"),
        (HEAD + "ratio 0 2 1 5\n", "there is no link from 2 to 1"),
        (HEAD + "ratio 3 1 2 5\n# again\nratio 3 1 2 6\n", "line 8 has frame 3 for this link"),
        (HEAD.replace("host 0 1\n", "") + "ratio 3 1 2 5\n", "line 6: `ratios`: "),
        (
            HEAD.replace("ratios\n", "") + "ratio 0 1 2 5\n",
            "which is read by outcome, fates, sample and draw, and by run and log with a seed; `ratio` lines are below a line `ratios`",
        ),
    ],
)
def test_network_texts_that_are_wrong(text, says) -> None:
    with pytest.raises(ScenarioError) as raised:
        Scenario.read(text)
    assert says in str(raised.value)


def test_more_ratios_than_lines() -> None:
    rows = "".join(f"ratio {number % 12} 1 2 5\n" for number in range(100_000))
    assert "at most 100,000 ratios" in faults.explain(HEAD + rows + "ratio 0 1 2 5\n", 100_008, "TooMany", "outcome")


def test_tables_of_recorded_ratios(tmp_path: Path) -> None:
    (tmp_path / "ratios.csv").write_text("seconds,from,to,prr\n0,1,2,0.9\n60,1,2,0.4\n60,2,1,0.8\n")
    made = tables.set_ratios(small(), tmp_path / "ratios.csv")
    assert made.ratio_lines() == [Ratio(0, 1, 2, 0.9), Ratio(15, 1, 2, 0.4), Ratio(15, 2, 1, 0.8)]
    nodes = pandas.DataFrame({"id": [1, 2], "host": [0, None]})
    links = pandas.DataFrame({"from": [1, 1], "to": [2, 2], "prr": [0.5, 0.25], "frame": [0, 7], "both": ["yes", "yes"]})
    read = Scenario.from_tables(nodes, links, frames=10)
    assert read.prr == {(1, 2): 0.5, (2, 1): 0.5} and read.ratios == {(7, 1, 2): 0.25, (7, 2, 1): 0.25}
    with pytest.raises(ScenarioError, match="row 2: the link from 1 to 2 has the ratio 0.25, and row 1 gives it 0.5"):
        Scenario.from_tables(nodes, links.assign(frame=7), frames=10)


def test_settings_keep_them() -> None:
    made = small().ratio(1, 2, 0.9).ratio(1, 2, 0.5, frame=10)
    kept = Settings.read(json.dumps(json.loads(Settings.of(made).text())))
    again = kept.give(small())
    assert (again.prr, again.ratios) == (made.prr, made.ratios)


def test_a_map_has_the_ratios_of_its_time() -> None:
    made = small().ratio(1, 2, 0.0, frame=10).ratio(2, 1, 0.0, frame=10)
    assert plot.topology(made) is not None and made.cautions() == small().cautions()
    for at_seconds, failed in ((None, False), (36, False), (40, True)):
        key = plot.topology(made, at_seconds=at_seconds).axes[0].get_legend()
        assert ("failed link" in [text.get_text() for text in key.get_texts()]) is failed


# Drawing.


def test_coins_are_of_the_ratio_in_force() -> None:
    made = Scenario(400).node(1).node(2).host(0, 1).pair(1, 2).ratio(1, 2, 0.2).ratio(1, 2, 0.8, frame=200).ratio(2, 1, 0.5, frame=399)
    lost: dict[tuple[int, int, bool], int] = defaultdict(int)
    for loss in every_loss(made, 5, slots=6):
        lost[loss.sender, loss.receiver, loss.frame >= 200] += 1
    count = 200 * 6 * 12
    for late, ratio in ((False, 0.2), (True, 0.8)):
        assert abs(lost[1, 2, late] / count - (1 - ratio)) < 4 * (ratio * (1 - ratio) / count) ** 0.5
    assert lost[2, 1, False] == 0 and 0 < lost[2, 1, True] < 72


def test_a_coin_passes_below_its_ratio_in_millionths() -> None:
    for ratio in (0.0, 1e-7, 0.1, 1 / 3, 0.7, 0.999999, 0.9999999, 1.0):
        bound = bound_of(ratio)
        exact = Fraction(round(1_000_000 * ratio), 1_000_000)
        coins = [Fraction(int(bound * 2**53) + near, 2**53) for near in (-1, 0, 1)]
        assert [float(coin) < bound for coin in coins] == [coin < exact for coin in coins]


def test_drawn_losses_of_ratios_over_time() -> None:
    """What is written makes the run of all losses, as with ratios that stay."""
    made = Scenario.from_graph(grid(2, 2), 26, hosts=[1]).stream(4, 16).every(9, 4)
    for number, link in enumerate(sorted(made.links)):
        made.ratio(*link, 0.7 + 0.02 * number).ratio(*link, 0.5, frame=8 + number).ratio(*link, 1, frame=22)
    whole = made.copy()
    whole.losses = every_loss(made, 2, slots=8)
    drawn = losses.draw(made, 2)
    assert set(drawn.losses) <= set(whole.losses) and 0 < len(drawn.losses) < len(whole.losses)
    assert results.bus(drawn).deliveries.equals(results.bus(whole).deliveries)
    assert max(loss.frame for loss in drawn.losses) < 22


# Links that are good and bad by turns.


def turns(made: Scenario) -> numpy.ndarray:
    """The ratio of each link in each frame."""
    changes = pandas.DataFrame([(one.frame, (one.sender, one.receiver), one.prr) for one in made.ratio_lines()], columns=["frame", "link", "prr"])
    return changes.pivot(index="link", columns="frame", values="prr").reindex(columns=range(made.frames)).ffill(axis=1).fillna(1.0).to_numpy()


@pytest.mark.parametrize(("ratio", "bad", "pair"), [(0.7, 0.1, (0.1, 0.9)), (0.6, None, (0.0, 0.8)), (0.9, None, (0.6, 1.0))])
def test_bursts_have_their_means(ratio, bad, pair) -> None:
    """The mean ratio, and the mean lengths of good and bad times, to four standard errors; a good time has 60 s, a bad one 20 s."""
    network = Scenario.from_graph(line(21), 4_096 // 7, hosts=[1])
    made = losses.bursts(network, 11, good_seconds=60, bad_seconds=20, ratio=ratio, bad=bad)
    ratios = turns(made)
    assert len(ratios) == len(network.links)
    assert numpy.allclose(sorted(set(ratios.ravel())), pair)
    good = ratios == ratios.max()
    for state, mean in ((good, 60), (~good, 20)):
        chance, begun = 4 / mean, state[:, :-1].sum()
        ended = (state[:, :-1] & ~state[:, 1:]).sum()
        assert abs(ended / begun - chance) < 4 * (chance * (1 - chance) / begun) ** 0.5
    # The variance of the mean of a chain of two states: the two chances of a change add up to 4/15.
    spread = (pair[1] - pair[0]) * (0.75 * 0.25 * (2 - 4 / 15) / (4 / 15) / good.size) ** 0.5
    assert abs(ratios.mean() - ratio) < 4 * spread


def test_bursts_depend_on_seed_and_link_alone() -> None:
    network = Scenario.from_graph(grid(2, 3), 200, hosts=[1])
    for link in sorted(network.links):
        network.link(*link, prr=0.8)
    made = losses.bursts(network, -3, good_seconds=40, bad_seconds=12)
    assert made.ratios == losses.bursts(network, -3, good_seconds=40, bad_seconds=12).ratios and network.ratios == {}
    assert made.ratios != losses.bursts(network, 3, good_seconds=40, bad_seconds=12).ratios
    fewer = losses.bursts(network.copy().unlink(1, 2), -3, good_seconds=40, bad_seconds=12)
    assert fewer.ratios == {place: ratio for place, ratio in made.ratios.items() if set(place[1:]) != {1, 2}}
    # One link alone; the others keep what they had.
    one = losses.bursts(network.copy().ratio(2, 1, 0.3, frame=9), -3, good_seconds=40, bad_seconds=12, links=[(1, 2)])
    assert {place[1:] for place in one.ratios} == {(1, 2), (2, 1)} and one.prr[2, 1] == 0.8
    # A link that loses nothing stays as it is.
    assert losses.bursts(small(), 1, good_seconds=40, bad_seconds=12).ratio_lines() == []


@pytest.mark.parametrize(
    ("words", "says"),
    [
        ({"good_seconds": 3}, "`good_seconds` is 3, and has to be a number of at least 4"),
        ({"bad_seconds": float("nan")}, "`bad_seconds` is nan"),
        ({"ratio": 1.1}, "`ratio` is 1.1"),
        ({"ratio": 0.9, "bad": 0.1}, "good ones would need the ratio 1.167"),
        ({"ratio": 0.1, "bad": 0.9}, "take another `bad`, or other lengths"),
        ({"links": [(1, 3)]}, "`links` has (1, 3), and the scenario has no such link"),
    ],
)
def test_bursts_that_are_wrong(words, says) -> None:
    with pytest.raises(ArgumentError) as raised:
        losses.bursts(small(), 1, **{"good_seconds": 60, "bad_seconds": 20, "ratio": 0.7, **words})
    assert says in str(raised.value)


def test_a_link_that_is_gone_takes_its_ratios_along() -> None:
    made = small().ratio(1, 2, 0.5, frame=3)
    made.links.remove((1, 2))
    assert made.ratio_lines() == [] and losses.draw(made, 1).losses == []
