"""Ratios by positions as a distribution: what a seed draws, what another node changes, and mistakes."""

from __future__ import annotations

import math
import time
from typing import Any

import numpy
import pytest
from propagation_cases import LINE, cases, line, near

from foldcairn.common.arguments import ArgumentError
from foldcairn.propagation import LinkModel, Losses, Row, curve

def hall(count: int = 48, **settings: Any) -> LinkModel:
    generator = numpy.random.default_rng(5)
    places, floors = generator.uniform([0, 0], [120, 60], (64, 2))[:count], (numpy.arange(64) % 2)[:count]
    return LinkModel([f"N-{place:02}" for place in range(count)], places, floors, Losses(preset="factory-heavy-clutter", **settings), height=6.0)


# By positions.


def test_the_worked_checks() -> None:
    assert line(0, 30).mean() == {("A", "B"): pytest.approx(1, abs=1e-9), ("B", "A"): pytest.approx(1, abs=1e-9)}
    assert round(line(0, 80).mean()["A", "B"], 5) == 0.98897
    for metres, exponent, noise, length, _, ratio in cases("link"):
        model = line(0, metres, losses=Losses(exponent=exponent, deviation_db=0, noise_dbm=noise, bytes=length))
        assert model.mean() == {("A", "B"): near("link", ratio), ("B", "A"): near("link", ratio)} and model.draw(7)["B", "A"] == near("link", ratio)


def test_shadowing_of_a_pair_is_the_cases() -> None:
    for seed, one, other, correlation, deviation, decibels in cases("shadowing"):
        losses = Losses(exponent=3, deviation_db=deviation, correlation=correlation, bytes=40, least=0)
        found = LinkModel([one, other], [[0, 0], [80, 0]], None, losses).draw(seed)[one, other]
        assert found == pytest.approx(float(curve.ratio_of_snr(98 - 40.2 - 30 * math.log10(80) + decibels, 384)), rel=1e-9)


def test_names_that_are_numbers_draw_as_their_digits() -> None:
    places, losses = [[0, 0], [70, 0]], Losses(preset="office")
    assert list(LinkModel([1, 2], places, None, losses).draw(3).values()) == list(LinkModel(["1", "2"], places, None, losses).draw(3).values())


def test_mean_is_over_shadowing() -> None:
    for snr_db, deviation, bits, ratio in cases("expected_ratio"):
        losses = Losses(exponent=2, reference_db=70, noise_dbm=-70 - snr_db, deviation_db=deviation, bytes=bits // 8 - 8, least=0)
        assert line(0, 1, losses=losses).mean()["A", "B"] == near("expected_ratio", ratio)


def test_draws_average_to_the_mean() -> None:
    model = hall(least=0)
    mean = model.mean()
    expected = numpy.array(list(mean.values()))
    drawn = numpy.array([list(model.draw(seed).values()) for seed in range(1, 201)])
    assert list(mean) == list(model.draw(1)) and len(mean) == 2256
    # Both directions have one shadowing, so these are 1,128 values. No deviation of a ratio is above 0.5: five standard errors.
    assert abs((drawn.mean(axis=0) - expected).mean()) < 5 * 0.5 / (1128 * 200) ** 0.5
    # Of links that lose some and pass some, the errors in standard errors have the mean square of a normal.
    middle = (expected > 0.1) & (expected < 0.9)
    errors = (drawn.mean(axis=0) - expected)[middle] / (drawn.std(axis=0)[middle] / 200**0.5)
    assert middle.sum() > 900 and abs(errors).max() < 5 and abs((errors**2).mean() - 1) < 0.25


def test_walls_and_floors_lose() -> None:
    open_plan, walled = line(0, 80), line(0, 80, losses=Losses(exponent=3, deviation_db=0, bytes=40, walls=[[40, -5, 40, 5, 0.9]]))
    assert walled.mean()["A", "B"] == pytest.approx(float(curve.ratio_of_snr(0.707300390242 - 0.9, 384)), rel=1e-9)
    assert walled.mean()["A", "B"] < open_plan.mean()["A", "B"]
    losses = Losses(exponent=3, deviation_db=0, floor_db=10, bytes=40)
    above = LinkModel(["A", "B"], [[0, 0], [0, 0]], [0, 2], losses, height=15.0)
    # 30 m up, through two floors: -84.5136 - 20 dBm, 6.51 dB below the noise.
    assert above.left_out() == 2 and LinkModel(["A", "B"], [[0, 0], [0, 0]], [0, 1], losses, height=30.0).mean()["A", "B"] > 0.999


@pytest.mark.parametrize("correlation", [0.0, 0.6, 1.0])
def test_directions_are_correlated_as_given(correlation: float) -> None:
    model = LinkModel(range(40), [[0, 0]] * 40, None, Losses(exponent=3, deviation_db=6, correlation=correlation, reference_db=97.5, bytes=40, least=0))
    both = []
    for seed in range(1, 21):
        drawn = model.draw(seed)
        both += [(drawn[one, other], drawn[other, one]) for one in range(40) for other in range(one)]
    there, back = numpy.array(both).T
    assert (there == back).all() == (correlation == 1)
    # The ratios keep the order of the shadowing, so the correlation of ranks is that of normals: 6 / pi asin(c / 2).
    ranks = numpy.corrcoef(there.argsort().argsort(), back.argsort().argsort())[0, 1]
    assert ranks == pytest.approx(6 / math.pi * math.asin(correlation / 2), abs=5 / len(both) ** 0.5)


def test_another_node_moves_nothing_else() -> None:
    few, many = hall(20), hall(48)
    for seed in (1, 2, 9_999_999_999_999):
        drawn = many.draw(seed)
        named = set(few.names)
        assert few.draw(seed) == {pair: ratio for pair, ratio in drawn.items() if named >= set(pair)}
    shuffled = LinkModel(["B", "A"], [[70, 0], [0, 0]], None, Losses(preset="office"))
    assert shuffled.draw(4) == LinkModel(["A", "B"], [[0, 0], [70, 0]], None, Losses(preset="office")).draw(4)


def test_seeds_differ_and_repeat() -> None:
    model = hall()
    assert model.draw(1) == hall().draw(1) != model.draw(2)


def test_links_below_least_are_left_out_and_counted() -> None:
    model = line(0, 80, 200)
    assert set(model.mean()) == {("A", "B"), ("B", "A")} and model.left_out() == model.left_out(3) == 4
    assert len(hall().draw(3)) + hall().left_out(3) == 48 * 47
    assert all(ratio >= 0.3 for ratio in hall(least=0.3).draw(3).values()) and hall(least=0).left_out(3) == 0


def test_a_draw_is_fast() -> None:
    """2 to 3 ms on an idle machine; several times that is allowed, for slow machines with coverage."""
    model = hall()
    model.draw(1)
    times = []
    for seed in range(2, 22):
        start = time.process_time()
        model.draw(seed)
        times.append(time.process_time() - start)
    assert min(times) < 0.020, times


# Mistakes.


@pytest.mark.parametrize(
    ("names", "places", "floors", "losses", "rows", "says"),
    [
        (["A", "A"], [[0, 0], [1, 0]], None, LINE, [], "`names` has A twice; names have to differ"),
        (["1", 1], [[0, 0], [1, 0]], None, LINE, [], "`names` has 1 twice"),
        (["A", "B"], [[0, 0]], None, LINE, [], "`places` has the shape (1, 2), and has to have a row of x and y for each of the 2 nodes"),
        (["A", "B"], [[0, 0], [1, 0]], [0, 0.5], LINE, [], "`floors` has to be a whole number for each of the 2 nodes"),
        (["A", "B"], [[0, 0], [1, 0]], [0, 1], LINE, [], "nodes are on several floors: `floor_db` is not given, nor a `preset` (office, "),
        (["A", "B"], [[0, 0], [math.nan, 0]], None, LINE, [], "node B has no place (x, y), and ratios of its links come from positions"),
        (["A", "B"], [[0, 0], [1, 0]], None, Losses(), [], "ratios by positions need `exponent`, or a `preset` (office, "),
        (["A", "B"], [[0, 0], [1, 0]], None, Losses(exponent=3), [], "ratios by positions need `deviation_db`, or a `preset` (office, "),
        (["A-101", "B"], [[0, 0], [1, 0]], None, LINE, [Row("A101", "B")], "row 1 of the survey: there is no node A101; did you mean A-101?"),
    ],
)  # fmt: skip
def test_models_that_are_none(names: Any, places: Any, floors: Any, losses: Losses, rows: Any, says: str) -> None:
    with pytest.raises(ArgumentError) as raised:
        LinkModel(names, places, floors, losses, rows)
    assert str(raised.value).startswith(says)


@pytest.mark.parametrize("seed", [-1, 10_000_000_000_000, 1.5, "1", None])
def test_seeds_that_are_none(seed: Any) -> None:
    with pytest.raises(ArgumentError, match="`seed` is .*, and has to be a whole number from 0 to 9,999,999,999,999"):
        line(0, 1).draw(seed)


def test_one_node_has_no_links() -> None:
    assert line(0).mean() == line(0).draw(1) == line(0).series() == {} and line(0).left_out() == 0
