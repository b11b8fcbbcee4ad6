"""Ratios by a survey, by positions where nothing was measured, and by both: counts, what is not known, fits and series."""

from __future__ import annotations

import math
from typing import Any

import numpy
import pytest
from propagation_cases import line

from foldcairn.common.arguments import ArgumentError
from foldcairn.propagation import LinkModel, Losses, Row, curve
from foldcairn.propagation.survey import Pair

# By a survey.


def test_counts_are_drawn_by_their_distribution() -> None:
    rows = [Row("A", "B", sent=20, received=18), Row("B", "A", sent=2000, received=1800)]
    model = line(0, 1, losses=Losses(source="survey"), rows=rows)
    drawn = numpy.array([[*model.draw(seed).values()] for seed in range(1, 4001)])
    assert model.mean() == {("A", "B"): 18.5 / 21, ("B", "A"): 1800.5 / 2001}
    # The deviation of Beta(a, b) is sqrt(a b / (a + b + 1)) / (a + b).
    for column, (ones, zeros) in zip(drawn.T, [(18.5, 2.5), (1800.5, 200.5)]):
        deviation = math.sqrt(ones * zeros / (ones + zeros + 1)) / (ones + zeros)
        assert abs(column.mean() - ones / (ones + zeros)) < 4 * deviation / 4000**0.5
        assert column.std() == pytest.approx(deviation, rel=0.08)
    assert numpy.quantile(drawn[:, 0], [0.025, 0.975]) == pytest.approx([0.7161, 0.9786], abs=0.012)
    assert abs(numpy.corrcoef(drawn.T)[0, 1]) < 4 / 4000**0.5


def test_a_survey_has_its_links_alone() -> None:
    model = line(0, 1, 2, losses=Losses(source="survey"), rows=[Row("A", "B", ratio=0.7), Row("B", "C", ratio=0.04), Row("C", "B", rssi=-60)])
    assert model.mean() == model.draw(1) == {("A", "B"): 0.7, ("C", "B"): 1.0} and model.left_out() == 1


def test_without_losses_each_link_passes_everything() -> None:
    assert line(0, 900, losses=Losses(source="none"), rows=[Row("A", "B", ratio=0.7, both=True)]).draw(1) == {("A", "B"): 1.0, ("B", "A"): 1.0}


def test_a_survey_needs_no_places() -> None:
    places = [[math.nan, math.nan]] * 2
    assert LinkModel(["A", "B"], places, None, Losses(source="survey"), [Row("A", "B", ratio=0.7)]).mean() == {("A", "B"): 0.7}


# What is not known.


@pytest.mark.parametrize("source", ["survey", "both"])
def test_unknown_is_never_a_ratio_of_one(source: str) -> None:
    rows = [Row("A", "B", ratio="n/a", where="survey.csv, row 1"), Row("B", "A", ratio=0.5)]
    settings = {"source": source, "exponent": 3, "deviation_db": 0, "bytes": 40}
    with pytest.raises(ArgumentError, match="survey.csv, row 1, A to B: nothing is given that was measured; write a ratio, .* or set unknown = "):
        line(0, 80, losses=Losses(**settings), rows=rows)
    assert line(0, 80, losses=Losses(unknown="none", **settings), rows=rows).mean() == {("B", "A"): 0.5}
    filled = line(0, 80, losses=Losses(unknown="positions", **settings), rows=rows).mean()
    assert filled == {("A", "B"): pytest.approx(0.98897, abs=5e-6), ("B", "A"): 0.5}


# Both.


def test_measured_where_it_was_and_positions_for_the_rest() -> None:
    both = Losses(source="both", exponent=3, deviation_db=0, bytes=40)
    model = line(0, 30, 80, losses=both, rows=[Row("A", "B", ratio=0.25), Row("B", "A", ratio=0.5)])
    assert model.mean() == {
        ("A", "B"): 0.25, ("B", "A"): 0.5, ("A", "C"): pytest.approx(0.98897, abs=5e-6), ("C", "A"): pytest.approx(0.98897, abs=5e-6),
        ("B", "C"): pytest.approx(1), ("C", "B"): pytest.approx(1),
    }  # fmt: skip
    assert model.unheard == 0


def test_nothing_received_in_a_survey_is_no_link() -> None:
    rows = [Row("A", "B", ratio=0.9, both=True), Row("C", "B", ratio=0.8, both=True)]
    settings = {"source": "both", "exponent": 3, "deviation_db": 0, "bytes": 40}
    heard = line(0, 10, 20, losses=Losses(**settings), rows=rows)
    assert heard.unheard == 2 and set(heard.mean()) == {("A", "B"), ("B", "A"), ("C", "B"), ("B", "C")}
    filled = line(0, 10, 20, losses=Losses(unheard="positions", **settings), rows=rows)
    assert filled.unheard == 0 and filled.mean()["A", "C"] == pytest.approx(1)


def surveyed(count: int, slope: float, deviation: float, correlation: float = 1.0, **settings: Any) -> tuple[LinkModel, dict[Pair, float]]:
    """A model of 30 nodes, of which the first `count` have an RSSI from each other that was drawn by known numbers, with that RSSI."""
    generator = numpy.random.default_rng(8)
    places, names = generator.uniform(0, 50, (30, 2)), [f"N-{place:02}" for place in range(30)]
    power = {}
    for one in range(count):
        for other in range(one + 1, count):
            metres = max(1.0, math.dist(places[one], places[other]))
            power[names[one], names[other]] = -40.2 - 10 * slope * math.log10(metres) + generator.normal(0, deviation)
    rows = [Row(*pair, rssi=rssi, both=True) for pair, rssi in power.items()]
    return LinkModel(names, places, None, Losses(source="both", correlation=correlation, **settings), rows), power


def test_a_survey_of_ratios_alone_is_fitted_too() -> None:
    generator = numpy.random.default_rng(10)
    places, names = generator.uniform(0, 90, (60, 2)), [f"N-{place:02}" for place in range(60)]
    rows = []
    for one in range(40):
        for other in range(40):
            if one != other:
                power = -40.2 - 30 * math.log10(max(1.0, math.dist(places[one], places[other]))) + generator.normal(0, 5)
                received = int(generator.binomial(200, float(curve.ratio_of_snr(power + 98, 384))))
                if received:
                    rows.append(Row(names[one], names[other], sent=200, received=received))
    model = LinkModel(names, places, None, Losses(source="both", bytes=40), rows)
    assert model.fitted is not None and model.fitted.links < 400 < model.fitted.bounds and model.unheard == 40 * 39 - len(rows) > 50
    assert abs(model.fitted.exponent - 3) < 0.1 and abs(model.fitted.deviation_db - 5) < 1


def test_exponent_and_deviation_are_fitted_to_rssi() -> None:
    model, power = surveyed(24, 2.6, 5.0)
    fitted = model.fitted
    assert fitted is not None and fitted.links == 2 * len(power) == 2 * 276
    # A row counts for both directions, so the error is that of half as many.
    assert abs(fitted.exponent - 2.6) < 4 * fitted.error * 2**0.5 and abs(fitted.deviation_db - 5) < 4 * 5 / (2 * 276) ** 0.5
    assert surveyed(24, 2.6, 5.0, exponent=3.0, deviation_db=1.0)[0].fitted is not None
    assert surveyed(24, 2.6, 5.0, fit=False, preset="office")[0].fitted is None


def test_noise_is_fitted_where_ratios_have_their_rssi() -> None:
    generator = numpy.random.default_rng(9)
    rows = []
    for place in range(40):
        rssi = float(generator.uniform(-95, -85))
        received = int(generator.binomial(100, float(curve.ratio_of_snr(rssi + 90, 384))))
        rows.append(Row("A", f"N-{place}", sent=100, received=received, rssi=rssi))
    names, places = ["A"] + [f"N-{place}" for place in range(40)], [[0, 0]] + [[1, 1]] * 40
    fitted = LinkModel(names, places, None, Losses(source="survey", bytes=40), rows + [Row("N-0", "A", rssi=-90)])
    assert fitted.noise_dbm == pytest.approx(-90, abs=0.25)
    # What has an RSSI alone goes by that noise: 0 dB above it, in place of 8.
    assert fitted.mean()["N-0", "A"] == pytest.approx(float(curve.ratio_of_snr(-90 - fitted.noise_dbm, 384)), rel=1e-9)
    given = LinkModel(names, places, None, Losses(source="survey", bytes=40, fit=False), rows)
    assert given.noise_dbm == -98 and given.mean()["A", "N-0"] == fitted.mean()["A", "N-0"]


def test_numbers_that_are_given_go_before_fitted_ones() -> None:
    given = surveyed(24, 2.6, 5.0, exponent=3.0, deviation_db=0.0)[0]
    unfitted = surveyed(24, 2.6, 5.0, exponent=3.0, deviation_db=0.0, fit=False)[0]
    assert given.mean() == unfitted.mean() and given.draw(5) == unfitted.draw(5)


def test_too_few_rssi_for_a_fit() -> None:
    with pytest.raises(ArgumentError, match="ratios by positions need `exponent`, or a `preset` .* at least 10 measured links to fit it, 5 of"):
        surveyed(3, 2.6, 5.0)
    assert surveyed(3, 2.6, 5.0, preset="office")[0].fitted is None


def test_the_other_direction_has_the_shadowing_that_was_measured() -> None:
    rows, losses = [Row("A", "B", rssi=-97.5)], Losses(source="both", exponent=3, deviation_db=8, bytes=40)
    model = line(0, 10, losses=losses, rows=rows)
    # By positions it would be -70.2 dBm; with one shadowing for both directions it is what was measured, whatever the seed.
    expected = pytest.approx(float(curve.ratio_of_snr(0.5, 384)), rel=1e-9)
    assert model.mean()["A", "B"] == model.draw(1)["B", "A"] == model.draw(2)["B", "A"] == expected and model.mean()["B", "A"] == expected
    half = line(0, 10, losses=Losses(source="both", exponent=3, deviation_db=8, bytes=40, correlation=0.5, least=0), rows=rows)
    # The mean is then half way, -83.85 dBm, and the deviation 8 sqrt(1 - 0.25).
    assert half.mean()["B", "A"] == pytest.approx(float(curve.expected_ratio(98 - 83.85, 8 * 0.75**0.5, 384)), rel=1e-9)


# Series.


def test_series_of_a_link() -> None:
    rows = [Row("A", "B", ratio=0.9, at=10), Row("A", "B", ratio=0.3, at=70), Row("B", "A", ratio=0.5), Row("B", "C", ratio=0.01, at=0),
            Row("B", "C", ratio=0.02, at=9)]  # fmt: skip
    model = line(0, 1, 2, losses=Losses(source="survey"), rows=rows)
    assert model.series() == model.series(4) == {("A", "B"): [(0.0, 0.9), (70.0, 0.3)]}
    assert model.mean() == {("A", "B"): pytest.approx(0.6), ("B", "A"): 0.5} and model.left_out() == 1


def test_series_of_counts_are_drawn_one_by_one() -> None:
    rows = [Row("A", "B", sent=20, received=18, at=0), Row("A", "B", sent=20, received=18, at=60)]
    model = line(0, 1, losses=Losses(source="survey"), rows=rows)
    assert model.series() == {("A", "B"): [(0.0, 18.5 / 21), (60.0, 18.5 / 21)]}
    drawn = numpy.array([[ratio for _, ratio in model.series(seed)["A", "B"]] for seed in range(1, 1001)])
    assert abs(numpy.corrcoef(drawn.T)[0, 1]) < 4 / 1000**0.5 and numpy.abs(drawn.mean(axis=0) - 18.5 / 21).max() < 0.01
    assert model.draw(3)["A", "B"] == pytest.approx(drawn[2].mean())
    assert line(0, 1, losses=Losses(source="survey"), rows=rows[:1]).draw(3)["A", "B"] == drawn[2][0]


def test_a_series_with_a_good_time_stays() -> None:
    rows = [Row("A", "B", ratio=0.0, at=second) for second in range(29)] + [Row("A", "B", ratio=0.9, at=29)]
    assert line(0, 1, losses=Losses(source="survey"), rows=rows).mean() == {("A", "B"): pytest.approx(0.03)}
