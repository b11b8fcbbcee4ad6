"""Surveys: counts, RSSI, series over time, what is not known, and rows that contradict each other."""

from __future__ import annotations

from datetime import datetime, timedelta, timezone
from typing import Any

import numpy
import pandas
import pytest
from propagation_cases import cases, near

from foldcairn.common.arguments import ArgumentError
from foldcairn.propagation import Losses, Row, curve, survey
from foldcairn.propagation.posterior import Posteriors
from foldcairn.propagation.survey import Sample


def read(*rows: Row, noise: float = -98.0, bits: int = 384) -> survey.Survey:
    return survey.read(rows, noise, bits)


# Counts.


def test_beta() -> None:
    for received, sent, mean, low, high in cases("beta"):
        assert survey.beta(received, sent) == near("beta", (mean, low, high))


def test_the_worked_check_of_twenty_probes() -> None:
    assert [round(number, 4) for number in survey.beta(18, 20)] == [0.8810, 0.7161, 0.9786]


def test_beta_is_symmetric_and_narrows_with_more_probes() -> None:
    one, other = survey.beta(7, 30, 0.9), survey.beta(23, 30, 0.9)
    assert (one.mean, one.low, one.high) == pytest.approx((1 - other.mean, 1 - other.high, 1 - other.low))
    widths = [survey.beta(9 * count, 10 * count) for count in (1, 2, 20, 200)]
    assert all(wide.high - wide.low > narrow.high - narrow.low for wide, narrow in zip(widths, widths[1:]))


@pytest.mark.parametrize(
    ("received", "sent", "says"),
    [
        (21, 20, "`received` is 21, and has to be a whole number from 0 to 20"),
        (-1, 20, "`received` is -1"),
        (1.5, 20, "`received` is 1.5"),
        (0, -1, "`sent` is -1"),
        (1, "20", "`sent` is '20', and has to be a whole number of at least 0; write 20 without quotes"),
    ],
)
def test_counts_that_are_none(received: Any, sent: Any, says: str) -> None:
    with pytest.raises(ArgumentError, match=says):
        survey.beta(received, sent)


def test_tabled_quantiles_are_those_of_the_distribution() -> None:
    from scipy import stats

    shares = numpy.array([1e-9, 0.001, 0.025, 0.3, 0.5, 0.9, 0.975, 0.9999])
    for received, sent in ((0, 0), (0, 1), (1, 1), (18, 20), (0, 20), (20, 20), (250, 500), (500, 500), (7, 4000)):
        found = Posteriors(numpy.full(8, received), numpy.full(8, sent)).quantiles(shares)
        assert found == pytest.approx(stats.beta(received + 0.5, sent - received + 0.5).ppf(shares), abs=2e-5)
    mixed = Posteriors(numpy.array([18, 0, 18]), numpy.array([20, 20, 20])).quantiles(numpy.array([0.025, 0.975, 0.975]))
    assert mixed == pytest.approx([0.716146742696, 0.116638982905, 0.978627511978], abs=2e-5)


# Rows.


def test_what_a_row_measured() -> None:
    assert read(Row("A", "B", ratio=0.9)).links == {("A", "B"): (Sample(0.0, 0.9),)}
    assert read(Row("A", "B", sent=20, received=18)).links["A", "B"] == (Sample(0.0, 18.5 / 21, 18, 20),)
    assert read(Row("A", "B", sent=500, ratio=0.998, rssi=-80)).links["A", "B"] == (Sample(0.0, 499.5 / 501, 499, 500, -80.0),)
    assert read(Row("A", "B", ratio="0.25", both=True)).links == {("A", "B"): (Sample(0.0, 0.25),), ("B", "A"): (Sample(0.0, 0.25),)}
    assert read(Row(1, 2, sent=numpy.int64(4), received=numpy.float64(4))).links[1, 2] == (Sample(0.0, 0.9, 4, 4),)


def test_rssi() -> None:
    for rssi, noise, length, ratio in cases("rssi"):
        (found,) = read(Row("A", "B", rssi=rssi), noise=noise, bits=curve.packet_bits(length)).links["A", "B"]
        assert found.ratio == near("rssi", ratio) and found.rssi == rssi


@pytest.mark.parametrize("cell", [None, "", " ", "-", "–", "n/a", "N/A", "NaN", float("nan"), pandas.NA, pandas.NaT, numpy.float64("nan")])
def test_a_cell_that_is_not_known_is_no_ratio(cell: Any) -> None:
    found = read(Row("A", "B", ratio=cell), Row("B", "A", ratio=0.5, where="survey.csv, row 7"))
    assert found.links == {("B", "A"): (Sample(0.0, 0.5),)} and found.unknown == {("A", "B"): "row 1 of the survey"}
    # Without a ratio the counts say nothing, and no packet was sent where 0 were.
    assert read(Row("A", "B", ratio=cell, sent=20)).links == read(Row("A", "B", received=0, sent=0)).links == {}


@pytest.mark.parametrize(
    ("row", "says"),
    [
        (Row("A", "B", ratio=80), "row 1 of the survey, A to B: `ratio` is 80, and has to be a number from 0.0 to 1.0"),
        (Row("A", "B", ratio="high"), "`ratio` is 'high', and has to be a number, or blank, n/a or a dash where it is not known"),
        (Row("A", "B", rssi=85), "A to B: `rssi` is 85, and has to be a number from -150.0 to 30.0"),
        (Row("A", "B", received=3), "`received` is 3, and `sent` is not given: write how many packets were sent"),
        (Row("A", "B", received=30, sent=20, where="survey.csv, row 4"), "survey.csv, row 4, A to B: `received` is 30, and has to be a whole number from"),
        (Row("A", "B", received=3.5, sent=20), "`received` is 3.5, and has to be a whole number from 0 to 20"),
        (Row("A", "A", ratio=0.5), "A to A: a node has no link to itself"),
        (Row("A", "B", ratio=0.5, at="noon"), "row 1 of the survey: `at` is 'noon', and has to be seconds or a time stamp as 2026-01-31"),
        (Row("A", "B", ratio=0.5, at=-1), "row 1 of the survey: `at` is -1, and has to be a number of at least 0"),
        (Row("A", "B", ratio=0.5, at=float("inf")), "`at` is inf, and has to be a number"),
    ],
)  # fmt: skip
def test_rows_that_are_wrong(row: Row, says: str) -> None:
    with pytest.raises(ArgumentError) as raised:
        read(row)
    assert says in str(raised.value)


# Several rows of one link.


def test_counts_of_one_link_are_added_up() -> None:
    found = read(Row("A", "B", sent=20, received=18), Row("A", "B", sent=20, received=18), Row("A", "B", sent=10, received=2))
    assert found.links["A", "B"] == (Sample(0.0, 38.5 / 51, 38, 50),)


def test_the_same_ratio_twice_is_one() -> None:
    assert read(Row("A", "B", ratio=0.9), Row("B", "A", ratio=0.9, both=True)).links == {("A", "B"): (Sample(0.0, 0.9),), ("B", "A"): (Sample(0.0, 0.9),)}


def test_rows_that_disagree() -> None:
    with pytest.raises(ArgumentError, match="row 2 of the survey, A to B: the link has the ratio 0.4 here and 0.9 in another row, at the same time; write"):
        read(Row("A", "B", ratio=0.9), Row("A", "B", ratio=0.4))
    with pytest.raises(ArgumentError, match="at the same time"):
        read(Row("A", "B", ratio=0.9, at=5), Row("A", "B", ratio=0.4, at="5.0"))
    with pytest.raises(ArgumentError, match="this row has a time and others of the link have none"):
        read(Row("A", "B", ratio=0.9), Row("A", "B", ratio=0.4, at=5))


# Series.


def test_series() -> None:
    for rows, pieces in cases("series"):
        given = [Row(one, other, ratio=ratio, at=at) for one, other, at, ratio in rows]
        found = read(*given).links
        assert {f"{one}>{other}" for one, other in found} == set(pieces)
        for (one, other), samples in found.items():
            held = [(piece.seconds if place else 0.0, piece.ratio) for place, piece in enumerate(samples)]
            assert held == [near("series", tuple(piece)) for piece in pieces[f"{one}>{other}"]]


def test_twelve_rows_of_one_link_are_a_series() -> None:
    start = datetime(2026, 11, 20, 8, tzinfo=timezone.utc)
    rows = [Row("A", "B", rssi=-95.0 - minute / 10, at=start + timedelta(minutes=5 * minute)) for minute in range(12)]
    found = read(*reversed(rows)).links["A", "B"]
    assert [one.seconds for one in found] == [300.0 * place for place in range(12)]
    assert [one.rssi for one in found] == [pytest.approx(-95.0 - minute / 10) for minute in range(12)]


def test_an_unknown_sample_leaves_the_one_before_it() -> None:
    found = read(Row("A", "B", ratio=0.9, at=0), Row("A", "B", ratio="-", at=10), Row("A", "B", ratio=0.2, at=20))
    assert [(one.seconds, one.ratio) for one in found.links["A", "B"]] == [(0.0, 0.9), (20.0, 0.2)] and found.unknown == {}


def test_times_of_two_kinds() -> None:
    with pytest.raises(ArgumentError, match="row 2 of the survey: `at` is 5, and other rows have time stamps; write all times alike"):
        read(Row("A", "B", ratio=0.9, at="2026-01-31 14:05:00"), Row("A", "B", ratio=0.4, at=5))
    with pytest.raises(ArgumentError, match="some time stamps .* have a time zone and others have none"):
        read(Row("A", "B", ratio=0.9, at="2026-01-31 14:05:00"), Row("A", "B", ratio=0.4, at="2026-01-31T14:05:00Z"))


def test_the_rows_of_a_plan_have_the_settings_of_its_losses() -> None:
    losses = Losses(source="survey", noise_dbm=-97.5, bytes=64)
    assert read(Row("A", "B", rssi=-96), noise=losses.noise_dbm, bits=losses.bits).links["A", "B"][0].ratio == pytest.approx(0.998367986301)
