"""How sure a mean is, against tables of Student's distribution and Holm's method, and against draws in which nothing changes."""

from __future__ import annotations

import numpy as np
import pandas as pd
import pytest
from scipy import stats
from statsmodels.stats.proportion import proportion_confint

from foldcairn.common.arguments import ArgumentError
from foldcairn.many import intervals


def test_an_interval_by_the_tables_of_student() -> None:
    # Of four values: 3.182 standard errors, and of three with 90 %: 2.920.
    values = [1.0, 2.0, 3.0, 6.0]
    error = np.std(values, ddof=1) / 2
    assert intervals.of_mean(values) == pytest.approx((3.0, 3.0 - 3.182 * error, 3.0 + 3.182 * error), abs=1e-3)
    error = np.std(values[:3], ddof=1) / 3**0.5
    assert intervals.of_mean([*values[:3], np.nan], 0.9) == pytest.approx((2.0, 2.0 - 2.920 * error, 2.0 + 2.920 * error), abs=1e-3)
    mean, low, high = intervals.of_mean([5.0])
    assert mean == 5 and np.isnan(low) and np.isnan(high) and np.isnan(intervals.of_mean([])[0])
    with pytest.raises(ArgumentError, match="`confidence` is 95, and has to be a number from 0 to 1 above 0"):
        intervals.of_mean(values, 95)


def test_how_numbers_spread_over_seeds() -> None:
    # 3.182 standard errors of four values, as above; the quantiles lie between the values, by the part of the way to the next.
    values = np.array([[1.0, np.nan, 0.9, np.nan], [2.0, 5.0, 1.0, np.nan], [3.0, np.nan, 1.0, np.nan], [6.0, np.nan, 1.0, np.nan]])
    table = intervals.over_seeds(values, bounds=(0.0, 6.0))
    error = 14**0.5 / 3**0.5 / 2
    assert table.loc[0].tolist() == pytest.approx([4, 3, error, 0, 6, 1, 1.15, 2.5, 5.55, 6])
    assert intervals.over_seeds(values).loc[0, ["low", "high"]].tolist() == pytest.approx([3 - 3.182 * error, 3 + 3.182 * error], abs=1e-3)
    assert table.loc[1].tolist() == pytest.approx([1, 5, *[np.nan] * 3, *[5] * 5], nan_ok=True)
    assert intervals.over_seeds(values, bounds=(0.0, 1.0)).loc[2, ["mean", "error", "high"]].tolist() == pytest.approx([0.975, 0.025, 1])
    assert table["seeds"].tolist() == [4, 1, 4, 0] and table.loc[3, "mean":].isna().all()
    # With 90 %: 2.353 standard errors.
    assert intervals.over_seeds(values, 0.9).loc[0, "low"] == pytest.approx(3 - 2.353 * error, abs=1e-3)
    with pytest.raises(ArgumentError, match="`confidence` is 95"):
        intervals.over_seeds(values, 95)


def test_shares_that_are_the_same_in_all_seeds() -> None:
    """By all packets together, as statsmodels has the interval of Clopper and Pearson; shares that differ by the spread of the seeds."""
    values = np.array([[1.0, 0.0, 0.8, 0.9, 1.0, np.nan], [1.0, 0.0, 0.8, 1.0, 1.0, 1.0], [1.0, 0.0, 0.8, 0.8, np.nan, np.nan]])
    table = intervals.over_seeds(values, bounds=(0.0, 1.0), packets=np.full((3, 6), 10))
    assert table["packets"].tolist() == [30, 30, 30, 30, 20, 10]
    for place, (hits, packets) in enumerate([(30, 30), (0, 30), (24, 30), (None, 30), (20, 20)]):
        if hits is None:
            assert table.loc[place, ["low", "high"]].tolist() == pytest.approx([max(0, 0.9 - 4.303 * 0.1 / 3**0.5), 1], abs=1e-3)
        else:
            assert table.loc[place, ["low", "high"]].tolist() == pytest.approx(proportion_confint(hits, packets, method="beta"))
    # One seed is no sample of seeds, and numbers that are no shares of packets have no trials.
    assert table.loc[5, ["low", "high"]].isna().all()
    assert intervals.over_seeds(values, packets=np.zeros((3, 6))).loc[0, ["packets", "low", "high"]].tolist() == [0, 1, 1]
    assert intervals.over_seeds(values, 0.9, packets=np.full((3, 6), 10)).loc[0, "low"] == pytest.approx(proportion_confint(30, 30, 0.1, "beta")[0])
    # Of 3,000 that all arrive the interval with 95 % to one side begins at 99.9 %.
    assert [intervals.packets_to_show(share) for share in (0.9, 0.99, 0.999)] == [30, 300, 3_000]
    assert intervals.of_share(1, 3_000, 0.9)[0] == pytest.approx(0.999, abs=1e-5)


def test_chances() -> None:
    # A mean of 3.182 errors of four values is as far from 0 as 5 % of all are.
    values = np.array([-1.0, 0.0, 0.0, 1.0])
    values = values + 3.1824 * values.std(ddof=1) / 2
    assert intervals.chance(values) == pytest.approx(0.05, abs=1e-4)
    assert intervals.chance([0, 0, 0]) == 1 and np.isnan(intervals.chance([0.3]))
    # Values without a spread: six of one sign come up twice in 2^6 times, five in more than 5 % of all.
    assert np.isnan(intervals.chance([-1, -1])) and np.isnan(intervals.chance([2.0] * 5))
    assert intervals.chance([-1.0] * 6) == pytest.approx(stats.binomtest(0, 6).pvalue) and intervals.chance([3.0] * 10) == pytest.approx(2 / 1024)


def test_several_chances_by_holm() -> None:
    # The least is three times as likely to come up, the next twice, and none is below one before it.
    assert intervals.adjusted([0.04, 0.01, np.nan, 0.03]) == pytest.approx([0.06, 0.03, np.nan, 0.06], nan_ok=True)
    assert intervals.adjusted([]) == []


def test_links_that_change_nothing_are_rarely_called_important() -> None:
    """Four seeds and two errors call 13.9 % of all links important by chance: 40 links give some in nearly each table."""
    chance = np.random.default_rng(1)
    tables = chance.normal(size=(500, 40, 4))
    errors = tables.std(axis=2, ddof=1) / 2
    two_errors = np.abs(tables.mean(axis=2)) > 2 * errors
    assert 0.13 < two_errors.mean() < 0.15 and two_errors.any(axis=1).mean() > 0.98
    inside = [low <= 0 <= high for table in tables[:8] for _, low, high in map(intervals.of_mean, table)]
    assert np.mean(inside) == pytest.approx(0.95, abs=0.03)
    wrong = [min(intervals.adjusted(map(intervals.chance, table))) < 0.05 for table in tables[:10]]
    assert np.mean(wrong) <= 0.15


def test_means_of_a_sweep() -> None:
    table = pd.DataFrame({"contend": [3, 3, 4, 4], "seed": [1, 2, 1, 2], "ratio": [0.5, 0.7, 0.9, 0.9]})
    means = intervals.means(table, "contend", ["ratio"])
    assert means[["contend", "cases", "ratio"]].values.tolist() == [[3, 2, 0.6], [4, 2, 0.9]]
    # Two values: 12.706 standard errors.
    assert means["ratio_low"].tolist() == pytest.approx([0.6 - 12.706 * 0.1, 0.9], abs=1e-3)
    assert intervals.means(table, ["contend", "seed"], ["ratio"])["cases"].tolist() == [1] * 4
    with pytest.raises(ArgumentError, match="the table has no column ratios; it has contend, seed, ratio"):
        intervals.means(table, "contend", ["ratios"])
