"""How sure a mean over seeds is: confidence intervals by Student's distribution, and how likely a change is by chance.

Each seed is one draw of all losses, so the values of seeds are independent, and few: with four seeds an interval of 95 % is
3.2 standard errors to each side, not two. Packets of one seed are lost together, as in the same bad time or for want of the same host. So
a share of packets is judged by how it spreads over the seeds, each of which is a cluster of packets. Where all seeds agree, as where
nothing was lost in any, there is no spread to judge by, and then all packets together are: by the interval of Clopper and Pearson
(Biometrika 26, 1934) for so many trials. It takes packets for independent, so it is the least that there is to doubt. Of n packets that
all arrived it begins near 1 - 3.7 / n; with 95 % to one side it is the rule of three, 1 - 3 / n (Hanley and Lippman-Hand, JAMA 249, 1983).
Tested, not proved.
"""

from __future__ import annotations

from collections.abc import Iterable, Sequence
from typing import Any

import numpy as np
import pandas as pd
from numpy.typing import ArrayLike, NDArray

from ..common import arguments


def of_mean(values: ArrayLike, confidence: float = 0.95) -> tuple[float, float, float]:
    """The mean of values that were drawn independently, and the interval that has the true mean with a confidence.

    Parameters
    ----------
    values : array
        The values; those that are not numbers (NaN) are left out.
    confidence : float
        The confidence, between 0 and 1.

    Returns
    -------
    tuple of float
        The mean, and the lower and the upper end; the ends are missing for fewer than two values, and the mean for none.

    Raises
    ------
    ArgumentError
        Where the confidence is not between 0 and 1.
    """
    share = arguments.real("confidence", confidence, 0, 1, above=0)
    known = _known(values)
    if len(known) == 0:
        return float("nan"), float("nan"), float("nan")
    mean = float(known.mean())
    if len(known) < 2:
        return mean, float("nan"), float("nan")
    half = float(_errors((1 + share) / 2, len(known) - 1) * known.std(ddof=1) / len(known) ** 0.5)
    return mean, mean - half, mean + half


def over_seeds(
    values: ArrayLike, confidence: float = 0.95, *, bounds: tuple[float, float] = (-np.inf, np.inf), packets: ArrayLike | None = None
) -> pd.DataFrame:
    """How numbers spread over seeds.

    Other numbers than shares of packets that are the same in all seeds have an interval without width, which says nothing of what is
    rarer than one seed.

    Parameters
    ----------
    values : array
        A row for each seed and a column for each number; what is not a number (NaN) is left out.
    confidence : float
        That of the interval, between 0 and 1.
    bounds : tuple of two float
        Between which a number can be.
    packets : array, optional
        Where the numbers are shares of packets, of how many, in the same form.

    Returns
    -------
    pandas.DataFrame
        A row for each number.

        packets
            of how many packets the share is, of all seeds together, if that is given
        seeds
            how many seeds have it
        mean, error
            the mean, and its standard error: the sample standard deviation over the square root of `seeds`
        low, high
            the interval that has the mean of all seeds with this confidence, by Student's distribution (`of_mean`), cut to the `bounds`
            that a number can have; of a share that is the same in all seeds, by the number of its packets (Clopper and Pearson)
        least, p5, p50, p95, greatest
            the quantiles over the seeds: the least, those of 5, 50 and 95 %, and the greatest

    Raises
    ------
    ArgumentError
        Where the confidence is not between 0 and 1.
    """
    part = arguments.real("confidence", confidence, 0, 1, above=0)
    table = pd.DataFrame(np.asarray(values, dtype=np.float64))
    seeds, mean, error = table.count(), table.mean(), table.sem()
    half = _errors((1 + part) / 2, seeds.to_numpy() - 1) * error
    low, high = (mean - half).clip(*bounds), (mean + half).clip(*bounds)
    counted: dict[str, pd.Series] = {}
    if packets is not None:
        counted["packets"] = pd.DataFrame(np.asarray(packets, dtype=np.float64)).where(table.notna()).sum().astype("int64")
        agree = (seeds > 1) & (table.max() == table.min()) & (counted["packets"] > 0)
        low[agree], high[agree] = of_share(mean[agree], counted["packets"][agree], part)
    found = {**counted, "seeds": seeds.astype("int64"), "mean": mean, "error": error, "low": low, "high": high}
    spread = table.quantile(list(_QUANTILES.values()))
    return pd.DataFrame({**found, **{name: spread.loc[quantile] for name, quantile in _QUANTILES.items()}})


def of_share(share: ArrayLike, packets: ArrayLike, confidence: float = 0.95) -> tuple[NDArray[np.float64], NDArray[np.float64]]:
    """The interval of Clopper and Pearson that has a true share with a confidence.

    Parameters
    ----------
    share : array
        The part that was counted, 0 to 1.
    packets : array
        Of how many packets, each for itself.
    confidence : float
        The confidence, between 0 and 1.

    Returns
    -------
    tuple of numpy.ndarray
        The lower and the upper ends, 0 to 1.
    """
    # The function `proportion_confint` of statsmodels calls the same, and to load it takes longer than most answers.
    from scipy import special

    count, part = np.asarray(packets, dtype=np.float64), (1 - confidence) / 2
    hits = np.round(np.asarray(share, dtype=np.float64) * count)
    with np.errstate(invalid="ignore"):
        low = np.where(hits > 0, special.betaincinv(np.maximum(hits, 1), count - hits + 1, part), 0.0)
        high = np.where(hits < count, special.betaincinv(hits + 1, np.maximum(count - hits, 1), 1 - part), 1.0)
    return low, high


def packets_to_show(share: float) -> int:
    """How many packets have to arrive, and all of them, to show with 95 % that no less than a share does.

    It is the rule of three: 3,000 for 99.9 %.

    Parameters
    ----------
    share : float
        The share, 0 to below 1.

    Returns
    -------
    int
        The number of packets.
    """
    return round(3 / (1 - share))


# Of fewer values of one sign the sign test gives more than 0.05.
_SIGNS_LEAST = 6
_QUANTILES = {"least": 0.0, "p5": 0.05, "p50": 0.5, "p95": 0.95, "greatest": 1.0}


def chance(changes: ArrayLike) -> float:
    """How likely a mean so far from 0 would be if the true mean were 0, by Student's distribution.

    Values that are all the same have no spread to judge them by. Where they are 0 the chance is 1. Where they are not, it is that of
    the sign test: that so many values lie on one side of 0, 2^(1 - n) for n values. It is missing for fewer than six values, of which the
    test can't find any change.

    Parameters
    ----------
    changes : array
        The values; those that are not numbers (NaN) are left out.

    Returns
    -------
    float
        It is 0 to 1, and missing for fewer than two values.
    """
    known = _known(changes)
    if len(known) < 2:
        return float("nan")
    if np.ptp(known) == 0:
        return 1.0 if known[0] == 0 else 2.0 ** (1 - len(known)) if len(known) >= _SIGNS_LEAST else float("nan")
    # The functions of `scipy.stats` call these, and to load it takes longer than most answers.
    from scipy import special

    errors = float(known.mean() / (known.std(ddof=1) / len(known) ** 0.5))
    return float(2 * special.stdtr(len(known) - 1, -abs(errors)))


def adjusted(chances: Iterable[float]) -> list[float]:
    """Chances of several changes that are looked at together, by Holm's method.

    With a bound of 0.05 on these, in 5 % of all tables in which nothing changes one change at most is called real.

    Parameters
    ----------
    chances : iterable of float
        The chances of the single changes, 0 to 1.

    Returns
    -------
    list of float
        The chances in the same order; what is missing stays missing.
    """
    from statsmodels.stats.multitest import multipletests

    values = np.array(list(chances), dtype=np.float64)
    known = ~np.isnan(values)
    if known.any():
        values[known] = multipletests(values[known], method="holm")[1]
    return [float(value) for value in values]


def means(table: pd.DataFrame, by: str | Sequence[str], columns: Sequence[str], confidence: float = 0.95) -> pd.DataFrame:
    """The means of a sweep's columns over its seeds.

    Parameters
    ----------
    table : pandas.DataFrame
        The table of a sweep.
    by : str or sequence of str
        The columns whose values have a row each.
    columns : sequence of str
        The columns whose means are asked.
    confidence : float
        The confidence, between 0 and 1.

    Returns
    -------
    pandas.DataFrame
        A row for each value of `by`: `cases` counts its rows, and each column has its mean, and the ends `.._low` and `.._high` (`of_mean`).

    Raises
    ------
    ArgumentError
        Where a column is missing.
    """
    keys = [by] if isinstance(by, str) else list(by)
    if lacking := [name for name in (*keys, *columns) if name not in table]:
        raise arguments.ArgumentError(f"the table has no column {', '.join(lacking)}; it has {', '.join(map(str, table.columns))}")
    rows: list[dict[str, Any]] = []
    for value, part in table.groupby(keys):
        found: dict[str, Any] = dict(zip(keys, value if isinstance(value, tuple) else (value,)))
        found["cases"] = len(part)
        for name in columns:
            found[name], found[f"{name}_low"], found[f"{name}_high"] = of_mean(part[name].astype("float64"), confidence)
        rows.append(found)
    return pd.DataFrame(rows)


def _errors(part: float, freedom: ArrayLike) -> Any:
    """Below how many standard errors this part of Student's distribution lies; not a number without a degree of freedom."""
    from scipy import special

    degrees = np.asarray(freedom, dtype=np.float64)
    return special.stdtrit(np.where(degrees > 0, degrees, np.nan), part)


def _known(values: ArrayLike) -> NDArray[np.float64]:
    known: NDArray[np.float64] = np.asarray(values, dtype=np.float64)
    return known[~np.isnan(known)]
