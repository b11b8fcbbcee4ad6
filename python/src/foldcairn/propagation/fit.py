"""The exponent of distance, the deviation of shadowing and the noise that fit what was measured.

Of each link with an RSSI, what its path took beyond the reference loss, walls and floors is 10 exponent log10(d / 1 m) and its shadowing.
The exponent is the slope of the line through 1 m with the least squares in dB, and the deviation is that of what it leaves over (T. S.
Rappaport, Wireless Communications, chapter 4). That alone is too good where links over which nothing came are missing: far links that were
heard are the lucky ones. So links of which a bound is known count too: nothing came, so the loss was more, or all came, so it was
less. The likelihood is then that of a censored normal (J. Tobin, Estimation of relationships for limited dependent variables,
Econometrica 26 (1), 1958). Where no link has a mere bound it is least squares.

The noise is the one with which the curve is nearest to ratios that were measured together with their RSSI: interference and a receiver's
own losses are in it. Tested, not proved.
"""

from __future__ import annotations

import math
from typing import NamedTuple

import numpy
from numpy.typing import ArrayLike
from scipy import special

from ..common.arguments import ArgumentError
from .curve import Numbers, ratio_of_snr
from .path_loss import decades_db

# With fewer links the deviation is hardly known: of ten its interval of 95 % goes from 0.7 to 1.8 times what was found.
LEAST_LINKS = 10
# How many of them have to have a known loss, by an RSSI or since they lose some packets and pass some: others say only whether it is more or less.
LEAST_PARTIAL = 5
# From which to which ratio a link tells its signal to noise ratio.
PARTIAL = (0.05, 0.95)
# Noise is looked for between these, in dBm.
_NOISES = (-120.0, -40.0)


class Fit(NamedTuple):
    """An exponent with its standard error, a deviation in dB, and the numbers of links whose loss is known, and of which a bound is."""

    exponent: float
    error: float
    deviation_db: float
    links: int
    bounds: int = 0


def exponent(metres: ArrayLike, excess_db: ArrayLike, fixed: float | None = None, most_db: ArrayLike | None = None) -> Fit:
    """Fits losses in dB beyond the reference loss, walls and floors, at distances in metres. With `fixed` that exponent is kept, and only the
    deviation is fitted. With `most_db` each loss lies from `excess_db` to there: both are alike where it is known, the lower one may be
    -inf, and the upper one inf.

    Raises `ArgumentError` where the losses of fewer than ten links are known or have a bound, those of fewer than five are known, the numbers
    of distances and losses differ, one is not finite, or no link is longer than 1 m.
    """
    along, low, high = _checked(metres, excess_db, excess_db if most_db is None else most_db)
    known = low == high
    if len(along) < LEAST_LINKS or known.sum() < LEAST_PARTIAL:
        raise ArgumentError(
            f"`metres` has {len(along)} links, {known.sum()} of them with a known loss, and a fit takes at least {LEAST_LINKS}, "
            f"{LEAST_PARTIAL} of them with one"
        )
    squares = float(along[known] @ along[known])
    if squares == 0:
        raise ArgumentError("`metres` has no link that is longer than 1 m, so no exponent fits better than another")
    slope = float(along[known] @ low[known]) / squares if fixed is None else fixed
    left = low[known] - slope * along[known]
    deviation = math.sqrt(float(left @ left) / (len(left) - (fixed is None)))
    if not known.all() and deviation:
        slope, deviation = _likeliest(along, low, high, (slope, deviation), fixed)
    return Fit(slope, deviation / math.sqrt(squares) if fixed is None else 0.0, deviation, int(known.sum()), int((~known).sum()))


def _checked(metres: ArrayLike, least: ArrayLike, most: ArrayLike) -> tuple[Numbers, Numbers, Numbers]:
    """What the exponent is multiplied with, and the bounds of the losses, in dB."""
    distance, low, high = (numpy.asarray(one, dtype=float).ravel() for one in (metres, least, most))
    if not len(distance) == len(low) == len(high) or not numpy.isfinite(distance).all() or not (low <= high).all() or numpy.isinf(low[low == high]).any():
        raise ArgumentError(f"there are {len(distance)} distances, and {len(low)} losses up to {len(high)}: each link has a finite distance and a loss")
    return decades_db(distance), low, high


def _likeliest(along: Numbers, low: Numbers, high: Numbers, start: tuple[float, float], fixed: float | None) -> tuple[float, float]:
    """The exponent and deviation of the greatest likelihood."""
    # Here, since it takes a third of a second to load.
    from scipy import optimize

    known, more, less = low == high, numpy.isinf(high), numpy.isinf(low)

    def unlikely(numbers: Numbers) -> float:
        slope, deviation = float(numbers[0]) if fixed is None else fixed, math.exp(numbers[-1])
        below, above = (low - slope * along) / deviation, (high - slope * along) / deviation
        bounds = float(special.log_ndtr(-below[more]).sum()) + float(special.log_ndtr(above[less]).sum())
        return float(below[known] @ below[known]) / 2 + int(known.sum()) * float(numbers[-1]) - bounds

    first = [math.log(start[1])] if fixed is not None else [start[0], math.log(start[1])]
    found = optimize.minimize(unlikely, first, method="Nelder-Mead", options={"xatol": 1e-6, "fatol": 1e-6}).x
    return float(found[0]) if fixed is None else fixed, math.exp(found[-1])


def noise(rssi_dbm: ArrayLike, ratios: ArrayLike, bits: int) -> float | None:
    """The noise in dBm with which the curve of packets of `bits` bits has the least squares to ratios that were measured at each RSSI.

    None where fewer than ten links have both, or fewer than five of them a ratio from 5 to 95 %.
    """
    power, measured = numpy.asarray(rssi_dbm, dtype=float), numpy.asarray(ratios, dtype=float)
    if len(power) < LEAST_LINKS or ((measured >= PARTIAL[0]) & (measured <= PARTIAL[1])).sum() < LEAST_PARTIAL:
        return None
    step = 4.0
    # From 4 dB down to a hundredth: the curve is steep, so a search from one end would see nothing of it.
    candidates = numpy.arange(_NOISES[0], _NOISES[1] + step, step)
    while True:
        errors = ((ratio_of_snr(power - candidates[:, None], bits) - measured) ** 2).sum(axis=1)
        best = float(candidates[errors.argmin()])
        if step < 0.02:
            return best
        candidates, step = best + numpy.linspace(-step, step, 17), step / 8
