"""Quantiles of many beta distributions at once, fast enough for each seed. Tested, not proved.

The quantile function of scipy takes some µs each. Here it is tabled for each pair of counts at 97 places, and between them the
logarithm of the odds is interpolated by monotone cubic pieces (F. N. Fritsch and R. E. Carlson, Monotone piecewise cubic interpolation,
SIAM Journal on Numerical Analysis 17 (2), 1980). A ratio so found is within 0.00002 of the exact one.
"""

from __future__ import annotations

import numpy
from scipy import special

from .curve import Numbers

# In deviations of a normal: what 52 bits draw lies within.
_ENDS, _COUNT = 8.25, 97
_GRID = numpy.linspace(-_ENDS, _ENDS, _COUNT)
_STEP = _GRID[1] - _GRID[0]


class Posteriors:
    """The distributions Beta(received + 1/2, sent - received + 1/2) of links, of which each has its own counts."""

    def __init__(self, received: Numbers, sent: Numbers) -> None:
        # Here, since they take a second to load.
        from scipy import stats
        from scipy.interpolate import PchipInterpolator

        kinds, self._kinds = numpy.unique(numpy.column_stack([received, sent]), axis=0, return_inverse=True)
        self._kinds = self._kinds.ravel()
        arrived, lost = kinds[:, 0] + 0.5, kinds[:, 1] - kinds[:, 0] + 0.5
        # From both tails, so that neither loses digits. (The inverse in scipy.special was wrong in the tails before scipy 1.12.)
        grid = _GRID[:, None]
        odds = numpy.log(stats.beta.ppf(special.ndtr(grid), arrived, lost)) - numpy.log(stats.beta.ppf(special.ndtr(-grid), lost, arrived))
        self._pieces = PchipInterpolator(_GRID, odds).c

    def quantiles(self, shares: Numbers) -> Numbers:
        """For each link the ratio that it is below with this share, between 0 and 1, of the probability."""
        place = special.ndtri(shares)
        left = numpy.clip(((place + _ENDS) / _STEP).astype(int), 0, _COUNT - 2)
        cubic, square, line, start = self._pieces[:, left, self._kinds]
        beyond = place - _GRID[left]
        ratios: Numbers = special.expit(((cubic * beyond + square) * beyond + line) * beyond + start)
        return ratios
