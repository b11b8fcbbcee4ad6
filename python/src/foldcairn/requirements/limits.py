"""The ends of intervals of what draws say: of a share of packets, of a part of the draws, and of a mean.

Each function takes the error of one end: how often, 0 to 1, the true value may lie beyond it. A draw is a cluster: its packets see the same
ratios, hosts and queues.

- A share of packets is the mean of the shares in the draws. Its interval is that of Korn and Graubard (Survey Methodology 24, 1998), as for
  proportions near 0 or 1 of clustered surveys: that of Clopper and Pearson (Biometrika 26, 1934) for as many packets as the draws are worth. The
  number of packets is divided by the design effect, which is the variance of the mean between draws (the cluster-robust one) over that of
  independent packets, and never below 1. For the variance is known from few draws, it is multiplied by the square of a ratio of two quantiles
  of Student's distribution, for the packets and for the draws. Where all draws agree there is no design effect to be seen, and all packets
  count.
- Where each draw has a network of its own (its ratios are drawn), rare networks may be otherwise than all that were drawn. Of what none of n
  draws showed, the part may be up to 1 - e^(1/n) with error e (Clopper and Pearson for 0 of n). In that part all packets may be late, or none.
  Half of the error is for that, half for the interval.
- A part of the draws has the interval of Clopper and Pearson for so many draws.
- A mean of times has Student's interval.

Tested, not proved.
"""

from __future__ import annotations

import math
from collections.abc import Sequence
from dataclasses import dataclass

# The functions of `scipy.stats` and `statsmodels` call those of `scipy.special`, which is loaded where it is needed: both take longer to load
# than a verdict takes.

Ends = tuple[float, float]


@dataclass(frozen=True)
class Spread:
    """What draws say of one number: how many `draws` have it, their `mean`, the `variance` of a draw (0 for fewer than two), and how many
    `packets` are behind it (0 where it is no share). The numbers of those that are only thought of need not be whole."""

    draws: float
    mean: float
    variance: float
    packets: float = 0

    @classmethod
    def of(cls, values: Sequence[float], packets: int = 0) -> Spread:
        """The spread of the values of some draws, which are not empty."""
        count = len(values)
        mean = math.fsum(values) / count
        variance = math.fsum((value - mean) ** 2 for value in values) / (count - 1) if count > 1 else 0.0
        return cls(count, mean, variance, packets)

    def times(self, factor: float) -> Spread:
        """The same of so many times as many draws, if they spread as these do."""
        return Spread(self.draws * factor, self.mean, self.variance, self.packets * factor)


def of_share(spread: Spread, error: float, own_networks: bool = False) -> Ends:
    """The ends of the interval of a mean share, 0 to 1; with `own_networks` where each draw has a network of its own. Of a single draw it is
    0 to 1."""
    if spread.draws < 2:
        return 0.0, 1.0
    if not own_networks:
        return _of_counts(spread.mean, _worth(spread, error), error)
    low, high = _of_counts(spread.mean, _worth(spread, error / 2), error / 2)
    seen = (error / 2) ** (1 / spread.draws)
    return low * seen, 1 - (1 - high) * seen


def of_part(hold: float, draws: float, error: float) -> Ends:
    """The ends of the interval of the part of all draws that hold, of which so many were seen."""
    return _of_counts(hold / draws, draws, error)


def of_mean(spread: Spread, error: float) -> Ends:
    """The ends of the interval of a mean of times, which are not below 0; of a single draw it has no upper one."""
    from scipy import special

    if spread.draws < 2:
        return 0.0, math.inf
    half = float(special.stdtrit(spread.draws - 1, 1 - error)) * math.sqrt(spread.variance / spread.draws)
    return max(0.0, spread.mean - half), spread.mean + half


def _worth(spread: Spread, error: float) -> float:
    """How many independent packets these are worth."""
    from scipy import special

    share, between = spread.mean, spread.variance / spread.draws
    packets = spread.packets
    if between * packets > share * (1 - share):
        packets = share * (1 - share) / between
    if spread.packets <= spread.draws:
        return packets
    few = float(special.stdtrit(spread.draws - 1, 1 - error))
    return packets * (float(special.stdtrit(spread.packets - 1, 1 - error)) / few) ** 2


def _of_counts(share: float, count: float, error: float) -> Ends:
    """The interval of Clopper and Pearson for this share of so many, which need not be whole numbers."""
    from scipy import special

    hits = share * count
    low = float(special.betaincinv(hits, count - hits + 1, error)) if hits > 0 else 0.0
    high = float(special.betaincinv(hits + 1, count - hits, 1 - error)) if count > hits else 1.0
    return low, high
