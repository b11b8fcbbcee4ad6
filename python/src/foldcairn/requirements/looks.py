"""When the draws of a requirement are looked at, and which error each look may make.

A verdict is looked for after 8 draws, then after twice as many each time, and at last when all draws that are allowed are there. Who looks
several times at growing data is wrong more often than one look is. So the error that the whole verdict may make is spent over the looks
(alpha spending: Lan and DeMets, Biometrika 70, 1983), in proportion to the draws that each look adds (the family of Kim and DeMets,
Biometrika 74, 1987, with exponent 1). What a look may spend is its error alone: the errors of all looks add up to that of the verdict, by
Boole's inequality, whatever the looks have in common. So the error rate holds wherever the draws end. It costs some draws: boundaries for
normally distributed statistics would be a little closer, and do not hold for shares near 1.

The last look adds at least half of the draws, so it has at least half of the error. Tested, not proved.
"""

from __future__ import annotations

# After how many draws is looked first.
FIRST = 8
# What part of the error the last look has at least.
LAST_LEAST = 0.5


def looks(most: int) -> list[int]:
    """After how many draws is looked, where `most` draws are allowed, from 1 on: ascending, `most` last."""
    found = []
    draws = FIRST
    while draws <= most * (1 - LAST_LEAST):
        found.append(draws)
        draws *= 2
    return [*found, most]


def spent(draws: int, most: int) -> float:
    """Which part of the error, 0 to 1, the look after so many draws may make, from 1 to `most`: what it adds to the draws of the look before
    it, as a part of all. Of a number of draws at which is not looked it is that of a look between."""
    before = max([look for look in looks(most) if look < draws], default=0)
    return (draws - before) / most
