"""The received power by distance, walls and floors: the log-distance path loss.

Between nodes that are d metres apart the mean received power in dBm is

    transmitted power - reference loss - 10 exponent log10(d / 1 m) - walls - floors,

where the reference loss is that over the first metre. It is the mean over places: shadowing varies around it. Source: ITU-R P.1238 (its
coefficient N is 10 times the exponent, and it too begins at 1 m); T. S. Rappaport, Wireless Communications, chapter 4, has the same with
walls. Tested, not proved.
"""

from __future__ import annotations

import numpy
from numpy.typing import ArrayLike

from .curve import Numbers
from .presets import REFERENCE_DB

# Thermal noise at 290 K, -174 dBm/Hz, over 2 MHz, and a receiver's noise figure of 13 dB.
NOISE_DBM = -98.0


def metres(one: ArrayLike, other: ArrayLike, height: float) -> Numbers:
    """The distance between places in metres. Each place is x and y in metres and a floor, and floors are `height` metres apart."""
    apart = (numpy.asarray(one, dtype=float) - numpy.asarray(other, dtype=float)) * numpy.array([1.0, 1.0, height])
    distance: Numbers = numpy.sqrt((apart**2).sum(axis=-1))
    return distance


def floors_db(floors: ArrayLike, first_db: float, further_db: float) -> Numbers:
    """The loss in dB through `floors` floors, 0 or more: `first_db` for the first of them and `further_db` for each further one."""
    count = numpy.asarray(floors, dtype=float)
    loss: Numbers = numpy.where(count > 0, first_db + further_db * (count - 1), 0.0)
    return loss


def decades_db(distance: ArrayLike) -> Numbers:
    """10 log10 of a distance in metres, by which the exponent is multiplied. Below 1 m it is that of 1 m."""
    decades: Numbers = 10 * numpy.log10(numpy.maximum(numpy.asarray(distance, dtype=float), 1.0))
    return decades


def received_dbm(
    distance: ArrayLike, exponent: float, reference_db: float = REFERENCE_DB, transmit_dbm: float = 0.0, walls: ArrayLike = 0.0, floors: ArrayLike = 0.0
) -> Numbers:
    """The mean received power in dBm at a distance in metres, through walls and floors that take so many dB."""
    power: Numbers = transmit_dbm - reference_db - exponent * decades_db(distance) - numpy.asarray(walls) - numpy.asarray(floors)
    return power
