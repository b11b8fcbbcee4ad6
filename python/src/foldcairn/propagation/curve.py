"""How likely a packet is received by its signal to noise ratio: the curve of IEEE 802.15.4-2006, annex E.4.1.8, for 2.4 GHz.

Of a signal to noise ratio s (as a power ratio, 10^(dB / 10)) the bit error ratio is

    8/15 x 1/16 x sum over k = 2 .. 16 of (-1)^k C(16, k) exp(20 s (1/k - 1)),

for O-QPSK with 16 quasi-orthogonal codes of 32 chips over additive white Gaussian noise. A packet of b bits is received if none is wrong:
(1 - bit error ratio)^b. ns-3's `LrWpanErrorModel` has the same curve. What it leaves out: fading within a packet, interference, and the
loss of a receiver before its decoder. Tested, not proved.
"""

from __future__ import annotations

from typing import Any

import numpy
from numpy.typing import ArrayLike, NDArray
from scipy import special

from ..common.arguments import whole

Numbers = NDArray[numpy.float64]

# What the radio sends with each packet: 4 bytes of preamble, 1 that starts the frame, 1 with its length, and 2 of checksum.
RADIO_BYTES = 8
# The longest packet of 802.15.4 without its checksum, in bytes.
LONGEST_PACKET = 125
_ORDERS = numpy.arange(2, 17)
_WEIGHTS = 8 / 15 / 16 * (-1.0) ** _ORDERS * special.comb(16, _ORDERS)
_SLOPES = 20.0 * (1 / _ORDERS - 1)
# Shadowing in deviations, at which a ratio is taken for its mean: the normal beyond 8.5 has a share of 2e-17.
_STEP = 1 / 40
_GRID = numpy.arange(-8.5, 8.5 + _STEP / 2, _STEP)
# In dB: below the first no packet of a byte or more is received, and above the second each is, within 1e-20.
_SURE = (-20.0, 12.0)
_SHARES = numpy.exp(-_GRID**2 / 2) * _STEP / numpy.sqrt(2 * numpy.pi)


def packet_bits(length: Any) -> int:
    """The bits that have to be received of a packet with a length in bytes, header and payload: 8 (length + 8).

    Raises `ArgumentError` where the length is no whole number from 1 to 125.
    """
    return 8 * (whole("bytes", length, 1, LONGEST_PACKET) + RADIO_BYTES)


def bit_error_ratio(snr_db: ArrayLike) -> Numbers:
    """The share of bits that are wrong, 0 to 0.5, at each signal to noise ratio in dB; 0.5 without any signal (-inf)."""
    signal = numpy.power(10.0, numpy.asarray(snr_db, dtype=float) / 10)
    total = numpy.zeros_like(signal)
    for weight, slope in zip(_WEIGHTS, _SLOPES):
        total += weight * numpy.exp(slope * signal)
    clipped: Numbers = numpy.clip(total, 0.0, 0.5)
    return clipped


def ratio_of_snr(snr_db: ArrayLike, bits: ArrayLike) -> Numbers:
    """The reception ratio, 0 to 1, of packets of `bits` bits (`packet_bits`) at each signal to noise ratio in dB."""
    ratio: Numbers = numpy.exp(numpy.asarray(bits, dtype=float) * numpy.log1p(-bit_error_ratio(snr_db)))
    return ratio


def snr_of_ratio(ratio: ArrayLike, bits: int) -> Numbers:
    """The signal to noise ratio in dB, within 0.0001, at which packets of `bits` bits have a reception ratio from 0.01 to 0.99."""
    signals = numpy.arange(-15.0, 15.0, 0.001)
    found: Numbers = numpy.interp(numpy.asarray(ratio, dtype=float), ratio_of_snr(signals, bits), signals)
    return found


def expected_ratio(snr_db: ArrayLike, deviation_db: ArrayLike, bits: int) -> Numbers:
    """The mean reception ratio where the signal to noise ratio is normal, with the mean `snr_db` and the deviation `deviation_db`, in dB.

    Of packets of 72 bits or more. It is summed at 681 points up to 8.5 deviations from the mean, to some 1e-9 for deviations up to 20 dB.
    """
    means, deviations = numpy.broadcast_arrays(numpy.asarray(snr_db, dtype=float), numpy.asarray(deviation_db, dtype=float))
    kinds, places = numpy.unique(numpy.column_stack([means.ravel(), deviations.ravel()]), axis=0, return_inverse=True)
    signals = kinds[:, :1] + kinds[:, 1:] * _GRID
    ratios = (signals > _SURE[1]).astype(float)
    open_ones = (signals >= _SURE[0]) & (signals <= _SURE[1])
    ratios[open_ones] = ratio_of_snr(signals[open_ones], bits)
    found: Numbers = numpy.minimum(ratios @ _SHARES, 1.0)[places.ravel()].reshape(means.shape)
    return found
