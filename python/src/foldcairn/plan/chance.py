"""What is by chance in a plan, drawn by the seed: each from a generator of its own, so that one more stream or event moves no other.

Without a seed each is at its mean. Tested, not proved.
"""

from __future__ import annotations

import zlib
from collections.abc import Sequence

import numpy as np
from numpy.typing import NDArray

from .model import Event, Stream
from .words import DRAWN

Numbers = NDArray[np.float64]

# Which generator is for what; ratios have that of `foldcairn.propagation`.
_PACKETS, _PHASES, _EVENTS, _IDS = 101, 102, 103, 104


def _generator(seed: int, purpose: int, name: str) -> np.random.Generator:
    """A generator for one thing of one seed, by the name of the thing."""
    return np.random.default_rng([seed, purpose, zlib.crc32(name.encode())])


def ids(given: Sequence[int], seed: int) -> list[int]:
    """The ids in another order."""
    return [int(one) for one in _generator(seed, _IDS, "").permutation(np.array(given, dtype=np.int64))]


def start(stream: Stream, seed: int | None) -> float:
    """When a stream begins, in seconds; a phase that is drawn lies in its first period, on average in the middle."""
    if stream.start != DRAWN:
        return float(stream.start)
    period = stream.every or stream.sporadic or 0.0
    return period * (0.5 if seed is None else float(_generator(seed, _PHASES, stream.name).random()))


def gaps(stream: Stream, start_seconds: float, end_seconds: float, seed: int | None) -> Numbers:
    """The times in seconds of the packets of a sporadic stream, with exponential gaps; without a seed each gap is the mean."""
    mean = stream.sporadic or 0.0
    if seed is None:
        return np.arange(start_seconds + mean, end_seconds, mean)
    generator, times = _generator(seed, _PACKETS, stream.name), np.array([start_seconds])
    # Some standard deviations more than are expected, so one piece is nearly always enough.
    count = int((end_seconds - start_seconds) / mean * 1.2) + 16
    while times[-1] < end_seconds:
        times = np.concatenate([times, times[-1] + np.cumsum(generator.exponential(mean, count))])
    found: Numbers = times[1:][times[1:] < end_seconds]
    return found


def begin(event: Event, called: str, seed: int | None) -> float:
    """When an event begins first, in seconds; `called` tells it from the others."""
    if event.between is None:
        return event.at or 0.0
    low, high = event.between
    return low + (high - low) * (0.5 if seed is None else float(_generator(seed, _EVENTS, called).random()))


def names(events: Sequence[Event]) -> list[str]:
    """What tells events from each other: what each says, and which it is of those that say the same."""
    said = [repr((one.name, one.node, one.link, one.area, one.floor, one.between)) for one in events]
    return [f"{one} {said[:place].count(one)}" for place, one in enumerate(said)]
