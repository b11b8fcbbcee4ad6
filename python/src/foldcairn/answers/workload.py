"""What a scenario puts on the bus: its streams, those that are alike together. Tested, not proved."""

from __future__ import annotations

from collections.abc import Iterable, Mapping
from dataclasses import dataclass, field

import numpy as np
import pandas as pd
from numpy.typing import NDArray

from ..model.events import Put, Stream
from ..model.scenario import Scenario
from . import findings, puts

Key = tuple[int, int]
Frames = NDArray[np.int64]

# A pause is a gap of more than so many median gaps; with pauses a stream has on average so many packets at a stretch.
_PAUSE, _STRETCH = 2.0, 5


def table(scenario: Scenario) -> pd.DataFrame:
    """A row for all streams that are alike:

    streams              how many these are
    interval asked (s)   the interval of the slots that they request, in seconds; one after the other where it changes
    period (s)           the seconds from packet to packet. A packet is put at a frame's start, so the gaps between packets differ by a
                         frame where the period is no multiple of it; "irregular" where no period gives these frames
    packets each         how many packets each of them gets
    bytes                how many bytes a packet has
    kept alive           whether it is kept alive by packets of no bytes, which are not counted here
    nodes                whose streams they are
    """
    asked: dict[Key, list[int]] = {}
    for event in scenario.script:
        if isinstance(event, Stream):
            intervals = asked.setdefault((event.node, event.stream), [])
            if event.interval not in intervals[-1:]:
                intervals.append(event.interval)
    puts = _puts(scenario)
    periods = _periods({key: np.array(sorted(one.frames)) for key, one in puts.items()}, scenario.frame_seconds)
    alike: dict[tuple[str, str, str, str], list[Key]] = {}
    for key in sorted(asked.keys() | puts.keys()):
        interval = ", then ".join(map(str, asked.get(key, ()))) or "none"
        size = _range(puts[key].sizes) if key in puts else "–"
        alike.setdefault((interval, periods.get(key, "–"), size, "yes" if key in scenario.keep_alive else "no"), []).append(key)
    rows = [
        (len(keys), interval, period, _range(len(puts[key].frames) if key in puts else 0 for key in keys), size, kept,
         findings.nodes(scenario, (node for node, _ in keys)))
        for (interval, period, size, kept), keys in sorted(alike.items(), key=lambda item: -len(item[1]))
    ]  # fmt: skip
    names = ["streams", "interval asked (s)", "period (s)", "packets each", "bytes", "kept alive", "nodes"]
    return pd.DataFrame(rows, columns=names)


@dataclass
class _Puts:
    """The packets of one stream: in which frames they are put, and how many bytes they have."""

    frames: list[int] = field(default_factory=list)
    sizes: set[int] = field(default_factory=set)


def _puts(scenario: Scenario) -> dict[Key, _Puts]:
    """The packets of each stream but those that only keep it alive."""
    found: dict[Key, _Puts] = {}
    for event in scenario.script:
        if isinstance(event, Put) and puts.counts(scenario, event):
            one = found.setdefault((event.node, event.stream), _Puts())
            one.frames.append(event.frame)
            one.sizes.add(len(event.payload))
    return found


def _range(numbers: Iterable[int]) -> str:
    """Whole numbers as one, or as the least and the greatest."""
    listed = sorted(numbers)
    return str(listed[0]) if listed[0] == listed[-1] else f"{listed[0]} to {listed[-1]}"


def _periods(frames: Mapping[Key, Frames], seconds: int) -> dict[Key, str]:
    """The periods of streams, in words. A few packets fit several periods, so a stream has that of one with more packets if it fits."""
    known: list[float] = []
    told: dict[Key, str] = {}
    for key in sorted(frames, key=lambda key: -len(frames[key])):
        stretches = _stretches(frames[key])
        longest = max(stretches, key=len)
        if len(longest) < 2:
            told[key] = "one packet" if len(frames[key]) == 1 else "irregular"
            continue
        period = _period(longest, seconds, known)
        if period is None or not all(_fits(one, seconds, period) for one in stretches):
            told[key] = "irregular"
        else:
            known.append(period)
            told[key] = f"{period:g}" + ", with pauses" * (len(stretches) > 1)
    return told


def _stretches(frames: Frames) -> list[Frames]:
    """The packets from pause to pause; where pauses are no exception, all of them."""
    gaps = np.diff(frames)
    if len(gaps) == 0:
        return [frames]
    pauses = np.flatnonzero(gaps > _PAUSE * max(1.0, float(np.median(gaps)))) + 1
    return np.split(frames, pauses) if len(frames) >= _STRETCH * (len(pauses) + 1) else [frames]


def _period(frames: Frames, seconds: int, known: Iterable[float]) -> float | None:
    """The period in seconds by which packets are put in these frames of so many seconds: the gap if all are the same, else one that is
    known, else the roundest number that fits, else None."""
    gaps = np.diff(frames) * float(seconds)
    mean = float(gaps.mean())
    same = [mean] if len(gaps) > 1 and np.ptp(gaps) == 0 else []
    candidates = [*same, *known, *(round(mean, digits) for digits in range(4))]
    return next((one for one in candidates if one > 0 and _fits(frames, seconds, one)), None)


def _fits(frames: Frames, seconds: int, period: float) -> bool:
    """Whether packets with this period would be put in these frames: each is in the frame of its time."""
    off = frames * float(seconds) - np.arange(len(frames)) * period
    return bool(np.ptp(off) < seconds - 1e-9)
