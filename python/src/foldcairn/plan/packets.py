"""The lines of a scenario that a plan's streams are: when each is requested, and its packets. Tested, not proved."""

from __future__ import annotations

from collections.abc import Iterator

import numpy as np
from numpy.typing import NDArray

from ..model import lines, moments
from ..model.events import Put, Stream as Request
from . import chance
from .happening import Cut
from .model import Settings, Stream
from .words import DRAWN

INTERVAL_MOST = 120
# A payload without a length of its own: the id, and the number of the packet.
_BYTES = 3


def interval(stream: Stream) -> int:
    """The interval in seconds that it requests."""
    if stream.interval is not None:
        return stream.interval
    wanted = stream.every or stream.deadline or stream.sporadic or INTERVAL_MOST
    return max(1, min(INTERVAL_MOST, int(wanted)))


def keep_alive(stream: Stream, settings: Settings) -> float:
    """How often it sends a packet of no bytes, in seconds; 0 for never. That of the plan is for streams whose packets come more seldom."""
    if stream.keep_alive is not None:
        return stream.keep_alive
    is_often = stream.every is not None and settings.keep_alive is not None and stream.every <= settings.keep_alive
    return 0.0 if settings.keep_alive is None or is_often else settings.keep_alive


def length(stream: Stream) -> int:
    """The length of its payloads in bytes."""
    return _BYTES if stream.bytes is None else stream.bytes


def varies(stream: Stream) -> bool:
    """Whether its packets come at other times with each seed."""
    return stream.sporadic is not None or stream.start == DRAWN


def requests(stream: Stream, node: int, first: int, off: list[Cut], frames: int) -> Iterator[Request]:
    """The lines by which it is requested: in frame `first`, or when its node has power again, and after each time that it had none."""
    number, asked = stream.number or 0, interval(stream)
    cut = next((one for one in off if one.first <= first < one.end), None)
    if cut is None and first < frames:
        yield Request(first, node, number, asked)
    for one in off:
        if first < one.end < frames and (one.restart or one is cut):
            yield Request(one.end, node, number, asked)


def times(stream: Stream, start: float, end: float, seed: int | None) -> NDArray[np.float64]:
    """When its packets come, in seconds."""
    if stream.at:
        given = np.array(sorted(stream.at))
        found: NDArray[np.float64] = given[given < end]
        return found
    if stream.sporadic is not None:
        return chance.gaps(stream, start, end, seed)
    # As `Scenario.every` counts: by multiplication, so that errors do not add up.
    count = int(np.ceil((end - start) / stream.every)) if stream.every else 0
    found = start + np.arange(max(0, count + 1)) * (stream.every or 0.0)
    return found[found < end]


def puts(stream: Stream, node: int, when: NDArray[np.float64], profile: int, frames: int) -> list[Put]:
    """A packet at each of these times, with payloads that differ: the id of the node, and the packet's number."""
    number, size = stream.number or 0, length(stream)
    at = moments.frames_from(when, lines.frame_seconds(profile))
    return [
        Put(frame, node, number, (bytes([node]) + (count & 0xFFFF).to_bytes(2, "big") + bytes(max(0, size - _BYTES)))[:size], seconds)
        for count, (frame, seconds) in enumerate(zip(at.tolist(), when.tolist())) if frame < frames
    ]  # fmt: skip


def alive(stream: Stream, node: int, first: int, every: float, profile: int, frames: int) -> list[Put]:
    """The packets of no bytes that keep it, from the frame of its request on."""
    frame = lines.frame_seconds(profile)
    when = np.arange(first * frame, frames * frame, every, dtype=np.float64) if every > 0 else np.array([], dtype=np.float64)
    return [
        Put(at, node, stream.number or 0, b"", seconds)
        for at, seconds in zip(moments.frames_from(when, frame).tolist(), when.tolist()) if at < frames
    ]  # fmt: skip
