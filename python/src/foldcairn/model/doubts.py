"""Numbers that are allowed and most likely in another unit: milliseconds for seconds, seconds for frames, Ah for mAh, µA for mA.

Each is told with its usual range and what to write. Tested, not proved.
"""

from __future__ import annotations

import warnings
from collections.abc import Iterable, Iterator
from typing import TYPE_CHECKING

from . import lines
from .errors import ScenarioWarning
from .events import Stream

if TYPE_CHECKING:
    from .scenario import Scenario

# A period of so many seconds or more that is longer than the run may be in milliseconds.
_MILLISECONDS_LEAST = 1_000
# Numbers of frames that are half an hour and an hour in seconds, and hours as frames.
_SECONDS_AS_FRAMES = (1_800, 3_600)
# The capacities and currents that batteries and radios have, with the unit of which a smaller number may be, and that of a larger one.
_USUAL = {
    "capacity_mah": (20.0, 1e6, "Ah", "µAh"), "transmit_ma": (0.5, 1e3, "A", "µA"), "receive_ma": (0.5, 1e3, "A", "µA"),
    "sleep_ma": (0.0, 1.0, "A", "µA"),
}  # fmt: skip


def warn(words: Iterable[str], level: int = 3) -> None:
    """Gives a `ScenarioWarning` of each, of the call that is so many levels up: 3 is that of the function that warns."""
    for one in words:
        warnings.warn(one, ScenarioWarning, stacklevel=level)


def of_period(scenario: Scenario, node: int, stream: int, seconds: float, left: float) -> Iterator[str]:
    """A period of packets that is longer than what is left of the run."""
    kept = (node, stream) in scenario.keep_alive
    if seconds >= max(left, _MILLISECONDS_LEAST) and left > 0 and not kept:
        yield (
            f"a packet every {seconds:,g} s is one packet of stream {stream} of node {scenario.name(node)} in the {left:,g} s that it has: periods are "
            f"in seconds; if {seconds:g} is in milliseconds, write {seconds / 1_000:g}"
        )


def of_keep_alive(scenario: Scenario, asked: Stream, seconds: float) -> Iterator[str]:
    """A stream that is kept alive more seldom than its host takes it away."""
    limit = lines.EMPTY_SLOTS * asked.interval
    if seconds >= limit:
        yield (
            f"`keep_alive` of stream {asked.stream} of node {scenario.name(asked.node)} is {seconds:,g} s, and a host takes a stream away whose slots "
            f"stay empty {lines.EMPTY_SLOTS} times in a row, here after {limit:,} s: write less than that"
        )


def of_frames(scenario: Scenario) -> Iterator[str]:
    """A number of frames that is a usual time in seconds."""
    if scenario.frames in _SECONDS_AS_FRAMES:
        yield (
            f"the run has {scenario.frames:,} frames of {scenario.frame_seconds} s, which are {scenario.seconds / 3_600:g} hours: if {scenario.frames:,} s "
            f"were meant, they are {scenario.frames // scenario.frame_seconds:,} frames"
        )


def of_deadline(scenario: Scenario, seconds: float) -> Iterator[str]:
    """A deadline that no packet, or not each, can keep, or that lies after the run."""
    frame = scenario.frame_seconds
    first = 1 + lines.slot_ticks(scenario.profile) / 64_000_000
    if seconds < first:
        yield (
            f"no packet is delivered within {seconds:g} s: a round begins 1 s after the start of its frame, with the schedule in its first slot, so a "
            f"deadline has to be above {first:.3f} s"
        )
    elif seconds < frame + first:
        yield (
            f"a packet that comes up at any time waits for the start of a frame, up to {frame} s, and {first:.3f} s more for the first data slot of a "
            f"round: a deadline below {frame + first:.3f} s, as this one of {seconds:g} s, can't be kept by all"
        )
    elif seconds >= scenario.seconds:
        yield (
            f"a deadline of {seconds:,g} s is no shorter than the run, which has {scenario.seconds:,} s, so no packet is due within it; deadlines are in "
            f"seconds: if {seconds:g} is in milliseconds, write {seconds / 1_000:g}"
        )


def of_battery(**given: float) -> Iterator[str]:
    """Capacities and currents that are unusual, by the words of `planning.battery_life`."""
    for word, value in given.items():
        low, high, larger, smaller = _USUAL[word]
        unit = "mAh" if word == "capacity_mah" else "mA"
        usual = f"and is usually from {low:g} to {high:,.0f} {unit}"
        if 0 < value < low:
            yield f"`{word}` is {value:g} {unit}, {usual}: if {value:g} is in {larger}, write {value * 1_000:g}"
        elif value > high:
            yield f"`{word}` is {value:g} {unit}, {usual}: if {value:g} is in {smaller}, write {value / 1_000:g}"
