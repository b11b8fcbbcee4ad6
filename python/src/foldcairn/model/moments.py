"""Times in seconds and the frames in which they take effect, and how much later than by plan something may be by clocks.

A run goes by frames: what a script says of a frame happens at its start. Whatever is given in seconds takes effect so that no answer is
rosier than the truth:

| in seconds | takes effect at the start of |
|---|---|
| a put, a stream, a stream that is left, a node that is switched on | the first frame that starts at that time or after it |
| a node that is switched off | the frame that the time lies in: never later than the real failure |
| a reception ratio | the frame that the time lies in where it is lower than the one before, else the first that starts at that time or after it |

So a packet is never delivered before its put, and its latency counts from the time that was given (`Scenario.put_seconds`). Times are
rounded to ticks of 1/64 µs first, so that 0.3 * 420 is 126. Tested, not proved.
"""

from __future__ import annotations

from typing import TYPE_CHECKING

import numpy as np
from numpy.typing import NDArray

if TYPE_CHECKING:
    from .scenario import Scenario

_TICKS_A_SECOND = 64_000_000


def frame_of(seconds: float, frame_seconds: int) -> int:
    """The frame that a time lies in."""
    return round(seconds * _TICKS_A_SECOND) // (frame_seconds * _TICKS_A_SECOND)


def frame_from(seconds: float, frame_seconds: int) -> int:
    """The first frame that starts at a time or after it."""
    return -frame_of(-seconds, frame_seconds)


def frames_from(seconds: NDArray[np.float64], frame_seconds: int) -> NDArray[np.int64]:
    """The first frame that starts at each time or after it, as `frame_from` has it of one."""
    ticks = np.rint(seconds * _TICKS_A_SECOND).astype(np.int64)
    found: NDArray[np.int64] = -(-ticks // (frame_seconds * _TICKS_A_SECOND))
    return found


def early_seconds(scenario: Scenario) -> dict[tuple[int, int], float]:
    """By how much the puts of each stream with packets, of node and number, come before the frames in which they are handed over, at most."""
    from .events import Put

    found: dict[tuple[int, int], float] = {}
    for put in scenario.script:
        if isinstance(put, Put):
            early = put.frame * scenario.frame_seconds - scenario.put_seconds(put)
            found[put.node, put.stream] = max(found.get((put.node, put.stream), 0.0), early)
    return found


def late_seconds(scenario: Scenario) -> float:
    """By how much a slot may end later than by plan at most: what the slowest clock of a scenario loses over the whole run. Offsets only put
    clocks ahead, and the nodes of a round differ by less than what a slot leaves free at its end (docs/SAFETY.md)."""
    slowest = max([-rate.ppm for rate in scenario.rates], default=0)
    return max(0.0, scenario.seconds * slowest / (1_000_000 - slowest))
