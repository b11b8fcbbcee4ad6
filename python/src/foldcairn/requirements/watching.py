"""What is watched of a draw in which a node fails: what is measured for the requirements, then how long streams were silent, in how many frames
nodes searched for a host, and when the packets that were late were put. Tested, not proved."""

from __future__ import annotations

from collections.abc import Mapping, Sequence
from typing import Any

import numpy as np

from ..plan.model import Requirement
from . import judging, measuring
from .judging import Rule, Unit
from .measuring import Draw, Task
from .running import Measured

# In so many steps the first half of what is left of a run is gone through for how long a requirement does not hold.
STEPS = 20


def watch(task: Task, seeds: Sequence[int]) -> list[list[Any]]:
    """What is watched of the draw of each seed: a list with the values of each requirement, and last a mapping with `silent`, the seconds of each
    stream, `searched`, the frames of each node, and `later`, for each requirement by stream at how many receivers a packet is to be, and by steps
    how many packets were due and how many deliveries came in time. In the process of a worker. Raises what `measuring.measure` raises."""
    return [[*draw.values(), _watched(draw)] for draw in measuring.drawn(task, seeds, whole=True)]


WATCHED = Measured("failures", watch)


def step_seconds(seconds: float, run_seconds: float, frame_seconds: float) -> float:
    """The length of a step where a node fails at this time of a run."""
    return max(float(frame_seconds), (run_seconds - seconds) / 2 / STEPS)


def _watched(draw: Draw) -> dict[str, Any]:
    cost = draw.came.cost
    names = draw.network.labels
    return {
        "silent": {name: seconds for name, (seconds, _) in draw.outages(None).items()},
        "searched": {names[node]: frames for node, frames in zip(cost.nodes.tolist(), cost.scanned_frames.tolist())},
        "later": [_later(draw, requirement) for requirement in draw.task.requirements],
    }


def is_of_packets(requirement: Requirement) -> bool:
    """Whether it is a part of packets that a requirement asks for."""
    return requirement.share is not None or requirement.ratio is not None


def _later(draw: Draw, requirement: Requirement) -> dict[str, list[Any]]:
    """By stream the number of receivers, and by steps what was due and what came in time."""
    if not is_of_packets(requirement):
        return {}
    start, found = draw.task.case.seconds, {}
    step = step_seconds(start, draw.network.seconds, draw.network.frame_seconds)
    for name, counted in draw.counted(requirement).items():
        place = np.minimum(STEPS, ((counted.put - start) / step).astype(np.int64))
        due, came = np.bincount(place, minlength=STEPS + 1), np.bincount(place[counted.of], minlength=STEPS + 1)
        found[name] = [counted.several, due.tolist(), came.tolist()]
    return found


def steps_broken(rule: Rule, draws: Sequence[Mapping[str, Sequence[Any]]], names: Sequence[str]) -> int | None:
    """After how many steps packets that are put no more show that a requirement does not hold, by the draws of a case (`later`) and for the streams
    that break it; None where they still do after the last step."""
    units = {name: [draw[name] for draw in draws if name in draw] for name in dict.fromkeys(name for draw in draws for name in draw)}
    for step in range(STEPS + 1):
        asked = [_from(name, step, values) for name, values in units.items() if rule.part is not None or name in names]
        if judging.verdicts_of(rule, [asked]) != [judging.NOT_MET]:
            return step
    return None


def _from(name: str, step: int, values: Sequence[Sequence[Any]]) -> Unit:
    """The packets of a stream that are put from a step on."""
    due = [sum(one[1][step:]) for one in values]
    came = [sum(one[2][step:]) for one in values]
    several = [one[0] for one in values]
    return Unit(name, [part / (of * many) if of else None for part, of, many in zip(came, due, several)], due)
