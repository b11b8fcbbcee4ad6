"""When nodes are members, and how long their batteries last, by what radios cost in a run and in its start. Tested, not proved.

The coins of a frame depend on the seed and the frame, so a run that ends early is the start of the longer one.
"""

from __future__ import annotations

import math
from collections.abc import Mapping
from dataclasses import replace
from typing import Any

import numpy as np
import pandas as pd

from ..answers import power, radio
from ..model import moments
from ..model.scenario import Scenario
from ..runs import numbers
from ..runs.numbers import Cost, Numbers

# A start takes a tenth of the run, and so many frames at least: it is gone through once in the life of a battery.
_START_PART, _START_FRAMES = 0.1, 36
# For so many times the time that is wanted a node is watched that does not join in it.
_WATCHED = 4
# How far rounds are apart at most, in frames.
GAP = 4
_DAYS_A_YEAR = 365.25


def begun(network: Scenario, frames: int) -> Scenario:
    """The start of a run, of so many frames."""
    count = min(frames, network.frames)
    return replace(
        network, frames=count, script=[line for line in network.script if line.frame < count], told=True,
        ratios={place: ratio for place, ratio in network.ratios.items() if place[0] < count},
    )  # fmt: skip


def joined_seconds(network: Scenario, seed: int, wanted: float) -> dict[int, float]:
    """How long each node searched for a host until it was a member, in seconds: from the time at which it got power first up to the end of the
    frame in which it joined. One that searched again within the time that is wanted has both times; one that did not join by then is watched
    four times as long."""
    frame, frames = network.frame_seconds, math.ceil(wanted / network.frame_seconds)
    first = {node: start for node, boot, start, _ in power.frames_with_power(network) if boot == 1}
    last = max(first.values(), default=0) + frames
    searched = _scanned(network, seed, last)
    if any(searched[node] >= last - start for node, start in first.items()):
        longer = _scanned(network, seed, last + (_WATCHED - 1) * frames)
        searched = {node: longer[node] if searched[node] >= last - first.get(node, 0) else searched[node] for node in searched}
    return {node: float(searched[node] * frame) if node in first else math.inf for node in network.nodes}


def back_seconds(network: Scenario, seed: int, wanted: float, failure: float) -> dict[int, float]:
    """How long after a failure at this time each node was a member again, in seconds: 0 where it did not search for a host within four times the
    time that is wanted, else the time that it searched, and a gap of rounds, in which it does not notice that its host is gone."""
    frame, begin = network.frame_seconds, moments.frame_of(failure, network.frame_seconds)
    before = _scanned(network, seed, begin)
    after = _scanned(network, seed, begin + GAP + _WATCHED * math.ceil(wanted / frame))
    searched = {node: after[node] - before.get(node, 0) for node in network.nodes}
    return {node: float((GAP + count) * frame) if count else 0.0 for node, count in searched.items()}


def _scanned(network: Scenario, seed: int, frames: int) -> dict[int, int]:
    """In how many frames each node searched for a host, of the first so many."""
    if not frames:
        return {}
    cost = numbers.cost(begun(network, frames), seed)
    return dict(zip(cost.nodes.tolist(), cost.scanned_frames.tolist()))


def years(network: Scenario, seed: int, whole: Cost, capacities: Mapping[int, float | None], currents: Mapping[str, Any]) -> dict[int, float]:
    """How many years the battery of each node lasts if all its time is as that of the run after its start; infinite without a battery, or
    where it takes no current. `currents` has words of `planning.battery_life`."""
    count = min(network.frames // 2, max(_START_FRAMES, int(_START_PART * network.frames)))
    start = begun(network, count)
    early = numbers.cost(start, seed) if count else None
    spent = _spent(network, whole) - (_spent(start, early) if early is not None else 0.0)
    table = pd.DataFrame(spent, columns=["powered_seconds", "transmit_seconds", "on_seconds", "searching_seconds"])
    mean = radio.lives_of(table.assign(node=whole.nodes), **currents)["mean_ma"].to_numpy(dtype=np.float64)
    found = {}
    for node, current in zip(whole.nodes.tolist(), mean.tolist()):
        capacity = capacities.get(node)
        found[node] = capacity / current / 24 / _DAYS_A_YEAR if capacity is not None and current > 0 else math.inf
    return found


def _spent(network: Scenario, cost: Cost) -> Numbers:
    """Of each node how long it had power, transmitted, was on and searched, in seconds."""
    boots = power.boots(network)
    powered = (boots["off_seconds"] - boots["on_seconds"]).groupby(boots["node"]).sum()
    searching = cost.scanned_frames * float(network.frame_seconds)
    found: Numbers = np.stack(
        [powered.reindex(cost.nodes, fill_value=0.0).to_numpy(dtype=np.float64), cost.transmit_seconds, cost.window_seconds + searching, searching], axis=1
    )
    return found
