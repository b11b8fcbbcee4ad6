"""When each node has power, which follows from the script of a scenario alone. Tested, not proved."""

from __future__ import annotations

from collections import Counter
from operator import attrgetter

import numpy as np
import pandas as pd

from ..model.events import Off, On, ScriptLine
from ..model.scenario import Scenario
from ..runs.results import Log
from .answering import answer


def script(scenario: Scenario) -> list[ScriptLine]:
    """The script in the order in which it happens."""
    return sorted(scenario.script, key=attrgetter("frame"))


def boots(scenario: Scenario) -> pd.DataFrame:
    """When each node has power: a row for each boot with `node`, `boot` (from 1 on), `on_seconds` and `off_seconds`, in
    seconds from the start of the run; what has power to the end goes off with the run."""
    rows = np.array(sorted(frames_with_power(scenario)), dtype="int64").reshape(-1, 4)
    seconds = rows[:, 2:] * float(scenario.frame_seconds)
    return pd.DataFrame({"node": rows[:, 0], "boot": rows[:, 1], "on_seconds": seconds[:, 0], "off_seconds": seconds[:, 1]})


def frames_with_power(scenario: Scenario) -> list[list[int]]:
    """When each node has power, in the order in which that begins: the node, which of its boots it is, from which frame on, and the
    frame in which that ends, which is the number of frames where no line ends it."""
    running: dict[int, list[int]] = {}
    counts: Counter[int] = Counter()
    rows = []
    for line in script(scenario):
        if isinstance(line, On) and line.node not in running:
            counts[line.node] += 1
            running[line.node] = [line.node, counts[line.node], line.frame, scenario.frames]
            rows.append(running[line.node])
        elif isinstance(line, Off) and line.node in running:
            running.pop(line.node)[3] = line.frame
    return rows


@answer
def boots_of(log: Log) -> pd.DataFrame:
    """The `boots` of the scenario of a log."""
    return boots(log.scenario)


def powered(scenario: Scenario) -> pd.DataFrame:
    """Whether each node has power in each frame, after the script lines of that frame: a column for each node by ascending
    ids, a row for each frame."""
    nodes = sorted(scenario.nodes)
    place = {node: number for number, node in enumerate(nodes)}
    table = np.zeros((scenario.frames, len(nodes)), bool)
    for node, _, start, end in frames_with_power(scenario):
        table[start:end, place[node]] = True
    return pd.DataFrame(table, columns=nodes)
