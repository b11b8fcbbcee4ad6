"""The numbers in the output of the program's `outcome`, for what asks it about many seeds: sooner than by `results.outcome`, which makes a report
of them. Tested, not proved."""

from __future__ import annotations

from collections.abc import Collection
from dataclasses import dataclass

import numpy as np
from numpy.typing import NDArray

from ..model.scenario import Scenario
from . import program as programs
from .results import TICKS_A_SECOND

Numbers = NDArray[np.float64]
Places = NDArray[np.int64]

# What is read of a `deliver` line after its word; its payload comes after them.
DELIVER = ["frame", "rank", "slot", "node", "source", "boot", "stream", "number"]
# The places of the blanks of a `deliver` line are those between its words: `deliver`, these, and the payload.
_BLANKS = len(DELIVER) + 1


@dataclass(frozen=True, eq=False)
class Cost:
    """What radios cost: by ascending ids of the `nodes`, how long each transmitted and had planned windows, in seconds, and in how many frames
    it searched for a host."""

    nodes: Places
    transmit_seconds: Numbers
    window_seconds: Numbers
    scanned_frames: Places


@dataclass(frozen=True, eq=False)
class Outcome:
    """The numbers of a run: the columns of `deliveries`, by the words of `DELIVER`, and `drops`, each frame, node and stream, both in the order of
    their lines; and what radios `cost`."""

    deliveries: dict[str, Places]
    drops: list[tuple[int, ...]]
    cost: Cost


def outcome(scenario: Scenario, seed: int, *, nodes: Collection[int] | None = None, timeout: float | None = None) -> Outcome:
    """The numbers of the run with the losses of a seed; of deliveries only those at these nodes, where they are given.

    Raises what `program.execute` raises, and `program.CutOutput` where the output does not have a line of costs for each node, or has lines of
    another form.
    """
    deliveries, drops, costs = _parts(_output(scenario, seed, timeout))
    cost = _cost(scenario, costs)
    columns = dict(zip(DELIVER, _numbers(deliveries, None if nodes is None else sorted(nodes))))
    return Outcome(columns, [tuple(map(int, line.split()[1:4])) for line in drops.splitlines()], cost)


def cost(scenario: Scenario, seed: int) -> Cost:
    """What radios cost with the losses of a seed; no other line is read. Raises what `outcome` raises."""
    return _cost(scenario, _parts(_output(scenario, seed, None))[2])


def _output(scenario: Scenario, seed: int, timeout: float | None) -> bytes:
    text = scenario.network_text(warn=False).encode()
    return programs.execute(["outcome", str(seed)], text, program=programs.find_planner(), timeout=timeout)


def _parts(output: bytes) -> tuple[memoryview, bytes, bytes]:
    """The lines of deliveries, of drops and of costs, which come in this order. The first are many, so they are looked for from the end, and not
    copied."""
    last = output.rfind(b"\ndeliver ") + 1
    drops = output.index(b"\n", last) + 1 if last or output.startswith(b"deliver ") else 0
    costs = drops if output.startswith(b"cost ", drops) else output.find(b"\ncost ", drops) + 1
    return memoryview(output)[:drops], output[drops:costs], output[costs:]


def _numbers(deliveries: memoryview, nodes: list[int] | None) -> list[Places]:
    """The numbers of `deliver` lines, at these nodes, in columns. There are some hundred thousand lines, mostly at other nodes, so no more is
    read of these than their node. Raises `program.CutOutput` where the lines are others."""
    letters = np.frombuffer(deliveries, np.uint8)
    blanks = np.flatnonzero(letters == ord(" "))
    if len(blanks) % _BLANKS:
        raise programs.CutOutput("the output of `outcome` is cut, or has lines that no version of it has")
    table = blanks.reshape(-1, _BLANKS)
    if nodes is not None:
        place = DELIVER.index("node")
        table = table[np.isin(_number(letters, table[:, place], table[:, place + 1]), nodes)]
    return [_number(letters, table[:, place], table[:, place + 1]) for place in range(len(DELIVER))]


def _number(letters: NDArray[np.uint8], before: Places, after: Places) -> Places:
    """The numbers that are written between the places of two blanks."""
    found = np.zeros(len(before), dtype=np.int64)
    digits = after - before - 1
    for place in range(1, int(digits.max(initial=0)) + 1):
        there = digits >= place
        found[there] = 10 * found[there] + letters[before[there] + place] - ord("0")
    return found


def _cost(scenario: Scenario, costs: bytes) -> Cost:
    if costs.count(b"\n") != len(scenario.nodes):
        raise programs.CutOutput(f"the output of `outcome` is cut: it does not have a line of costs for each of {len(scenario.nodes)} nodes")
    rows = np.array([line.split()[1:] for line in costs.splitlines()], dtype=np.int64).reshape(-1, 4)
    return Cost(rows[:, 0], rows[:, 1] / TICKS_A_SECOND, rows[:, 2] / TICKS_A_SECOND, rows[:, 3])
