"""Five networks of 48 to 64 nodes whose maps are crowded each in its own way, with their plans: what a map of a floor has to stand."""

from __future__ import annotations

import math
import random
from collections.abc import Callable, Sequence

from foldcairn.model.scenario import Scenario
from foldcairn.plan import Host, Plan
from foldcairn.plan.model import Node

HOSTILE = ["<script>alert(1)</script>", "\u05de\u05e9\u05d0\u05d1\u05d4 \u05d3\u05e8\u05d5\u05de\u05d9\u05ea", "W" * 200, "$a_1$ & <b>", "温度センサー北棟二階の端"]
Spot = tuple[str, float, float, int]


def _plan(spots: Sequence[Spot]) -> tuple[Plan, Scenario]:
    """The plan of nodes at these places, and a network in which near nodes hear each other: the ratio falls from 1 at 12 m to 0 at 40 m."""
    plan = Plan(nodes={name: Node(name, place + 1, x, y, floor) for place, (name, x, y, floor) in enumerate(spots)}, hosts=[Host(spots[0][0], 0)])
    network = Scenario(60, 2, 2, labels={place + 1: name for place, (name, *_) in enumerate(spots)}, hosts={0: 1})
    for one in range(1, len(spots) + 1):
        network.node(one)
    for one, (_, x, y, floor) in enumerate(spots, 1):
        for other, (_, right, up, level) in enumerate(spots, 1):
            far = math.dist((x, y, 6 * floor), (right, up, 6 * level))
            if one != other and far < 40:
                network.link(one, other, round(min(1.0, (40 - far) / 28), 2))
    return plan, network


def grid() -> tuple[Plan, Scenario]:
    """64 nodes, 12 m apart in rows, with names of 19 letters."""
    return _plan([(f"Förderband {row}/{column} Nord", 12.0 * column, 12.0 * row, 0) for row in range(8) for column in range(8)])


def rooms() -> tuple[Plan, Scenario]:
    """60 nodes in three rooms of 10 by 10 m, far from each other."""
    chance = random.Random(5)
    spots = [(f"R{room}-{number:02}", 35 * room + chance.uniform(0, 10), chance.uniform(0, 10), 0) for room in range(3) for number in range(20)]
    return _plan(spots)


def corridor() -> tuple[Plan, Scenario]:
    """56 nodes along a corridor of 220 m, in pairs across from each other."""
    return _plan([(f"Lamp-{number:03}", 8.0 * (number // 2), 3.0 * (number % 2), 0) for number in range(56)])


def floors() -> tuple[Plan, Scenario]:
    """60 nodes on three floors, five of which have names that do harm elsewhere."""
    chance = random.Random(7)
    names = [*HOSTILE, *(f"S-{number:02}" for number in range(55))]
    return _plan([(name, chance.uniform(0, 60), chance.uniform(0, 40), place % 3) for place, name in enumerate(names)])


def heap() -> tuple[Plan, Scenario]:
    """48 nodes, half of which are within a metre, some at one place."""
    chance = random.Random(9)
    near = [(f"N-{number:02}", 20 + 0.5 * (number % 4), 20 + 0.5 * (number % 3), 0) for number in range(24)]
    return _plan([*near, *((f"F-{number:02}", chance.uniform(0, 50), chance.uniform(0, 40), 0) for number in range(24))])


HALLS: dict[str, Callable[[], tuple[Plan, Scenario]]] = {"grid": grid, "rooms": rooms, "corridor": corridor, "floors": floors, "heap": heap}
