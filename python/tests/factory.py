"""A factory hall as a planner would write it down: 48 nodes on two floors of 120 by 60 m, 18 loops, 8 alarms, 12 sensors, 6 controllers, two
gateways and two repeaters; a survey of the western half, a series of four links, a forklift, power cycles and requirements.

Its tables are what people have, with their own names of columns. `write` writes them and the plan file into a folder.
"""

from __future__ import annotations

import csv
import datetime
import math
import random
from collections.abc import Iterable, Sequence
from pathlib import Path
from typing import Any

HALL, WEST = (120.0, 60.0), 62.0
PLAN = """\
# The factory hall: both floors, surveyed in the west.
[plan]
name = "Factory hall"
site = "Plant 3"
profile = 2
sends = 2
contend = 3
hours = 1.0
seeds = 100

[tables]
nodes = "nodes.csv"
links = ["survey.csv", "series.csv"]  # the rest by the model
streams = "streams.csv"

[floor]
extent = [0.0, 0.0, 120.0, 60.0]
height = 6.0
floors = 2

[losses]
from = "both"
exponent = 3.0
reference_db = 40.0
deviation_db = 5.0
floor_db = 14.0
least = 0.05

[[host]]
node = "A-101"
rank = 0

[[host]]
node = "B-101"
rank = 1

[[event]]
name = "forklift"
node = "R-201"
between = [600.0, 2400.0]
for = 300.0
ratio = 0.0

[[event]]
name = "maintenance"
node = "T-03"
at = 720.0
for = 60.0

[[requirement]]
name = "loops in time"
tag = "loop"
share = 0.99

[[requirement]]
name = "alarms in time"
tag = "alarm"
share = 0.999
deadline = 20.0

[[requirement]]
name = "batteries"
years = 2.0

[[requirement]]
name = "loops after the gateway fails"
tag = "loop"
outage = 120.0
when = "A-101 fails"
at = 1200.0
"""


def _nodes(chance: random.Random) -> list[dict[str, Any]]:
    fixed = [("A-101", 30, 30, 0, "gateway"), ("B-101", 92, 30, 1, "gateway"), ("R-201", 60, 15, 0, "repeater"), ("R-202", 60, 45, 1, "repeater")]
    found = [{"name": name, "x_m": float(x), "y_m": float(y), "floor": floor, "power": "mains", "role": role} for name, x, y, floor, role in fixed]
    grid = [
        (round(8 + 15 * column + chance.uniform(-3, 3), 1), round(8 + 15 * row + chance.uniform(-3, 3), 1), floor)
        for floor in (0, 1) for row in range(4) for column in range(8)
    ]  # fmt: skip
    chance.shuffle(grid)
    kinds = (("L", 18, "loop"), ("AL", 8, "alarm"), ("T", 12, "slow"), ("C", 6, "controller"))
    names = [(f"{letter}-{number:02}", role) for letter, count, role in kinds for number in range(1, count + 1)]
    for (name, role), (x, y, floor) in zip(names, grid):
        found.append({"name": name, "x_m": x, "y_m": y, "floor": floor, "power": "battery", "role": role})
    return found


def _received_dbm(nodes: Sequence[dict[str, Any]], chance: random.Random) -> dict[tuple[str, str], float]:
    """What each node receives of each other one: distance with exponent 3, 14 dB a floor, and 5 dB of scatter, alike in both directions."""
    scatter: dict[frozenset[str], float] = {}
    found = {}
    for one in nodes:
        for other in nodes:
            if one is not other:
                height = 6.0 * abs(one["floor"] - other["floor"])
                distance = max(1.0, math.dist((one["x_m"], one["y_m"], 0), (other["x_m"], other["y_m"], height)))
                pair = scatter.setdefault(frozenset({one["name"], other["name"]}), chance.gauss(0, 5))
                loss = 40 + 30 * math.log10(distance) + 14 * abs(one["floor"] - other["floor"]) + pair
                found[one["name"], other["name"]] = chance.gauss(0, 1) - loss
    return found


def _ratio(received_dbm: float) -> float:
    return 1 / (1 + math.exp(-0.9 * (received_dbm + 90)))


def _survey(nodes: Sequence[dict[str, Any]], power: dict[tuple[str, str], float], chance: random.Random) -> list[list[Any]]:
    """500 probes of each link of the western half that passes more than 2 %."""
    west = {node["name"] for node in nodes if node["x_m"] < WEST}
    links = [link for link in power if west.issuperset(link) and _ratio(power[link]) > 0.02]
    return [[*link, round(power[link], 1), sum(chance.random() < _ratio(power[link]) for _ in range(500)) / 500, 500] for link in links]


def _series(power: dict[tuple[str, str], float], chance: random.Random) -> list[list[Any]]:
    """A sample each five minutes of four links, with time stamps."""
    start, found = datetime.datetime(2026, 11, 20, 8, tzinfo=datetime.timezone.utc), []
    for link in [("A-101", "R-201"), ("R-201", "A-101"), ("A-101", "L-01"), ("L-01", "A-101")]:
        for minute in range(0, 60, 5):
            received = power[link] + chance.gauss(0, 2)
            found.append([(start + datetime.timedelta(minutes=minute)).isoformat(), *link, round(received, 1), round(_ratio(received), 3)])
    return found


def _streams() -> list[list[Any]]:
    """Loops each 5 or 10 s with deadlines of 5, 10 or 15 s, sporadic alarms, and slow sensors."""
    rows: list[list[Any]] = []
    for number in range(1, 19):
        period, deadline = 5 if number <= 6 else 10, (5, 10, 15)[number % 3]
        rows.append([f"L-{number:02}", f"C-{(number - 1) // 3 + 1:02}", period, "", deadline, "", 25 + 5 * number, ""])
    rows += [[f"AL-{number:02}", "hosts", "", 360, 20, 10, 115 + 5 * number, 120] for number in range(1, 9)]
    rows += [[f"T-{number:02}", "hosts", 60, "", "", 50, 155 + 5 * number, ""] for number in range(1, 7)]
    return rows


def _write(path: Path, head: str, rows: Iterable[Iterable[Any]]) -> None:
    with path.open("w", newline="", encoding="utf-8") as sink:
        csv.writer(sink).writerows([head.split(), *rows])


def write(folder: Path, plan: str = PLAN) -> Path:
    """Writes the plan file and its tables, and gives the path of the plan file."""
    folder.mkdir(parents=True, exist_ok=True)
    chance = random.Random(2026)
    nodes = _nodes(chance)
    power = _received_dbm(nodes, chance)
    _write(folder / "nodes.csv", "name x_m y_m floor power role", [node.values() for node in nodes])
    _write(folder / "survey.csv", "tx rx rssi_dbm prr packets", _survey(nodes, power, chance))
    _write(folder / "series.csv", "timestamp tx rx rssi_dbm prr", _series(power, chance))
    _write(folder / "streams.csv", "sensor controller period_s sporadic deadline_s interval start keep_alive", _streams())
    (folder / "plan.toml").write_text(plan, encoding="utf-8")
    return folder / "plan.toml"
