"""A factory hall as its planner has it: a floor plan of two floors, a survey of one half, 18 loops, 8 alarms, 12 slow sensors, two gateways.

Made by a fixed generator: 48 nodes within 120 by 60 m, floors 6 m apart, path loss of exponent 3 with 5 dB of scatter and 14 dB a floor.
"""

from __future__ import annotations

import csv
import io
import itertools
import math
import random
from pathlib import Path

PLAN = """
[plan]
name = "Factory hall"
profile = 2
contend = 3
hours = {hours}
seeds = {seeds}
keep_alive = 120

[tables]
nodes = "nodes.csv"
links = "survey.csv"
streams = ["loops.csv", "alarms.csv", "slow.csv"]

[losses]
from = "both"
exponent = 3.0
deviation_db = 5.0
floor_db = 14.0

[battery]
capacity_mah = {{ battery = 2600 }}

[[host]]
node = "A-101"

[[host]]
node = "B-101"
rank = 1

[[event]]
name = "forklift"
node = "R-201"
between = [{third}, {half}]
for = 60
ratio = 0.0

[[event]]
name = "maintenance"
node = "L-05"
at = {third}
for = 60

[[requirement]]
name = "loops"
tag = "loop"
share = 0.99

[[requirement]]
name = "alarms"
tag = "alarm"
share = 0.999

[[requirement]]
name = "batteries"
years = 2

[[requirement]]
name = "loops in failover"
tag = "loop"
outage = 120
when = "A-101 fails"
"""


def _table(rows: list[dict[str, object]]) -> str:
    text = io.StringIO()
    writer = csv.DictWriter(text, list(rows[0]))
    writer.writeheader()
    writer.writerows(rows)
    return text.getvalue()


def _nodes(drawn: random.Random) -> list[dict[str, object]]:
    fixed = [("A-101", 30, 30, 0, "gateway"), ("B-101", 92, 30, 1, "gateway"), ("R-201", 60, 15, 0, "repeater"), ("R-202", 60, 45, 1, "repeater")]
    found = [{"name": name, "x_m": x, "y_m": y, "floor": floor, "power": "mains", "role": role} for name, x, y, floor, role in fixed]
    grid = [(8 + 15 * column + drawn.uniform(-3, 3), 8 + 15 * row + drawn.uniform(-3, 3), floor) for floor in (0, 1) for row in range(4) for column in range(8)]
    drawn.shuffle(grid)
    kinds = [("L", 18, "loop"), ("AL", 8, "alarm"), ("T", 12, "slow"), ("C", 6, "controller")]
    named = [(f"{short}-{number:02}", role) for short, count, role in kinds for number in range(1, count + 1)]
    for (name, role), (x, y, floor) in zip(named, grid):
        found.append({"name": name, "x_m": round(x, 1), "y_m": round(y, 1), "floor": floor, "power": "battery", "role": role})
    return found


def _survey(nodes: list[dict[str, object]], drawn: random.Random) -> list[dict[str, object]]:
    """What was measured in the west half: 500 packets over each link."""
    found: list[dict[str, object]] = []
    west = [node for node in nodes if float(str(node["x_m"])) < 62]
    for one, other in itertools.combinations(west, 2):
        ends = [(float(str(node["x_m"])), float(str(node["y_m"])), 6.0 * int(str(node["floor"]))) for node in (one, other)]
        rssi = -40.2 - 30 * math.log10(max(1.0, math.dist(*ends))) - 14 * (one["floor"] != other["floor"]) - drawn.gauss(0, 5)
        ratio = 1 / (1 + math.exp(-(rssi + 90) * 0.9))
        for sender, receiver in ((one, other), (other, one)):
            got = sum(drawn.random() < ratio for _ in range(500))
            if got > 10:
                found.append({"tx": sender["name"], "rx": receiver["name"], "rssi_dbm": round(rssi, 1), "prr": got / 500, "packets": 500})
    return found


def write(folder: Path, hours: float = 0.2, seeds: int = 8) -> Path:
    """Writes the plan with its tables into a folder, and gives its path."""
    drawn = random.Random(2026)
    nodes = _nodes(drawn)
    loops = [
        {"sensor": f"L-{number:02}", "controller": f"C-{(number - 1) // 3 + 1:02}", "period_s": 5 if number <= 6 else 10, "deadline_s": 5 + number % 3 * 5,
         "start": 25 + 5 * number} for number in range(1, 19)
    ]  # fmt: skip
    alarms = [{"from": f"AL-{number:02}", "to": "hosts", "sporadic": 360, "deadline": 20, "interval": 10, "start": 115 + 5 * number} for number in range(1, 9)]
    slow = [{"from": f"T-{number:02}", "to": "hosts", "period_s": 60, "interval": 50, "start": 155 + 5 * number} for number in range(1, 7)]
    tables = {"nodes": nodes, "survey": _survey(nodes, drawn), "loops": loops, "alarms": alarms, "slow": slow}
    for name, rows in tables.items():
        (folder / f"{name}.csv").write_text(_table(rows))
    path = folder / "plan.toml"
    path.write_text(PLAN.format(hours=hours, seeds=seeds, third=1200 * hours, half=1800 * hours))
    return path
