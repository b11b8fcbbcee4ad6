"""A survey as a planner has it, of 34 nodes and 180 directed links: tables of nodes, links and streams, and what will happen.

Three buildings: A with nodes 101 to 112, B with 121 to 132, C with 141 to 146. A corridor of four hops (151 to 153) joins A and B,
and node 154 stands between A and C. Node 101 hosts, 131 is its backup. Twenty sensors have a packet a minute, six alarm nodes
at any time, three nodes are switched off and on, two batteries die, and the host fails after half of the time.
"""

from __future__ import annotations

import random
from pathlib import Path

import pandas

from foldcairn import Scenario

MINUTES = 7
HOST, BACKUP = 101, 131
A, B, C, CORRIDOR = range(101, 113), range(121, 133), range(141, 147), range(151, 155)
SENSORS = [*range(102, 112), *range(122, 130), 141, 142]
ALARMS = [112, 130, 132, 143, 144, 152]
CYCLED, DEAD = [121, 145, 146], [153, 109]


def places() -> dict[int, tuple[float, float]]:
    """The places in metres."""
    found = {node: (10.0 * (number % 4), 10.0 * (number // 4)) for number, node in enumerate(A)}
    found |= {node: (90.0 + 10.0 * (number % 4), 10.0 * (number // 4)) for number, node in enumerate(B)}
    found |= {node: (10.0 * (number % 3), 60.0 + 10.0 * (number // 3)) for number, node in enumerate(C)}
    return found | {151: (45.0, 10.0), 152: (60.0, 10.0), 153: (75.0, 10.0), 154: (15.0, 40.0)}


def _pairs() -> list[tuple[int, int]]:
    """The pairs of nodes with links: those next to each other in a building, also across corners, and the corridors."""
    at = places()
    near = [
        (one, other)
        for ids in (A, B, C)
        for one in ids
        for other in ids
        if one < other and abs(at[one][0] - at[other][0]) <= 10 and abs(at[one][1] - at[other][1]) <= 10
    ]
    corridor = [(104, 151), (108, 151), (112, 151), (151, 152), (152, 153), (153, 121), (153, 125), (153, 129), (109, 154), (110, 154)]
    far = [(101, 109), (104, 112), (121, 129), (124, 132), (102, 110), (103, 111), (122, 130), (123, 131)]
    return [*near, *corridor, *far, (111, 154), (154, 141), (154, 142)]


def tables() -> tuple[pandas.DataFrame, pandas.DataFrame, pandas.DataFrame]:
    """The tables of nodes, links and streams, as a survey gives them: the ratios of the two directions differ."""
    chance = random.Random(1)
    at = places()
    nodes = pandas.DataFrame([{"id": node, "x": x, "y": y} for node, (x, y) in sorted(at.items())])
    nodes["host"] = nodes["id"].map({HOST: 0, BACKUP: 1}).astype("Int64")
    nodes["ppm"] = [chance.randint(-20, 20) for _ in nodes["id"]]
    links = pandas.DataFrame(
        [(u, v, round(chance.uniform(0.55, 0.99), 2)) for pair in _pairs() for u, v in (pair, pair[::-1])], columns=["from", "to", "prr"]
    )
    rows = [{"node": node, "interval": 50, "start": chance.randint(0, 40), "every": 60} for node in SENSORS]
    streams = pandas.DataFrame(rows + [{"node": node, "interval": 10, "start": 0} for node in ALARMS])
    return nodes, links, streams


def write(folder: Path) -> tuple[Path, Path, Path]:
    """The three tables as CSV files in a folder."""
    paths = tuple(folder / f"{name}.csv" for name in ("nodes", "links", "streams"))
    for path, table in zip(paths, tables()):
        table.to_csv(path, index=False)
    return paths[0], paths[1], paths[2]


def survey(minutes: int = MINUTES, *, keep_alive: float | None = None, hosts: tuple[int, ...] = (HOST, BACKUP)) -> Scenario:
    """The network of the tables, with all that happens in it; `hosts` may be others."""
    nodes, links, streams = tables()
    nodes["host"] = nodes["id"].map({node: rank for rank, node in enumerate(hosts)}).astype("Int64")
    made = Scenario.from_tables(nodes, links, streams[streams["every"].notna()], frames=12 * minutes, profile=2, contend=4)
    chance, seconds = random.Random(2), 60 * minutes
    for node in ALARMS:
        made.stream(node, 10, keep_alive=keep_alive)
        for _ in range(max(2, minutes // 5)):
            made.put(node, b"alarm", seconds=chance.uniform(60, seconds - 60))
    for node in CYCLED:
        made.off(node, seconds=0.3 * seconds).on(node, seconds=0.4 * seconds)
    made.off(*DEAD, seconds=0.7 * seconds)
    return made.off(hosts[0], seconds=seconds / 2).sinks("hosts")
