"""Plans for tests, small enough for many draws."""

from __future__ import annotations

from foldcairn.plan import Plan

PUMPS = """
[plan]
name = "Pump house"
profile = 2
contend = 3
hours = 0.2
seeds = 64
{settings}
[[node]]
name = "gateway"
powered = "mains"
[[node]]
name = "pump"
[[node]]
name = "valve"
[[node]]
name = "tank"
{nodes}
[[link]]
from = "gateway"
to = "pump"
ratio = {near}
both = true
[[link]]
from = "pump"
to = "valve"
ratio = 0.95
both = true
[[link]]
from = "gateway"
to = "valve"
ratio = 0.6
both = true
[[link]]
from = "valve"
to = "tank"
ratio = 0.97
both = true
{links}
[[host]]
node = "gateway"
{hosts}
[[stream]]
from = "tank"
to = "hosts"
every = 20
interval = 8
start = 60
deadline = 25
tags = ["level"]
[[stream]]
from = "valve"
to = "pump"
every = 30
interval = 12
start = 80
deadline = 30
{streams}
"""
BACKUP = '[[host]]\nnode = "pump"\nrank = 1\n'


def pumps(requirements: str = "", *, near: float = 0.9, backup: bool = True, settings: str = "", nodes: str = "", links: str = "", streams: str = "") -> str:
    """The text of a plan: a gateway, a pump that is the backup host, a valve and a tank in a row, with two streams."""
    return PUMPS.format(near=near, hosts=BACKUP if backup else "", settings=settings, nodes=nodes, links=links, streams=streams) + requirements


def plan(requirements: str, **given: object) -> Plan:
    """This plan."""
    return Plan.parse(pumps(requirements, **given))  # type: ignore[arg-type]


def asked(name: str = "it", **keys: object) -> str:
    """A table [[requirement]]; `part` is the key `in`."""
    values = {"in" if key == "part" else key: value for key, value in keys.items()}
    spelled = [f"{key} = {value!r}".replace("'", '"') for key, value in {"name": name, **values}.items()]
    return "\n".join(["[[requirement]]", *spelled, ""])
