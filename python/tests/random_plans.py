"""Plans that are drawn at random, with each key of a plan file somewhere, for tests of writing and reading."""

from __future__ import annotations

import random
from collections.abc import Sequence
from typing import Any, TypeVar

from foldcairn.plan import Battery, Event, Floor, Host, Link, Losses, Node, Plan, Requirement, Settings, Stream

Value = TypeVar("Value")
NAMES = ("A-101", "pump", "Süd 3", "L-2", "L-10", "007", "n/a", "x\"y", "it's", "a = b", "# no comment", "[[node]]", "12", "é\\n", "B,C", "-")
WORDS = ("loop", "hall 3", "ä\"ö", "true", "1.5", "a,b", "#1")


def maybe(chance: random.Random, value: Value, otherwise: Any = None) -> Any:
    """The value, or in half of the cases another one."""
    return value if chance.random() < 0.5 else otherwise


def number(chance: random.Random, low: float, high: float) -> float:
    """A number with many digits, few, or none."""
    return chance.choice([chance.uniform(low, high), round(chance.uniform(low, high), 1), float(chance.randint(int(low) + 1, int(high)))])


def some(chance: random.Random, values: Sequence[Value]) -> list[Value]:
    return chance.sample(list(values), chance.randint(0, min(3, len(values))))


def plan(chance: random.Random) -> Plan:
    """A plan that reads, with 2 to 9 nodes."""
    profile = chance.choice([1, 2])
    settings = Settings(
        maybe(chance, "Hall \"3\""), maybe(chance, "Süd", ""), profile, chance.randint(1, 4), chance.randint(0, 4) if profile == 2 else 0,
        number(chance, 0.5, 4.5), chance.randint(1, 10_000), chance.random() < 0.5, maybe(chance, number(chance, 1, 15)),
    )  # fmt: skip
    settings.name = settings.name or ""
    made = Plan(settings=settings, losses=losses(chance), floor=floor(chance), battery=battery(chance))
    ids = chance.sample(range(1, 201), 16)
    for name in chance.sample(NAMES, chance.randint(2, 9)):
        made.nodes[name] = node(chance, name, maybe(chance, ids.pop()))
    names = list(made.nodes)
    made.links = links(chance, names)
    for name in names:
        for place in range(chance.randint(0, 3)):
            one = stream(chance, name, names, profile, place)
            made.streams[one.name] = one
    made.hosts = [Host(one, rank) for rank, one in enumerate(chance.sample(names, min(len(names), chance.randint(1, 4))))]
    made.events = [event(chance, names) for _ in range(chance.randint(0, 4))]
    made.requirements = [requirement(chance, made, f"R{place} {chance.choice(WORDS)}") for place in range(chance.randint(0, 5))]
    return made


def node(chance: random.Random, name: str, given: int | None) -> Node:
    powered: Any = chance.choice(["mains", "battery", "2xAA", "1xAA", "D", number(chance, 100, 20_000)])
    return Node(
        name, given, number(chance, 0, 120), number(chance, 0, 60), chance.randint(0, 2), powered, chance.randint(-20, 20), chance.randint(0, 256_000),
        maybe(chance, number(chance, 0, 1_000), 0.0), chance.random() < 0.2, some(chance, WORDS), maybe(chance, "a note, \"quoted\"; # all of it", ""),
    )  # fmt: skip


def links(chance: random.Random, names: list[str]) -> list[Link]:
    """One row for some pairs, a series for others, in seconds."""
    found = []
    for one in names:
        for other in names:
            if one < other and chance.random() < 0.7:
                times = sorted(chance.sample(range(1_500), chance.randint(2, 4))) if chance.random() < 0.2 else [None]
                found += [measure(chance, Link(one, other, at=None if time is None else float(time), both=True)) for time in times]
    return found or [Link(names[0], names[1], 0.5, both=True)]


def measure(chance: random.Random, link: Link) -> Link:
    match chance.randint(0, 3):
        case 0:
            link.ratio = chance.random()
        case 1:
            link.sent = chance.randint(1, 5_000)
            link.received = chance.randint(0, link.sent)
        case 2:
            link.rssi = number(chance, -100, -40)
        case _:
            link.ratio, link.sent, link.rssi = chance.random(), chance.randint(1, 500), -80.5
    return link


def stream(chance: random.Random, source: str, names: list[str], profile: int, place: int) -> Stream:
    others = [name for name in names if name != source]
    one = Stream(source, f"{source}/{place}" if chance.random() < 0.5 else f"{source} {place} {chance.choice(WORDS)}", number=maybe(chance, place))
    one.to = chance.choice(["all", "hosts", chance.choice(others), chance.sample(others, chance.randint(1, len(others)))])
    match chance.randint(0, 2):
        case 0:
            one.every = number(chance, 1, 100)
        case 1:
            one.sporadic = number(chance, 1, 1_000)
        case _:
            one.at = [number(chance, 0, 1_700) for _ in range(chance.randint(1, 4))]
    one.deadline, one.bytes = maybe(chance, number(chance, 5, 60)), maybe(chance, chance.randint(0, 32 if profile == 1 else 96))
    one.interval, one.start = chance.randint(10, 120), chance.choice(["drawn", 0.0, number(chance, 0, 900)])
    one.until, one.keep_alive = maybe(chance, number(chance, 1_000, 1_700)), maybe(chance, number(chance, 0, 100))
    one.tags = some(chance, WORDS)
    return one


def losses(chance: random.Random) -> Losses:
    return Losses(
        chance.choice(["survey", "positions", "both", "none"]), chance.choice(["office", "factory-heavy-clutter"]), maybe(chance, number(chance, 2, 4)),
        maybe(chance, 41.5, 40.2), maybe(chance, number(chance, 1, 12)), maybe(chance, 12.5), maybe(chance, 5.0), maybe(chance, 4.0, 0.0),
        maybe(chance, -95.0, -98.0), maybe(chance, 0.5, 1.0), maybe(chance, 40), maybe(chance, 0.1, 0.05), chance.choice(["error", "positions", "none"]),
        chance.choice(["none", "positions"]), False, maybe(chance, [[0.0, 1.0, 5.5, 6.0], [1.0, 2.0, 3.0, 4.0, 6.5, 1.0]], []),
    )  # fmt: skip


def floor(chance: random.Random) -> Floor:
    return Floor(extent=maybe(chance, [-0.5, 0.0, 120.0, 60.25]), height=maybe(chance, 4.5, 6.0), floors=maybe(chance, 3))


def battery(chance: random.Random) -> Battery:
    return Battery(maybe(chance, 18.8), maybe(chance, 17.4), maybe(chance, 0.02), maybe(chance, {"2xAA": 2500.0, "D": 18000.5}, {}))


def event(chance: random.Random, names: list[str]) -> Event:
    made = Event(maybe(chance, "fork \"lift\"", ""))
    match chance.randint(0, 2):
        case 0:
            made.node = chance.choice(names)
        case 1:
            made.link = chance.sample(names, 2)
        case _:
            made.area, made.floor = [0.0, 0.5, 60.0, 60.0], maybe(chance, 1)
    if chance.random() < 0.5:
        made.at = number(chance, 0, 1_700)
    else:
        made.between = [number(chance, 0, 800), number(chance, 900, 1_700)]
    made.duration = maybe(chance, number(chance, 1, 100))
    made.every = maybe(chance, number(chance, 101, 500)) if made.duration else None
    made.ratio = maybe(chance, chance.random())
    made.off = maybe(chance, True) if made.ratio is None else maybe(chance, False)
    made.restart = chance.random() < 0.5
    return made


def requirement(chance: random.Random, made: Plan, name: str) -> Requirement:
    one = Requirement(name, part=maybe(chance, 0.9), confidence=maybe(chance, 0.99, 0.95))
    failures = ["any one node fails", "any one host fails", f"{chance.choice(list(made.nodes))} fails"]
    one.when = chance.choice(["as planned", *failures])
    if one.when != "as planned":
        one.at = maybe(chance, number(chance, 0, 1_700))
    asked = chance.choice(["share", "ratio", "years", "joined"]) if made.streams else chance.choice(["years", "joined"])
    if asked in ("share", "ratio"):
        one.deadline = number(chance, 5, 60) if asked == "share" else None
        setattr(one, asked, chance.uniform(0.1, 1))
        one.streams = chance.sample(list(made.streams), chance.randint(0, len(made.streams)))
        one.to = maybe(chance, chance.choice(["all", "hosts", *made.nodes]))
    else:
        setattr(one, asked, number(chance, 1, 600))
        one.nodes = maybe(chance, chance.choice(["battery", "all", [*made.nodes][:2]]))
    return one
