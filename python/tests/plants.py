"""Plants of which it is known which failures break what: a chain, a ring, a star with a backup host, and a pair of halls. Nothing is lost by chance
in them but where a ratio says so."""

from __future__ import annotations

from collections.abc import Iterable

from foldcairn.plan import Event, Host, Link, Losses, Node, Plan, Requirement, Settings, Stream

MINUTES = 12


def made(
    nodes: Iterable[Node], links: Iterable[tuple[str, str]], hosts: Iterable[str], streams: Iterable[Stream], requirements: Iterable[Requirement], *,
    ratio: float = 1.0, minutes: float = MINUTES, seeds: int = 64, events: Iterable[Event] = (), losses: Losses | None = None,
) -> Plan:  # fmt: skip
    """A plan with links in both directions, and hosts by rank."""
    plan = Plan(
        settings=Settings(profile=2, contend=3, hours=minutes / 60, seeds=seeds), nodes={one.name: one for one in nodes},
        links=[Link(one, other, ratio, both=True) for one, other in links], streams={one.name: one for one in streams},
        hosts=[Host(name, rank) for rank, name in enumerate(hosts)], requirements=list(requirements), losses=losses or Losses(), events=list(events),
    )  # fmt: skip
    plan.check()
    return plan


def stream(source: str, to: str = "hosts", every: float = 20.0, start: float = 60.0, **keys: object) -> Stream:
    """Packets with slots enough."""
    return Stream(source, source, to, every=every, interval=max(1, int(every / 2)), start=start, deadline=30.0, **keys)  # type: ignore[arg-type]


def nodes(names: str, y: float = 0.0, step: float = 10.0) -> list[Node]:
    """Nodes in a row."""
    return [Node(name, x=step * place, y=y) for place, name in enumerate(names.split())]


def chain(*requirements: Requirement, **more: object) -> Plan:
    """A host with three relays in a row after it; each cuts off those behind it."""
    streams = [stream(name, start=50 + 10 * place) for place, name in enumerate(("R-1", "R-2", "R-3"))]
    asked = requirements or (Requirement("all", share=0.9),)
    return made(nodes("H R-1 R-2 R-3"), [("H", "R-1"), ("R-1", "R-2"), ("R-2", "R-3")], ["H"], streams, asked, **more)  # type: ignore[arg-type]


def ring(*requirements: Requirement, **more: object) -> Plan:
    """A host in a ring of five: no other node cuts off any."""
    names = ["H", "R-1", "R-2", "R-3", "R-4"]
    streams = [stream(name, start=50 + 10 * place) for place, name in enumerate(names[1:])]
    asked = requirements or (Requirement("all", share=0.9),)
    return made(nodes(" ".join(names)), list(zip(names, [*names[1:], "H"])), ["H"], streams, asked, **more)  # type: ignore[arg-type]


def star(*requirements: Requirement, **more: object) -> Plan:
    """Three sensors that each have a link to a host and to its backup, which have one to each other."""
    links = [("H", "B"), *((host, name) for name in ("S-1", "S-2", "S-3") for host in ("H", "B"))]
    streams = [stream(name, start=50 + 10 * place) for place, name in enumerate(("S-1", "S-2", "S-3"))]
    asked = requirements or (Requirement("back soon", outage=200.0, when="H fails"), Requirement("all", share=0.5))
    return made(nodes("H B S-1 S-2 S-3"), links, ["H", "B"], streams, asked, **more)  # type: ignore[arg-type]


def halls(*requirements: Requirement, **more: object) -> Plan:
    """A host with a sensor near to it, and a far one over a link that loses most; and three candidates: one between them, one that reaches the near
    sensor alone, and one that reaches nothing."""
    links = [("H", "near"), ("between", "H"), ("between", "far"), ("aside", "near")]
    placed = [*nodes("H near far"), *(Node(name, x=5.0 + 5 * place, y=5.0, candidate=True) for place, name in enumerate(("aside", "nothing", "between")))]
    asked = requirements or (Requirement("all", share=0.9),)
    plan = made(placed, links, ["H"], [stream("near", start=50), stream("far", start=60)], asked, **more)  # type: ignore[arg-type]
    plan.links.append(Link("H", "far", 0.08, both=True))
    plan.check()
    return plan
