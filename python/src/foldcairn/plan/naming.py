"""Ids of nodes and numbers of streams that the file leaves out: given in the natural order of names, so the order of rows means nothing.

Tested, not proved.
"""

from __future__ import annotations

import re
from collections.abc import Iterable, Sequence
from typing import TYPE_CHECKING, Any, cast

from .errors import PlanError, at
from .model import Node, Requirement, Stream

if TYPE_CHECKING:
    from .plan import Plan

_IDS_MOST = 200
_STREAMS_MOST = 4


def natural(name: str) -> tuple[tuple[int, int, str], ...]:
    """What sorts names as people do: L-2 before L-10, in any case."""
    parts = re.findall(r"\d+|\D+", name)
    return (*((0, int(part), "") if part.isdecimal() else (1, 0, part.casefold()) for part in parts), (2, 0, name))


def name(plan: Plan, nodes: Iterable[Node], streams: Sequence[Stream]) -> None:
    """Puts nodes and streams that were read into the plan by their names, numbered where they were not. Raises `PlanError` where two have one
    name or number."""
    for node in nodes:
        _put(plan, "node", plan.nodes, node)
    assign(plan)
    number(plan, streams)
    for one in streams:
        one.name = one.name or (one.source if one.number == 0 else f"{one.source}/{one.number}")
        _put(plan, "stream", plan.streams, one)


def _put(plan: Plan, table: str, where: dict[str, Any], one: Any) -> None:
    if one.name in where:
        raise PlanError(at(plan, table, one), f"`name` is {one.name!r}, which {at(plan, table, where[one.name])} has too; names have to differ")
    where[one.name] = one


def complete(plan: Plan) -> None:
    """Gives nodes and streams that Python put into a plan their ids, numbers and names. Raises `PlanError` where one stands under another name
    than its own, or what `name` raises it for."""
    for table, rows in (("node", plan.nodes), ("stream", plan.streams)):
        for key, one in cast("dict[str, Any]", rows).items():
            one.name = one.name or key
            if one.name != key:
                raise PlanError(at(plan, table, one), f"`name` is {one.name!r}, and it stands in the plan as {key!r}")
    if any(node.id is None for node in plan.nodes.values()):
        assign(plan)
    number(plan, list(plan.streams.values()))
    several: list[Stream | Requirement] = [*plan.streams.values(), *plan.requirements]
    for row in several:
        # A name alone is no list, as cells have it.
        if isinstance(row.to, list) and len(row.to) == 1:
            row.to = row.to[0]


def assign(plan: Plan) -> None:
    """Gives each node without an id the least that is free, in the natural order of names; candidates come after all other nodes. Raises
    `PlanError` where two have one id, or none is left."""
    taken: dict[int, str] = {}
    for node in plan.nodes.values():
        if node.id is not None and taken.setdefault(node.id, node.name) != node.name:
            raise PlanError(at(plan, "node", node), f"`id` is {node.id}, which {taken[node.id]} has too; ids have to differ")
    lacking = sorted((node for node in plan.nodes.values() if node.id is None), key=lambda node: (node.candidate, natural(node.name)))
    free = (one for one in range(1, _IDS_MOST + 1) if one not in taken)
    for node in lacking:
        node.id = next(free, None)
        if node.id is None:
            raise PlanError(at(plan, "node", node), f"all ids up to {_IDS_MOST} are taken, and a plan has no more nodes")
    if lacking:
        plan.remarks.append(
            f"{len(lacking)} nodes had no id and got theirs in the order of names; ids rule which nodes contend for slots with which: `Plan.write` "
            "writes them into the plan, and `vary_ids = true` draws others for each seed"
        )


def number(plan: Plan, streams: Sequence[Stream]) -> None:
    """Gives each stream its number. Raises `PlanError` where a node has two streams of one number, more than 4, or several without a name."""
    by_source: dict[str, list[Stream]] = {}
    for one in streams:
        by_source.setdefault(one.source, []).append(one)
    for source, ours in by_source.items():
        _number(plan, source, ours)


def _number(plan: Plan, source: str, streams: list[Stream]) -> None:
    taken: dict[int, Stream] = {}
    for one in streams:
        if one.number is not None and taken.setdefault(one.number, one) is not one:
            raise PlanError(at(plan, "stream", one), f"`stream` is {one.number}, and {at(plan, 'stream', taken[one.number])} has this number of {source} too")
    lacking = [one for one in streams if one.number is None]
    if len(lacking) > 1 and (unnamed := [one for one in lacking if not one.name]):
        told = "this one has neither a `name` nor a number, `stream`; write one"
        raise PlanError(at(plan, "stream", unnamed[-1]), f"{source} has {len(streams)} streams, and {told}")
    free = (one for one in range(_STREAMS_MOST) if one not in taken)
    for one in sorted(lacking, key=lambda one: natural(one.name)):
        one.number = next(free, None)
        if one.number is None:
            raise PlanError(at(plan, "stream", one), f"{source} has {len(streams)} streams, and a node has at most {_STREAMS_MOST}")
