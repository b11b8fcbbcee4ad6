"""What a plan requires, and what was found of it, in words for a report. Tested, not proved."""

from __future__ import annotations

import math
from collections.abc import Mapping, Sequence
from typing import TYPE_CHECKING, Any

import pandas as pd

from ..model.receivers import ALL, HOSTS
from ..plan.demands import ANY_HOST, ANY_NODE, AS_PLANNED
from ..plan.model import Event, Requirement
from ..requirements import IMPOSSIBLE, MET, NOT_DECIDED, NOT_MET, shown
from ..requirements.measuring import nodes_of

if TYPE_CHECKING:
    from ..plan.plan import Plan

_NAMES_MOST = 4


def listed(names: Sequence[str], most: int = _NAMES_MOST) -> str:
    """Names with commas and an `and`, the first of them."""
    if len(names) > most:
        return f"{', '.join(names[:most])} and {len(names) - most} more"
    return " and ".join(filter(None, [", ".join(names[:-1]), *names[-1:]]))


def asked(plan: Plan, one: Requirement) -> str:
    """What a requirement asks for, in a sentence."""
    told = _asked(plan, one) + _when(plan, one)
    if one.part is not None:
        told += f", in {_percent(one.part)} of the draws or more"
    return f"{told[:1].upper()}{told[1:]}."


def _asked(plan: Plan, one: Requirement) -> str:
    if one.share is not None:
        return f"{_percent(one.share)} or more of the packets of {_streams(plan, one)} come {_deadline(plan, one)}{_to(one)}"
    if one.ratio is not None:
        return f"{_percent(one.ratio)} or more of the packets of {_streams(plan, one)} come at all{_to(one)}"
    if one.years is not None:
        return f"the battery of {_nodes(plan, one)} lasts {one.years:g} years or more"
    if one.joined is not None:
        return f"{_nodes(plan, one)} {'are members' if len(nodes_of(plan, one)) > 1 else 'is a member'} of a host within {one.joined:g} s"
    return f"{_streams(plan, one)} is without a delivery for {one.outage:g} s at most"


def _percent(part: float) -> str:
    return shown.number(part, "of packets")


def _found(plan: Plan, one: Requirement) -> list[str]:
    return [stream.name for stream in plan.streams_of(one.streams, one.tag)]


def _streams(plan: Plan, one: Requirement) -> str:
    names = _found(plan, one)
    if one.tag and not one.streams and len(names) > 1:
        return f"each of the {len(names)} streams of {one.tag}"
    if len(names) == len(plan.streams) > _NAMES_MOST:
        return f"each of all {len(names)} streams"
    return f"{'each of ' if len(names) > 1 else ''}{listed(names)}"


def _count(number: int, word: str) -> str:
    return f"{number:,} {word}{'s' * (number != 1)}"


def _deadline(plan: Plan, one: Requirement) -> str:
    given = sorted({one.deadline or stream.deadline or 0.0 for stream in plan.streams_of(one.streams, one.tag)})
    return f"within {given[0]:g} s" if len(given) == 1 else f"within their deadlines of {given[0]:g} to {given[-1]:g} s" if given else "in time"


def _to(one: Requirement) -> str:
    if one.to is None:
        return ""
    if one.to in (HOSTS, ALL):
        return " to whichever host serves" if one.to == HOSTS else " to all nodes"
    return f" to {listed([one.to] if isinstance(one.to, str) else one.to)}"


def _nodes(plan: Plan, one: Requirement) -> str:
    names = nodes_of(plan, one)
    what = "nodes with a battery" if one.years is not None else "nodes"
    each = "each of " if one.years is not None and len(names) > 1 else ""
    if one.nodes is None or isinstance(one.nodes, str) and one.nodes not in plan.nodes:
        tag = "" if one.nodes is None or one.nodes in (ALL, "battery") else f" of {one.nodes}"
        return f"{each}the {len(names)} {what}{tag}"
    return each + listed(names)


def _when(plan: Plan, one: Requirement) -> str:
    """When it has to hold."""
    at = plan.settings.hours * 1_200 if one.at is None else one.at
    if one.when == AS_PLANNED:
        return ""
    what = {ANY_NODE: "any one node", ANY_HOST: "any one host"}.get(one.when, one.when.removesuffix(" fails"))
    return f", where {what} fails for good after {at:,.0f} s"


def found(row: Mapping[str, Any]) -> str:
    """What was found of a requirement: the value of the worst, and where it lies."""
    if row["verdict"] == IMPOSSIBLE:
        return "No run can meet it."
    if math.isnan(row["value"]):
        return "Nothing was counted."
    value = shown.number(row["value"], row["unit"])
    subject = "it holds in" if row["unit"] == "of draws" else f"the worst, {row['worst']}, has"
    of = " of the draws" if row["unit"] == "of draws" else " of its packets" if row["unit"] == "of packets" else ""
    return f"{subject[:1].upper()}{subject[1:]} {value}{of}; the true value is from {shown.interval(row)}."


def sure(row: Mapping[str, Any], confidence: float) -> str:
    """How sure that is, in words."""
    if row["verdict"] == IMPOSSIBLE:
        return "Certain: it follows by arithmetic, and nothing was run."
    behind = _count(int(row["draws"]), "draw") + (f" with {_count(int(row['packets']), 'packet')}" if row["packets"] else "")
    if row["verdict"] == NOT_DECIDED:
        needs = row["needs"]
        told = f"It would take some {int(needs):,} draws." if pd.notna(needs) else "No number of draws that could be named decides it."
        return f"Open after {behind}. {told}"
    return f"By {behind}, with {_percent(confidence)} confidence."


def whole(table: pd.DataFrame) -> str:
    """All verdicts in one sentence."""
    verdicts = list(table["verdict"])
    if all(verdict == MET for verdict in verdicts):
        return f"The plan meets {'its requirement' if len(verdicts) == 1 else f'all its {len(verdicts)} requirements'}."
    its = "its requirement" if len(verdicts) == 1 else "its requirements"
    if any(verdict in (NOT_MET, IMPOSSIBLE) for verdict in verdicts):
        return f"The plan does not meet {its}: {counts(table)}."
    return f"It is not decided whether the plan meets {its}: {counts(table)}."


def counts(table: pd.DataFrame) -> str:
    """How many requirements have which verdict."""
    verdicts = list(table["verdict"])
    numbers = {verdict: verdicts.count(verdict) for verdict in (MET, NOT_MET, NOT_DECIDED, IMPOSSIBLE)}
    parts = [f"{number} {'is' if number == 1 else 'are'} {verdict}" for verdict, number in numbers.items() if number]
    return f"of {len(verdicts)} requirements {listed(parts)}" if len(verdicts) > 1 else f"it is {verdicts[0]}"


def event(one: Event) -> str:
    """What happens by an event of a plan, in a sentence."""
    what = one.node or (" – ".join(one.link) if one.link is not None else "the area " + ", ".join(f"{edge:g}" for edge in one.area or []) + " m")
    when = f"at {one.at:,g} s" if one.at is not None else "at a drawn time from {:,g} to {:,g} s".format(*(one.between or [0.0, 0.0]))
    does = f"passes {100 * one.ratio:g} % at most" if one.ratio is not None else "has no power" if one.link is None else "passes nothing"
    long = "" if one.duration is None else f" for {one.duration:,g} s"
    again = "" if one.every is None else f", again each {one.every:,g} s"
    return f"{one.name + ': ' if one.name else ''}{what} {does} {when}{long}{again}."
