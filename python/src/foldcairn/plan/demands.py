"""Whether an event or a requirement of a plan fits the rest of it. Tested, not proved."""

from __future__ import annotations

import re
from typing import TYPE_CHECKING

from ..common.arguments import did_you_mean
from .errors import PlanError, at, known
from .model import Event, Requirement
from .words import ALL, BATTERY, HOSTS

if TYPE_CHECKING:
    from .plan import Plan

# What a requirement may ask for, one of them.
MEASURES = ("share", "ratio", "years", "joined", "outage")
AS_PLANNED, ANY_NODE, ANY_HOST = "as planned", "any one node fails", "any one host fails"
_FAILS = re.compile(r"(.+) fails")


def failing(when: str) -> str:
    """The node of "NAME fails", else an empty text."""
    found = _FAILS.fullmatch(when)
    return "" if found is None or when in (ANY_NODE, ANY_HOST) else found[1]


def _one_of(where: str, what: str, row: object, names: tuple[str, ...]) -> str:
    """The one of these keys that is given."""
    given = [name for name in names if getattr(row, name) is not None]
    if len(given) != 1:
        has = f"{what} has {' and '.join(f'`{name}`' for name in given)}" if given else f"{what} has none of {', '.join(f'`{name}`' for name in names)}"
        raise PlanError(where, f"{has}; give one")
    return given[0]


def check_event(plan: Plan, event: Event) -> None:
    """Raises `PlanError` where an event is of nothing or of several things, has no time or one after the run, or names what is not there."""
    where, run = at(plan, "event", event), plan.settings.hours * 3_600
    what = _one_of(where, "it", event, ("node", "link", "area"))
    _one_of(where, "it", event, ("at", "between"))
    known(where, what, [event.node] if event.node is not None else event.link or [], plan.nodes)
    last = event.at if event.at is not None else max(event.between or [0.0])
    if last >= run:
        raise PlanError(where, f"`{'at' if event.at is not None else 'between'}` is {last:,g}, and the run ends at {run:,g} s")
    if event.ratio is not None and event.off:
        raise PlanError(where, "it has `off` and `ratio`; what is off passes nothing: keep one of these")
    if event.ratio is None and event.off is False:
        raise PlanError(where, "`off` is false, and there is no `ratio`: nothing happens; write one of these")
    if event.every is not None and event.duration is None:
        raise PlanError(where, f"`every` is {event.every:g}, and `for` is not given: it does not end before it happens again")
    if event.every is not None and event.duration is not None and event.every <= event.duration:
        raise PlanError(where, f"`every` is {event.every:g}, and has to be above {event.duration:g}, `for`, in s")
    if event.floor is not None and event.area is None:
        raise PlanError(where, f"`floor` is {event.floor}, and it is that of an `area`, which is not given")


def check_requirement(plan: Plan, one: Requirement, names: set[str]) -> None:
    """Raises `PlanError` where a requirement asks for nothing or for several things, has the name of an earlier one, or names what is not
    there. Adds its name to the names."""
    where, run = at(plan, "requirement", one), plan.settings.hours * 3_600
    if one.name in names:
        raise PlanError(where, f"`name` is {one.name!r}, which an earlier requirement has too; names have to differ")
    names.add(one.name)
    asked = _one_of(where, repr(one.name), one, MEASURES)
    _check_streams(plan, one, where, asked)
    if one.to is not None:
        known(where, "to", [one.to] if isinstance(one.to, str) else one.to, [*plan.nodes, ALL, HOSTS])
    _check_nodes(plan, one, where, asked)
    _check_when(plan, one, where, asked)
    for key in ("deadline", "at", "joined", "outage"):
        if (value := getattr(one, key)) is not None and value >= run:
            in_seconds = f"times are in seconds: if it is in milliseconds, write {value / 1_000:g}"
            raise PlanError(where, f"`{key}` is {value:,g}, and the run has {run:,g} s; {in_seconds}")


def _check_streams(plan: Plan, one: Requirement, where: str, asked: str) -> None:
    is_of_packets = asked in ("share", "ratio", "outage")
    for key in ("streams", "tag", "to", "deadline"):
        if getattr(one, key) not in (None, "", []) and not (is_of_packets if key != "deadline" else asked == "share"):
            raise PlanError(where, f"`{key}` says nothing of `{asked}`; take it away")
    if one.streams and one.tag:
        raise PlanError(where, "it has `streams` and `tag`; keep one of these")
    known(where, "streams", one.streams, plan.streams, "stream")
    if one.tag:
        of_streams = [tag for stream in plan.streams.values() for tag in (*stream.tags, *plan.nodes[stream.source].tags)]
        known(where, "tag", [one.tag], dict.fromkeys(of_streams), "tag of a stream, or of its node,")
    found = plan.streams_of(one.streams, one.tag) if is_of_packets else []
    if is_of_packets and not found:
        raise PlanError(where, f"no stream has the tag {one.tag!r}, itself or by its node" if one.tag else "the plan has no stream")
    if asked == "share" and one.deadline is None and (lacking := [stream for stream in found if stream.deadline is None]):
        raise PlanError(where, f"`deadline` is not given, and the stream {lacking[0].name} has none either")


def _check_nodes(plan: Plan, one: Requirement, where: str, asked: str) -> None:
    if one.nodes is None:
        return
    if asked not in ("years", "joined"):
        raise PlanError(where, f"`nodes` says nothing of `{asked}`; take it away")
    tags = {tag for node in plan.nodes.values() for tag in node.tags}
    known(where, "nodes", [one.nodes] if isinstance(one.nodes, str) else one.nodes, [*plan.nodes, *sorted(tags), BATTERY, ALL], "node, or tag,")


def _check_when(plan: Plan, one: Requirement, where: str, asked: str) -> None:
    words = (AS_PLANNED, ANY_NODE, ANY_HOST)
    name = failing(one.when)
    if one.when not in words and not name:
        raise PlanError(where, f"`when` is {one.when!r}, and has to be {', '.join(words)}, or the name of a node and `fails`{did_you_mean(one.when, words)}")
    if name:
        known(where, "when", [name], plan.nodes)
    if one.when == AS_PLANNED and one.at is not None:
        raise PlanError(where, f"`at` is {one.at:g}, the time of a failure, and `when` names none")
    if asked == "outage" and one.when == AS_PLANNED:
        raise PlanError(where, f"`outage` is after a failure: write `when`, as `when = {ANY_HOST!r}`")
