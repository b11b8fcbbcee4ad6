"""Whether the nodes, links, streams and hosts of a plan fit together. `demands` has the same for events and requirements,
and `choices` for what may be searched.

Tested, not proved.
"""

from __future__ import annotations

from itertools import pairwise
from typing import TYPE_CHECKING

from ..model import doubts, lines
from ..common.arguments import did_you_mean
from . import choices, demands, naming, packets
from .errors import PlanError, at, known
from .model import Floor, Link, Node, Stream
from .ratios import Ratios
from .words import ALL, CAPACITIES, HOSTS

if TYPE_CHECKING:
    from .plan import Plan

# How far the ratio of a row may be from its counts, by rounding.
_ROUNDED = 1e-3


def check(plan: Plan) -> None:
    """Raises `PlanError` where what is given contradicts itself, names what is not there, or is most likely in another unit."""
    naming.complete(plan)
    _settings(plan)
    box = extent(plan)
    for node in plan.nodes.values():
        _node(plan, node, box)
    _batteries(plan)
    for link in plan.links:
        _link(plan, link)
    _losses(plan)
    for stream in plan.streams.values():
        _stream(plan, stream)
    _hosts(plan)
    for event in plan.events:
        demands.check_event(plan, event)
    names: set[str] = set()
    for one in plan.requirements:
        demands.check_requirement(plan, one, names)
    choices.check(plan)


def check_ratios(plan: Plan) -> None:
    """Raises `PlanError` where the ratios of links do not follow from what was measured and the model of path loss."""
    if plan.nodes and (plan.links or plan.losses.source != "survey"):
        Ratios.of(plan, list(plan.nodes))


def _settings(plan: Plan) -> None:
    settings, frame = plan.settings, lines.frame_seconds(plan.settings.profile)
    if settings.contend and settings.profile == 1:
        raise PlanError(at(plan, "plan"), f"`contend` is {settings.contend}, and profile 1 has one contention slot; write `profile = 2`")
    least, most = frame / 3_600, lines.FRAMES_MOST * frame / 3_600
    if not least <= settings.hours <= most:
        advice = f"; if {settings.hours:g} is in seconds, write {settings.hours / 3_600:g}" if settings.hours > most else ""
        raise PlanError(
            at(plan, "plan"), f"`hours` is {settings.hours:,g}, and has to be from {least:.4f} to {most:.2f}, in h: a run has at most "
            f"{lines.FRAMES_MOST:,} frames of {frame} s{advice}"
        )  # fmt: skip


def seconds(plan: Plan) -> float:
    """The length of a run."""
    return plan.settings.hours * 3_600


# Nodes, and where they are.


def extent(plan: Plan) -> list[float] | None:
    """Where the edges of the floor plan are: left, lower, right, upper, in metres; None where no plan says so. Raises `PlanError` where it is
    given twice, or the picture can't be read."""
    floor = plan.floor
    if floor.extent is not None and floor.metres_per_pixel is not None:
        raise PlanError(at(plan, "floor", floor), "it has `extent` and `metres_per_pixel`; keep one of these")
    if floor.metres_per_pixel is None:
        return floor.extent
    width, height = _size(plan, floor)
    return [0.0, 0.0, width * floor.metres_per_pixel, height * floor.metres_per_pixel]


def _size(plan: Plan, floor: Floor) -> tuple[int, int]:
    """The pixels of the picture."""
    from PIL import Image

    path = plan.folder / floor.picture
    if not floor.picture or not path.is_file():
        near = sorted(one.name for one in plan.folder.iterdir()) if plan.folder.is_dir() else []
        told = f"`picture` is {floor.picture!r}, and there is no such file{did_you_mean(floor.picture, near)}" if floor.picture else "`picture` is not given"
        raise PlanError(at(plan, "floor", floor), f"{told}; `metres_per_pixel` needs one, and `extent` does without")
    try:
        with Image.open(path) as picture:
            return picture.width, picture.height
    except OSError as error:
        raise PlanError(at(plan, "floor", floor), f"`picture` is {floor.picture!r}, and that is no picture: {error}") from error


def _node(plan: Plan, node: Node, box: list[float] | None) -> None:
    where = at(plan, "node", node)
    if (node.x is None) != (node.y is None):
        raise PlanError(where, f"{node.name} has `{'y' if node.x is None else 'x'}` alone; a place has `x` and `y`")
    if node.x is not None and node.y is not None and box is not None and not (box[0] <= node.x <= box[2] and box[1] <= node.y <= box[3]):
        key, value, low, high = ("x", node.x, box[0], box[2]) if not box[0] <= node.x <= box[2] else ("y", node.y, box[1], box[3])
        raise PlanError(where, f"`{key}` is {value:g}, and {node.name} has to be on the floor plan, from {low:g} to {high:g}, in m")
    if plan.floor.floors is not None and not 0 <= node.floor < plan.floor.floors:
        raise PlanError(where, f"`floor` is {node.floor}, and there are {plan.floor.floors}, from 0 to {plan.floor.floors - 1}")
    if node.on >= seconds(plan):
        raise PlanError(where, f"`on` is {node.on:,g}, and the run ends at {seconds(plan):,g} s")
    if not isinstance(node.powered, str):
        for told in doubts.of_battery(capacity_mah=node.powered):
            raise PlanError(where, told.replace("capacity_mah", "powered"))


def _batteries(plan: Plan) -> None:
    battery = plan.battery
    currents = {name: value for name in ("receive_ma", "transmit_ma", "sleep_ma") if (value := getattr(battery, name)) is not None}
    for name, value in [*currents.items(), *(("capacity_mah", one) for one in battery.capacity_mah.values())]:
        for told in doubts.of_battery(**{name: value}):
            raise PlanError(at(plan, "battery", battery), told)
    for node in plan.nodes.values():
        if isinstance(node.powered, str) and not node.is_on_mains and node.powered not in CAPACITIES:
            known(at(plan, "node", node), "powered", [node.powered], ["mains", *CAPACITIES], "kind of battery")


# Links.


def _link(plan: Plan, link: Link) -> None:
    where = at(plan, "link", link)
    known(where, "from", [link.sender], plan.nodes)
    known(where, "to", [link.receiver], plan.nodes)
    if link.sender == link.receiver:
        raise PlanError(where, f"`from` and `to` are both {link.sender}; a link has two ends")
    if link.received is not None and link.sent is None:
        raise PlanError(where, f"`received` is {link.received:,}, and `sent` is not given")
    if link.sent is not None and link.received is None and link.ratio is None:
        raise PlanError(where, f"`sent` is {link.sent:,}, and neither `received` nor `ratio` is given")
    if link.sent is not None and link.received is not None and link.received > link.sent:
        raise PlanError(where, f"`received` is {link.received:,}, and has to be at most {link.sent:,}, the number that was sent")
    if link.sent and link.received is not None and link.ratio is not None and abs(link.ratio - link.received / link.sent) > _ROUNDED:
        raise PlanError(where, f"`ratio` is {link.ratio:g}, and {link.received:,} of {link.sent:,} are {link.received / link.sent:.4g}; keep one of these")
    if isinstance(link.at, float) and link.at >= seconds(plan):
        raise PlanError(where, f"`at` is {link.at:,g}, and the run ends at {seconds(plan):,g} s")


def _losses(plan: Plan) -> None:
    losses, where = plan.losses, at(plan, "losses", plan.losses)
    by_place = losses.source in ("positions", "both") or losses.unknown == "positions"
    if losses.source in ("survey", "none") and not plan.links and plan.nodes and not by_place:
        raise PlanError(where, f'`from` is {losses.source!r}, and there is no link: write [[link]], or `from = "positions"` for a model of path loss')
    if losses.source == "survey" and plan.links and not by_place:
        _both_ways(plan)
    if by_place and (lacking := [node for node in plan.nodes.values() if node.x is None]):
        raise PlanError(at(plan, "node", lacking[0]), f"{lacking[0].name} has no place, `x` and `y`, and [losses] takes links from places")


def _both_ways(plan: Plan) -> None:
    """No pair of a survey has both directions where the word for that was forgotten."""
    found = {(link.sender, link.receiver) for link in plan.links} | {(link.receiver, link.sender) for link in plan.links if link.both}
    if not any((two, one) in found for one, two in found):
        first = plan.links[0]
        raise PlanError(
            at(plan, "link", first), f"no link has its other direction, as this one from {first.sender} to {first.receiver}, and no node answers another: "
            "write `both = true`, or a row for each direction"
        )  # fmt: skip


# Streams and hosts.


def _stream(plan: Plan, stream: Stream) -> None:
    where, run = at(plan, "stream", stream), seconds(plan)
    known(where, "from", [stream.source], plan.nodes)
    known(where, "to", [stream.to] if isinstance(stream.to, str) else stream.to, [*plan.nodes, ALL, HOSTS])
    if {stream.source}.issuperset([stream.to] if isinstance(stream.to, str) else stream.to):
        raise PlanError(where, f"`to` has {stream.source} alone, and packets are for other nodes")
    given = [name for name in ("every", "sporadic", "at") if getattr(stream, name) not in (None, [])]
    if len(given) != 1:
        told = f"{stream.name or stream.source} has {' and '.join(given)}" if given else f"{stream.name or stream.source} has no packets"
        raise PlanError(where, f"{told}; give one of `every`, `sporadic` and `at`")
    if stream.every is not None and stream.every >= run:
        raise PlanError(where, f"`every` is {stream.every:,g}, and the run has {run:,g} s; {_milliseconds(stream.every)}")
    if stream.deadline is not None and stream.deadline >= run:
        raise PlanError(where, f"`deadline` is {stream.deadline:,g}, and the run has {run:,g} s, so no packet is due; {_milliseconds(stream.deadline)}")
    start = stream.start if isinstance(stream.start, float) else 0.0
    if start >= min(run, run if stream.until is None else stream.until):
        raise PlanError(where, f"`start` is {start:,g}, and {'the run ends' if stream.until is None or start >= run else '`until` is'} at "
                        f"{run if stream.until is None or start >= run else stream.until:,g} s")  # fmt: skip
    most = lines.payload_most(plan.settings.profile)
    if stream.bytes is not None and stream.bytes > most:
        raise PlanError(where, f"`bytes` is {stream.bytes}, and a payload has at most {most} bytes in profile {plan.settings.profile}")
    _keep_alive(plan, stream)


def _milliseconds(value: float) -> str:
    return f"times are in seconds: if {value:g} is in milliseconds, write {value / 1_000:g}"


def _keep_alive(plan: Plan, stream: Stream) -> None:
    every, limit = packets.keep_alive(stream, plan.settings), lines.EMPTY_SLOTS * packets.interval(stream)
    if every >= limit:
        told = "" if stream.keep_alive is not None else " of [plan]"
        raise PlanError(
            at(plan, "stream", stream), f"`keep_alive`{told} is {every:,g} s, and has to be below {limit:,} s: a host takes a stream away whose slots stay "
            f"empty {lines.EMPTY_SLOTS} times in a row, and {stream.name} requests one each {packets.interval(stream)} s"
        )  # fmt: skip


def _hosts(plan: Plan) -> None:
    for place, host in enumerate(plan.hosts):
        where = at(plan, "host", host)
        known(where, "node", [host.node], plan.nodes)
        for other in plan.hosts[:place]:
            if host.node == other.node or host.rank == other.rank:
                what = f"`node` is {host.node}" if host.node == other.node else f"`rank` is {host.rank}"
                raise PlanError(where, f"{what}, which {at(plan, 'host', other)} has too")
    ordered = sorted(plan.hosts, key=lambda host: host.rank)
    if ordered and ordered[0].rank:
        raise PlanError(at(plan, "host", ordered[0]), f"`rank` is {ordered[0].rank}, and no host has rank 0, which is the first choice")
    for one, other in pairwise(ordered):
        if other.rank > one.rank + 1:
            raise PlanError(at(plan, "host", other), f"`rank` is {other.rank}, and no host has rank {one.rank + 1}; ranks follow each other")
