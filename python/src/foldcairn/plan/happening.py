"""What the events of a plan do, by frames: which nodes have no power, and what links pass at most. Tested, not proved."""

from __future__ import annotations

from collections.abc import Iterable, Iterator, Mapping, Sequence
from dataclasses import dataclass, field
from typing import TYPE_CHECKING

from ..model import moments
from . import chance
from .model import Event, Node
from .words import Pair

if TYPE_CHECKING:
    from .plan import Plan

# From which frame on, to which frame (not with it).
Span = tuple[int, int]


@dataclass(frozen=True)
class Cut:
    """From frame `first` on to `end`, not with it, a node has no power; `restart` says whether its streams are requested again then."""

    first: int
    end: int
    restart: bool = True


@dataclass
class Happenings:
    """What happens in a run: `cuts` of power by node, and `caps` by link, each a span with the ratio that it passes at most then."""

    cuts: dict[str, list[Cut]] = field(default_factory=dict)
    caps: dict[Pair, list[tuple[int, int, float]]] = field(default_factory=dict)


def happenings(plan: Plan, links: Iterable[Pair], frame_seconds: int, frames: int, seed: int | None) -> Happenings:
    """What the events do to the nodes and to these links. In a frame that an event touches it holds all the time, so no answer is rosier than
    the truth."""
    found, between = Happenings(), list(links)
    for event, called in zip(plan.events, chance.names(plan.events)):
        spans = list(_spans(event, chance.begin(event, called, seed), frame_seconds, frames))
        for node in _nodes_off(plan, event):
            found.cuts.setdefault(node, []).extend(Cut(first, end, event.restart) for first, end in spans)
        cap = _cap(event)
        for link in between if cap is not None else ():
            if cap is not None and touches(plan.nodes, event, link):
                found.caps.setdefault(link, []).extend((first, end, cap) for first, end in spans)
    return found


def _spans(event: Event, start: float, frame_seconds: int, frames: int) -> Iterator[Span]:
    """The frames of each time that it happens."""
    seconds = frames * frame_seconds
    while start < seconds:
        end = seconds if event.duration is None else min(seconds, start + event.duration)
        yield moments.frame_of(start, frame_seconds), min(frames, moments.frame_from(end, frame_seconds))
        if event.every is None:
            return
        start += event.every


def _cap(event: Event) -> float | None:
    """What links pass at most, or None where they are left alone."""
    if event.ratio is not None:
        return event.ratio
    return 0.0 if event.link is not None and event.off is not False else None


def is_off(event: Event) -> bool:
    """Whether it takes the power of nodes: of its node, or of those in its area."""
    return event.link is None and (event.off if event.off is not None else event.ratio is None)


def _nodes_off(plan: Plan, event: Event) -> list[str]:
    if not is_off(event):
        return []
    if event.node is not None:
        return [event.node]
    return [name for name, node in plan.nodes.items() if not node.candidate and is_in(node, event)]


def is_in(node: Node, event: Event) -> bool:
    """Whether a node lies in the area of an event."""
    if event.area is None or node.x is None or node.y is None:
        return False
    left, lower, right, upper = event.area
    return left <= node.x <= right and lower <= node.y <= upper and event.floor in (None, node.floor)


def touches(nodes: Mapping[str, Node], event: Event, link: Pair) -> bool:
    """Whether a link is one of those to which an event happens."""
    if event.node is not None:
        return event.node in link
    if event.link is not None:
        return set(event.link) == set(link)
    return any(is_in(nodes[end], event) for end in link)


def merged(cuts: Iterable[Cut]) -> list[Cut]:
    """The cuts in their order; those that touch are one."""
    found: list[Cut] = []
    for one in sorted(cuts, key=lambda cut: (cut.first, cut.end)):
        if found and one.first <= found[-1].end:
            last = found.pop()
            one = Cut(last.first, max(last.end, one.end), last.restart or one.restart)
        found.append(one)
    return found


def pieces(base: Sequence[tuple[int, float]], caps: Sequence[tuple[int, int, float]], frames: int) -> list[tuple[int, float]]:
    """The ratio of a link by the frames from which on it holds, from frame 0 on: that of `base`, in the order of frames, and within a cap at
    most that."""
    turns = sorted({0, *(frame for frame, _ in base), *(frame for first, end, _ in caps for frame in (first, end))})
    found: list[tuple[int, float]] = []
    for frame in (turn for turn in turns if turn < frames):
        own = [ratio for start, ratio in base if start <= frame][-1]
        ratio = min([own, *(cap for first, end, cap in caps if first <= frame < end)])
        if not found or found[-1][1] != ratio:
            found.append((frame, ratio))
    return found
