"""Where the names of nodes are on a map: next to their own node, where they cover no node and no other name, and few lines. All lengths are
in points. Tested, not proved."""

from __future__ import annotations

from collections.abc import Mapping, Sequence
from dataclasses import dataclass

import numpy as np
from numpy.typing import NDArray

Points = NDArray[np.float64]
Box = tuple[float, float, float, float]

# The directions in which a name may be from its node, and how much further away than it has to.
_TURNS = np.arange(16) * np.pi / 8
_FURTHER = (0.0, 4.0, 9.0, 15.0, 22.0)
# The room between a node and its name, and from which distance on a line leads to it.
_GAP, LEADS_FROM = 2.5, 9.0
# What a point of each costs: area that covers a node or another name, length of lines that are covered, and distance; and that another node
# is nearer to a name than its own.
_COVERS, _CROSSES, _AWAY, _BETWEEN = 1e3, 0.15, 3.0, 60.0
_PASSES = 3
# For the sums of floats, as an area.
_LITTLE = 1e-6
_NARROW, _BROAD, _BROADEST = frozenset("-.,:;()[]'! ijl|"), frozenset("DGHNOQU<>+=~&"), frozenset("WMmw@%…—")


@dataclass(frozen=True)
class Label:
    """A name that has its place: its lower left corner, whether it is so far from its node that a line leads to it, and whether it touches no
    node, no other name and no edge."""

    left: float
    low: float
    far: bool
    free: bool = True


def width(text: str, size: float) -> float:
    """About how wide a text is in letters of this size, at most."""
    return size * float(sum(map(_letter, text)))


def _letter(one: str) -> float:
    """About how wide a letter is, as a part of its size."""
    if one in _NARROW:
        return 0.42
    if ord(one) > 0x2E7F or one in _BROADEST:
        return 1.05
    return 0.84 if one in _BROAD else 0.74 if one.isupper() else 0.66


def shortened(text: str, most: int) -> str:
    """A text of at most so many letters, with dots in place of the rest."""
    return text if len(text) <= most else text[: most - 1].rstrip() + "…"


def fitting(
    sizes: Mapping[int, tuple[float, float]], at: Mapping[int, Points], half: float, lines: Sequence[tuple[Points, Points]], within: Box
) -> dict[int, Label]:  # fmt: skip
    """The places of as many of these names as find one in this box (left, low, right, high) where they touch nothing: of names that touch
    each other the widest goes first, and the others look for a place again."""
    names = _Names(sizes, at, half, lines, within)
    names.settle(names.order, _PASSES)
    while touching := [node for node in names.order if not names.label(node).free]:
        names.drop(max(touching, key=lambda node: (sizes[node][0], node)))
        names.settle([node for node in touching if node in names.order], 1)
    return {node: names.label(node) for node in names.order}


def placed(sizes: Mapping[int, tuple[float, float]], at: Mapping[int, Points], half: float, lines: Sequence[tuple[Points, Points]]) -> dict[int, Label]:
    """The places of names of these sizes (width and height) of nodes at these points, each half so wide, with these lines between them.
    The crowded ones come first, and then each once more by where the others are."""
    names = _Names(sizes, at, half, lines, None)
    names.settle(names.order, _PASSES)
    return {node: names.label(node) for node in sizes}


class _Names:
    """Names that look for their places: the `order` in which they do, the crowded ones first, and the boxes of those that have one."""

    def __init__(
        self, sizes: Mapping[int, tuple[float, float]], at: Mapping[int, Points], half: float, lines: Sequence[tuple[Points, Points]], within: Box | None
    ) -> None:  # fmt: skip
        spots = np.array([at[node] for node in at], dtype=np.float64).reshape(-1, 2)
        self.nodes, self.within = np.hstack([spots - half, spots + half]), within
        points = _along(lines)
        self.choices = {node: _Choices.of(at[node], size, half, spots, self.nodes, points, within) for node, size in sizes.items()}
        self.order = sorted(sizes, key=lambda node: (float(np.sort(np.linalg.norm(spots - at[node], axis=1))[: 4].sum()), node))
        self.boxes: dict[int, Points] = {}
        self.found: dict[int, int] = {}

    def settle(self, nodes: Sequence[int], passes: int) -> None:
        """Gives these names the places that cost least, by where the others are, so many times."""
        for node in passes * list(nodes):
            choice = self.choices[node]
            self.found[node] = int(np.argmin(choice.costs + _COVERS * _common(choice.boxes, self._others(node))))
            self.boxes[node] = choice.boxes[self.found[node]]

    def drop(self, node: int) -> None:
        """Takes a name away."""
        self.order.remove(node)
        del self.boxes[node]

    def _others(self, node: int) -> Points:
        return np.array([box for other, box in self.boxes.items() if other != node], dtype=np.float64).reshape(-1, 4)

    def label(self, node: int) -> Label:
        """A name at its place."""
        choice, place = self.choices[node], self.found[node]
        box = choice.boxes[place : place + 1]
        touched = _common(box, self._others(node))[0] + _common(box, self.nodes)[0] + _outside(box, self.within)[0]
        return Label(float(box[0, 0]), float(box[0, 1]), bool(choice.away[place] >= LEADS_FROM), bool(touched <= _LITTLE))


@dataclass(frozen=True)
class _Choices:
    """The boxes that a name may have (left, low, right, high), how much further away each is than it has to be, and what it costs without
    other names."""

    boxes: Points
    away: Points
    costs: Points

    @classmethod
    def of(cls, at: Points, size: tuple[float, float], half: float, spots: Points, nodes: Points, points: Points, within: Box | None) -> _Choices:
        turns, away = (part.ravel() for part in np.meshgrid(_TURNS, _FURTHER))
        steps = np.stack([np.cos(turns), np.sin(turns)], axis=1)
        # The middle of a box whose nearer edge or corner is so far away.
        outward = steps / np.abs(steps).max(axis=1, keepdims=True)
        middles = at + steps * (half + _GAP + away)[:, None] + outward * np.array(size) / 2
        boxes = np.hstack([middles - np.array(size) / 2, middles + np.array(size) / 2])
        near = points[np.abs(points[:, :2] - at).max(axis=1) < half + _GAP + max(_FURTHER) + max(size)]
        crossed = (_inside(boxes, near[:, :2]) * near[:, 2]).sum(axis=1)
        own = int(np.argmin(np.linalg.norm(spots - at, axis=1)))
        gaps = _gaps(boxes, spots)
        between = (np.delete(gaps, own, axis=1).min(axis=1, initial=np.inf) < gaps[:, own] + 1.0).astype(np.float64)
        covered = _common(boxes, nodes) + _outside(boxes, within)
        return cls(boxes, away, _COVERS * covered + _CROSSES * crossed + _AWAY * away + _BETWEEN * between)


def _common(boxes: Points, others: Points) -> Points:
    """The area that each box has in common with others."""
    wide = np.minimum(boxes[:, None, 2], others[None, :, 2]) - np.maximum(boxes[:, None, 0], others[None, :, 0])
    tall = np.minimum(boxes[:, None, 3], others[None, :, 3]) - np.maximum(boxes[:, None, 1], others[None, :, 1])
    found: Points = (np.maximum(wide, 0) * np.maximum(tall, 0)).sum(axis=1)
    return found


def _outside(boxes: Points, within: Box | None) -> Points:
    """The area of each box that is not within the other one."""
    if within is None:
        return np.zeros(len(boxes))
    found: Points = (boxes[:, 2] - boxes[:, 0]) * (boxes[:, 3] - boxes[:, 1]) - _common(boxes, np.array([within], dtype=np.float64))
    return found


def _gaps(boxes: Points, spots: Points) -> Points:
    """How far each of the spots is from each box."""
    x = np.maximum(np.maximum(boxes[:, None, 0] - spots[None, :, 0], spots[None, :, 0] - boxes[:, None, 2]), 0)
    y = np.maximum(np.maximum(boxes[:, None, 1] - spots[None, :, 1], spots[None, :, 1] - boxes[:, None, 3]), 0)
    found: Points = np.hypot(x, y)
    return found


def _inside(boxes: Points, points: Points) -> NDArray[np.bool_]:
    """Which points lie in which box."""
    x, y = points[None, :, 0], points[None, :, 1]
    found: NDArray[np.bool_] = (x > boxes[:, None, 0]) & (x < boxes[:, None, 2]) & (y > boxes[:, None, 1]) & (y < boxes[:, None, 3])
    return found


def _along(lines: Sequence[tuple[Points, Points]]) -> Points:
    """Points along the lines, each with x, y, and the length of line that it stands for."""
    ends = np.array(lines, dtype=np.float64).reshape(-1, 2, 1, 2)
    spots = ends[:, 0] + np.linspace(0, 1, 60)[:, None] * (ends[:, 1] - ends[:, 0])
    lengths = np.linalg.norm(ends[:, 1] - ends[:, 0], axis=2) / 60 * np.ones((1, 60))
    found: Points = np.concatenate([spots, lengths[:, :, None]], axis=2).reshape(-1, 3)
    return found
