"""Walls of a floor plan, and the loss of those that a line of sight crosses.

A wall is a segment in the plan. A line of sight that crosses it, or touches it, loses its dB; one that runs along it does not. Nodes are in
the middle of their floors, so a line between floors passes from one to the next half way between them: a wall of one floor counts
where the line crosses it on that floor. Tested, not proved.
"""

from __future__ import annotations

from collections.abc import Iterable, Sequence
from dataclasses import dataclass
from typing import Any

import numpy

from ..common.arguments import ArgumentError, real, whole
from .curve import Numbers

# Cross products that are smaller, in m², are 0: places are decimal numbers, which binary ones miss by less.
_TOUCH = 1e-9


@dataclass(frozen=True)
class Wall:
    """A wall from (`x0`, `y0`) to (`x1`, `y1`) in metres, that takes `db` dB, 0 or more; `floor` is its floor, or None for all floors."""

    x0: float
    y0: float
    x1: float
    y1: float
    db: float
    floor: int | None = None


def walls(given: Iterable[Wall | Sequence[Any]], wall_db: float) -> tuple[Wall, ...]:
    """The walls of lists x0, y0, x1, y1, dB, floor. Without dB a wall has `wall_db`, and without a floor it is on all floors.

    Raises `ArgumentError` where one is no such list; it is told by its place in the list, from 1 on.
    """
    return tuple(one if isinstance(one, Wall) else _wall(f"walls[{place}]", one, wall_db) for place, one in enumerate(given, 1))


def _wall(name: str, given: Sequence[Any], wall_db: float) -> Wall:
    if isinstance(given, (str, bytes)) or not hasattr(given, "__len__") or not 4 <= len(given) <= 6:
        raise ArgumentError(f"`{name}` is {given!r}, and has to be a list of x0, y0, x1, y1, and as may be its dB and its floor")
    x0, y0, x1, y1 = (real(f"{name} {key}", value) for key, value in zip(("x0", "y0", "x1", "y1"), given))
    decibels = real(f"{name} dB", given[4], 0.0) if len(given) > 4 else wall_db
    return Wall(x0, y0, x1, y1, decibels, whole(f"{name} floor", given[5]) if len(given) > 5 else None)


def loss_db(one: Numbers, other: Numbers, plan: Sequence[Wall]) -> Numbers:
    """The dB that walls take of each line of sight. `one` and `other` have a row for each line: x and y in metres and a floor."""
    loss = numpy.zeros(len(one))
    for wall in plan:
        crossed, floor = _crossing(one, other, wall)
        loss += wall.db * (crossed if wall.floor is None else crossed & (floor == wall.floor))
    return loss


def _crossing(one: Numbers, other: Numbers, wall: Wall) -> tuple[Any, Any]:
    """Which lines of sight cross a wall, and on which floor those do."""
    start, end = numpy.array([wall.x0, wall.y0]), numpy.array([wall.x1, wall.y1])
    # On which side of the wall both nodes are, and on which side of the line of sight the ends of the wall are.
    first, last = _side(end - start, one[:, :2] - start), _side(end - start, other[:, :2] - start)
    sight = other[:, :2] - one[:, :2]
    near, far = _side(sight, start - one[:, :2]), _side(sight, end - one[:, :2])
    parallel = (first == last) & (near == far)
    crossed = (first * last <= 0) & (near * far <= 0) & ~parallel
    with numpy.errstate(divide="ignore", invalid="ignore"):
        part = numpy.where(first == last, 0.0, first / (first - last))
    return crossed, numpy.floor(one[:, 2] + part * (other[:, 2] - one[:, 2]) + 0.5)


def _side(along: Numbers, to: Numbers) -> Numbers:
    """The cross product of vectors in the plan, in m²: above 0 on the left of the first one, below 0 on the right, 0 on it."""
    product = along[..., 0] * to[..., 1] - along[..., 1] * to[..., 0]
    touching: Numbers = numpy.where(numpy.abs(product) < _TOUCH, 0.0, product)
    return touching
