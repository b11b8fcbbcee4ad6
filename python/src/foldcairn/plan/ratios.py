"""The reception ratios of a plan's links, at the start and over time: `foldcairn.propagation` knows them as a distribution.

Tested, not proved.
"""

from __future__ import annotations

from collections.abc import Iterator, Sequence
from dataclasses import dataclass, fields
from typing import TYPE_CHECKING

import numpy as np

from .. import propagation
from ..common.arguments import ArgumentError
from ..model import moments
from ..propagation import LinkModel
from ..runs.packets import MOST_OWNERS, Data, Owner, Schedule, encode
from . import packets
from .errors import PlanError, at
from .model import Link
from .words import Pair

if TYPE_CHECKING:
    from .plan import Plan

# What of [losses] the model of path loss has by the same names.
_SAME = {one.name for one in fields(propagation.Losses)} - {"bytes", "preset"}
# The greatest number of a packet, and the greatest code of its node: what is longest.
_NUMBER, _NODE = 65_534, 200


@dataclass
class Ratios:
    """What the ratios of one plan are drawn from."""

    model: LinkModel

    @classmethod
    def of(cls, plan: Plan, names: Sequence[str]) -> Ratios:
        """The ratios between these nodes. Raises `PlanError` where the plan does not say them."""
        nodes = [plan.nodes[name] for name in names]
        places = np.array([[np.nan if one is None else one for one in (node.x, node.y)] for node in nodes], dtype=np.float64).reshape(-1, 2)
        losses = plan.losses
        words = {name: getattr(losses, name) for name in _SAME}
        try:
            known = propagation.Losses(**words, preset=losses.preset or None, bytes=losses.bytes or longest(plan))
            return cls(LinkModel(names, places, [node.floor for node in nodes], known, list(_rows(plan, set(names))), plan.floor.height))
        except ArgumentError as error:
            raise _told(plan, str(error)) from error

    def draw(self, seed: int | None, frame_seconds: int, frames: int) -> dict[Pair, list[tuple[int, float]]]:
        """The ratios of each link, by the frames from which on they hold, first of frame 0; without a seed their means."""
        first = self.model.mean() if seed is None else self.model.draw(seed)
        found = {(str(one), str(other)): [(0, ratio)] for (one, other), ratio in first.items()}
        for (one, other), samples in self.model.series(seed).items():
            found[str(one), str(other)] = by_frames(samples, frame_seconds, frames)
        return found


def longest(plan: Plan) -> int:
    """The length in bytes of the longest packet of a plan: a packet of data, or a schedule with all streams that a round may have."""
    payload = max((packets.length(stream) for stream in plan.streams.values()), default=0)
    owners = tuple(sorted(Owner(plan.nodes[one.source].id or _NODE, one.number or 0) for one in plan.streams.values())[:MOST_OWNERS])
    data, schedule = Data(1, 0, _NODE, 1, 0, _NUMBER, bytes(payload)), Schedule(0, 0, 0, 0, 1, plan.settings.contend, (), owners)
    return max(len(encode(data)), len(encode(schedule)))


def _rows(plan: Plan, names: set[str]) -> Iterator[Link | propagation.Row]:
    """What was measured between these nodes. A link with a series is known by that alone."""
    ours = [row for row in plan.links if names.issuperset((row.sender, row.receiver))]
    series = {pair for row in ours if row.at is not None for pair in _pairs(row)}
    for row in ours:
        if row.at is not None or not series.intersection(_pairs(row)):
            yield row
            continue
        for sender, receiver in set(_pairs(row)) - series:
            yield propagation.Row(sender, receiver, row.ratio, row.sent, row.received, row.rssi, where=row.where)


def _pairs(row: Link) -> list[Pair]:
    return [(row.sender, row.receiver), (row.receiver, row.sender)][: 1 + row.both]


def _told(plan: Plan, what: str) -> PlanError:
    """The error of the model: at the row that it names, else of [losses]."""
    where = next((row.where for row in plan.links if row.where and what.startswith(row.where)), "")
    return PlanError(where, what[len(where) :].lstrip(",: ")) if where else PlanError(at(plan, "losses", plan.losses), what)


def by_frames(samples: Sequence[tuple[float, float]], frame_seconds: int, frames: int) -> list[tuple[int, float]]:
    """Samples of a link by frames, the first from the start on: each frame has the least ratio of its time, so a lower one holds from the frame
    that its time lies in, and a higher one from the first that starts then or later."""
    found, current, place = [(0, samples[0][1])], samples[0][1], 1
    while place < len(samples):
        frame = moments.frame_of(samples[place][0], frame_seconds)
        least = current if moments.frame_from(samples[place][0], frame_seconds) > frame else 1.0
        while place < len(samples) and moments.frame_of(samples[place][0], frame_seconds) == frame:
            current = samples[place][1]
            least, place = min(least, current), place + 1
        found += [(frame, least), (frame + 1, current)]
    kept = {max(0, frame): ratio for frame, ratio in found if frame < frames}
    turns = sorted(kept.items())
    return [one for before, one in zip([(0, -1.0), *turns], turns) if one[1] != before[1]]
