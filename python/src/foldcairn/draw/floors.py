"""The map of a plan, floor by floor: nodes at their places in metres, the best links of each, and names that touch nothing. `maps` has the map of
any network. Tested, not proved.
"""

from __future__ import annotations

import math
import os
from collections.abc import Iterable, Mapping
from dataclasses import dataclass, field

import numpy as np
from matplotlib.axes import Axes
from matplotlib.collections import LineCollection
from matplotlib.figure import Figure
from matplotlib.lines import Line2D

from ..common import arguments
from ..model.scenario import Scenario
from ..plan.plan import Plan
from . import map_labels, maps, style
from .maps import Place

Pair = tuple[int, int]
# A picture in inches: how wide its frame is, how high at most and at least, and the room for the scale at its left and below it.
_WIDE, _HIGH, _LOW, _LEFT, _BELOW = 6.6, 8.0, 1.6, 0.5, 0.42
# The sizes of nodes, of names and of the numbers in their place, in points.
_NODE, _LETTERS, _DIGITS = 12.0, 7.5, 6.5
# How many letters of a name are shown.
_NAME_MOST = 22
# How many of its links a node has on a map, and how much wider than the nodes its frame is at each side, as a part of it.
_BEST, _MARGIN = 4, 0.07
_UP, _DOWN = "^", "v"


@dataclass(frozen=True, eq=False)
class FloorMap:
    """The map of one floor: its title, its picture, what its lines are, in a sentence, and the names of nodes that have numbers on it, for want
    of room."""

    title: str
    figure: Figure
    note: str
    numbered: dict[int, str] = field(default_factory=dict)


@dataclass(frozen=True, eq=False)
class _Floor:
    """What is drawn of a floor: the places of its nodes, the ratios of pairs on it by their weaker direction, those of them that are shown, and
    how far up or down the best links of each node to other floors go."""

    places: dict[int, Place]
    pairs: dict[Pair, float]
    shown: list[Pair]
    rises: dict[int, set[str]]


def of_plan(
    plan: Plan, network: Scenario | None = None, *, least_ratio: float = 0.7, background: str | os.PathLike[str] | bytes | None = None
) -> list[FloorMap]:  # fmt: skip
    """The maps of a plan, one for each floor from the lowest up, or none where a node has no place. Lines are links: of each node up to four pairs
    on its floor whose weaker direction has the greatest ratio, from `least_ratio` (0 to 1) on; one without any such has its best. A triangle in
    a node says that such a pair goes to a floor above or below. The colour of a node is how many hops it is from the host. `network` is the plan's,
    that of its means without it, and `background` a picture of the floors, that of the plan without it.

    Raises what `Plan.network` raises, `ArgumentError` where the ratio is out of its range, and `OSError` where the picture can't be read."""
    made = plan.network() if network is None else network
    least = arguments.real("least_ratio", least_ratio, 0, 1)
    nodes = {node: plan.nodes[name] for node, name in made.labels.items()}
    if any(node.x is None or node.y is None for node in nodes.values()):
        return []
    numbers = {node: one.floor for node, one in nodes.items()}
    picture = background if background is not None else _picture(plan)
    away = maps.hops(made)
    found = []
    for number in sorted(set(numbers.values())):
        places = {node: (float(one.x or 0.0), float(one.y or 0.0)) for node, one in nodes.items() if one.floor == number}
        floor = _floor(made, places, numbers, least)
        title = f"Floor {number}" if len(set(numbers.values())) > 1 else "The network"
        figure, numbered = _drawn(made, floor, away, _extent(plan), picture)
        found.append(FloorMap(title, figure, _note(floor, least, numbers, made), numbered))
    return found


def _picture(plan: Plan) -> bytes | None:
    file = plan.folder / plan.floor.picture
    return file.read_bytes() if plan.floor.picture and file.is_file() and plan.extent() is not None else None


def _extent(plan: Plan) -> tuple[float, float, float, float] | None:
    """Left, right, lower and upper edge of the floor plan in metres."""
    edges = plan.extent()
    return None if edges is None else (edges[0], edges[2], edges[1], edges[3])


def weaker(network: Scenario) -> dict[Pair, float]:
    """The ratio of the weaker direction of each pair of nodes that has links in both, at the start of the run, by ascending ids."""
    ratios = network.prr_at(seconds=0)
    pairs = ((one, other) for one, other in sorted(network.links) if one < other and (other, one) in network.links)
    return {(one, other): min(ratios.get((one, other), 1.0), ratios.get((other, one), 1.0)) for one, other in pairs}


def _floor(network: Scenario, places: dict[int, Place], numbers: Mapping[int, int], least: float) -> _Floor:
    every = weaker(network)
    here = {pair: ratio for pair, ratio in every.items() if pair[0] in places and pair[1] in places and ratio > 0}

    def order(pair: Pair) -> tuple[int, float, Pair]:
        """By classes of ratios, and within one the shorter first."""
        return next(place for place, (low, _, _) in enumerate(style.RATIOS) if here[pair] >= low), math.dist(places[pair[0]], places[pair[1]]), pair

    shown: set[Pair] = set()
    for node in places:
        ours = sorted((pair for pair in here if node in pair), key=order)
        good = [pair for pair in ours if here[pair] >= least]
        shown |= set(good[:_BEST] or ours[:1])
    rises: dict[int, set[str]] = {}
    for (one, other), ratio in every.items():
        for node, end in ((one, other), (other, one)):
            if ratio >= least and node in places and end not in places:
                rises.setdefault(node, set()).add(_UP if numbers[end] > numbers[node] else _DOWN)
    return _Floor(places, here, sorted(shown), rises)


def _note(floor: _Floor, least: float, numbers: Mapping[int, int], network: Scenario) -> str:
    """What the lines of a map are."""
    good = sum(ratio >= least for ratio in floor.pairs.values())
    told = (
        f"A line is a pair of nodes, by the weaker of its two directions. On this floor {good} pairs pass {100 * least:g} % or more of the packets both ways, "
        f"and {len(floor.pairs) - good} less: {len(floor.shown)} are drawn, of each node up to {_BEST} of the best, the shorter first."
    )
    between = sum(ratio >= least and numbers[one] != numbers[other] for (one, other), ratio in weaker(network).items())
    if len(set(numbers.values())) > 1:
        told += f" {between} such pairs go from floor to floor: a triangle in a node says that it has one, up or down."
    return told


def _drawn(
    network: Scenario, floor: _Floor, away: Mapping[int, int], extent: tuple[float, float, float, float] | None, picture: str | os.PathLike[str] | bytes | None
) -> tuple[Figure, dict[int, str]]:  # fmt: skip
    """The picture of a floor, and which nodes have numbers on it."""
    left, right, low, high = _edges(floor.places, extent)
    scale = min(_WIDE / (right - left), _HIGH / (high - low))
    # A floor that is long and narrow has room above and below it.
    spare = max(0.0, _LOW / scale - (high - low)) / 2
    low, high = low - spare, high + spare
    wide, tall = scale * (right - left), scale * (high - low)
    with style.settings():
        width, height = wide + _LEFT + 0.1, tall + _BELOW + 0.1
        figure = Figure(figsize=(width, height))
        drawn = style.plain(figure.add_axes((_LEFT / width, _BELOW / height, wide / width, tall / height)))
        for side in drawn.spines.values():
            side.set_visible(True)
        if picture is not None:
            maps.draw_background(drawn, picture, extent)
        drawn.set_xlim(left, right)
        drawn.set_ylim(low, high)
        drawn.set_aspect("auto")
        moved = maps.apart(np.array(list(floor.places.values())), 1.1 * _NODE / 72 / scale)
        places = {node: (float(x), float(y)) for node, (x, y) in zip(floor.places, moved)}
        _links(drawn, floor, places)
        numbered = _names(drawn, network, floor, places, (left, low, scale), (wide, tall))
        _nodes(drawn, network, floor, places, away, numbered)
        drawn.set_xlabel("metres", loc="right")
        _key(drawn, network, floor, away)
    return figure, {node: network.name(node) for node in sorted(numbered)}


def _edges(places: Mapping[int, Place], extent: tuple[float, float, float, float] | None) -> tuple[float, float, float, float]:
    """The edges of the frame in metres: around the floor plan, and all nodes with some room for their names."""
    spots = np.array(list(places.values()), dtype=np.float64)
    (left, low), (right, high) = spots.min(axis=0), spots.max(axis=0)
    room = _MARGIN * max(right - left, high - low, 1.0)
    edges = [left - 1.5 * room, right + 1.5 * room, low - room, high + room]
    if extent is not None:
        edges = [min(edges[0], extent[0]), max(edges[1], extent[1]), min(edges[2], extent[2]), max(edges[3], extent[3])]
    return edges[0], edges[1], edges[2], edges[3]


def _links(drawn: Axes, floor: _Floor, places: Mapping[int, Place]) -> None:
    for low, colour, width in reversed(style.RATIOS):
        ours = [[places[one], places[other]] for one, other in floor.shown if maps.paint_of(floor.pairs[one, other]) == colour]
        if ours:
            drawn.add_collection(LineCollection(ours, colors=colour, linewidths=0.55 * width, zorder=1))


def _names(
    drawn: Axes, network: Scenario, floor: _Floor, places: Mapping[int, Place], origin: tuple[float, float, float], size: tuple[float, float]
) -> set[int]:  # fmt: skip
    """Writes the names where they touch nothing, and gives the nodes for whose names there is no room."""
    left, low, scale = origin
    at = {node: np.array([x - left, y - low]) * scale * 72 for node, (x, y) in places.items()}
    ranks = {node: rank for rank, node in network.hosts.items()}
    words = {node: map_labels.shortened(network.name(node), _NAME_MOST) + (f", host {ranks[node]}" if node in ranks else "") for node in places}
    sizes = {node: (map_labels.width(text, _LETTERS) + 2, 1.3 * _LETTERS) for node, text in words.items()}
    found = map_labels.fitting(sizes, at, _NODE / 2, [(at[one], at[other]) for one, other in floor.shown], (2.0, 2.0, 72 * size[0] - 2, 72 * size[1] - 2))
    for node, label in found.items():
        offset = (label.left + sizes[node][0] / 2 - at[node][0], label.low + sizes[node][1] / 2 - at[node][1])
        lead = {"arrowstyle": "-", "color": style.PALE, "linewidth": 0.6, "shrinkA": 0, "shrinkB": _NODE / 2} if label.far else None
        drawn.annotate(words[node], places[node], offset, textcoords="offset points", fontsize=_LETTERS, ha="center", va="center", zorder=5,
                       arrowprops=lead, bbox={"facecolor": style.GROUND, "edgecolor": "none", "pad": 0.4, "alpha": 0.75}, gid=f"name-{node}")  # fmt: skip
    return set(places) - set(found)


def _nodes(
    drawn: Axes, network: Scenario, floor: _Floor, places: Mapping[int, Place], away: Mapping[int, int], numbered: Iterable[int]
) -> None:  # fmt: skip
    hosts, colours = set(network.hosts.values()), maps.hop_colours(away)
    for node, (x, y) in sorted(places.items()):
        colour = colours.get(away.get(node, -1), maps.UNREACHED)
        ink = style.ink_on(colour)
        drawn.plot(
            x, y, "s" if node in hosts else "o", color=colour, markersize=_NODE, markeredgewidth=2.0 if node in hosts else 0.7,
            markeredgecolor=style.TRANSMITS if node in hosts else style.INK, zorder=3, gid=f"node-{node}",
        )  # fmt: skip
        if node in numbered:
            drawn.text(x, y, str(node), color=ink, ha="center", va="center", fontsize=_DIGITS, zorder=4, gid=f"name-{node}")
        elif node in floor.rises:
            for mark in floor.rises[node]:
                drawn.plot(x, y, mark, color=ink, markersize=3.6, markeredgewidth=0, zorder=4, transform=drawn.transData)


def _key(drawn: Axes, network: Scenario, floor: _Floor, away: Mapping[int, int]) -> None:
    """What colours and marks mean, below the frame."""
    entries = []
    over = 1.0
    for low, colour, width in style.RATIOS:
        if any(maps.paint_of(floor.pairs[pair]) == colour for pair in floor.shown):
            words = f"{100 * low:.0f} to {100 * over:.0f} %" if low else f"below {100 * over:.0f} %"
            entries.append(Line2D([], [], color=colour, linewidth=0.7 * width, label=words))
        over = low
    here = {away.get(node, -1) for node in floor.places}
    for distance, colour in maps.hop_colours(away).items():
        if distance in here:
            words = "the host" if distance == 0 else f"{distance} hop{'s' * (distance > 1)}"
            edge = style.TRANSMITS if distance == 0 else style.INK
            entries.append(Line2D([], [], linestyle="", marker="s" if distance == 0 else "o", markersize=7, color=colour, markeredgecolor=edge, label=words))
    if -1 in here:
        entries.append(Line2D([], [], linestyle="", marker="o", markersize=7, color=maps.UNREACHED, markeredgecolor=style.INK, label="out of reach"))
    drawn.legend(handles=entries, loc="upper left", bbox_to_anchor=(0, -0.36 / (drawn.get_position().height * drawn.figure.get_figheight())),
                 ncols=6, borderaxespad=0, borderpad=0, handlelength=1.2, columnspacing=1.2, fontsize=7.5)  # fmt: skip
