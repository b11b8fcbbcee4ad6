"""The map of a network: its links and ratios, hosts, hops, and what has failed. `plot` has all pictures in one place.

Tested, not proved.
"""

from __future__ import annotations

import io
import math
import os
from collections.abc import Iterable, Mapping

import networkx
import numpy as np
from matplotlib.axes import Axes
from matplotlib.collections import LineCollection
from matplotlib.figure import Figure
from matplotlib.lines import Line2D
from numpy.typing import NDArray
from PIL import Image

from ..answers import power
from ..common import arguments, limits
from ..model.scenario import Link, Scenario
from . import map_labels, style

Place = tuple[float, float]
# The colour of a node, and what it means.
Paint = tuple[str, str]

# The hops that a flood has steps for.
_HOPS_MOST = limits.FLOOD_STEPS
UNREACHED = "#f0c9cf"
# The letters of names, and the smallest in which one is inside of its node.
_LETTERS, _LETTERS_INSIDE = 8.0, 6.5
# Of more links than these the weak ones are left out.
_LINKS_MOST = 300
# Where more than these are drawn their lines are thinner, by this part.
_LINKS_BROAD, _THIN = 200, 0.45
_HALVES, _ARROWS = "The half of a line next to a node shows the link to that node.", "An arrow is a link in one direction."
# How far the nearest nodes are apart, in inches: also where names are between them.
_APART, _APART_NAMED = 0.36, 0.6
# How near two nodes of a map may be, as a part of the length of a link.
_NEAREST = 0.5


def hops(scenario: Scenario, *, failed: Iterable[Link] = (), at_seconds: float | None = None) -> dict[int, int]:
    """How many hops each node is from the host, by links that work: a packet of the host needs so many steps at least.

    The host is the one of the lowest rank that has power.

    Parameters
    ----------
    scenario : Scenario
        The network.
    failed : iterable of tuple
        Links (sender, receiver) that do not work, besides those with a ratio of 0 and those of nodes without power.
    at_seconds : float, optional
        When power and ratios are asked for, in seconds from the start of the run; without it all nodes count as powered, with the ratios of the
        start.

    Returns
    -------
    dict
        By id the hops, 0 for the host. Nodes that no packet of the host reaches are left out.

    Raises
    ------
    ScenarioError
        Where the time is no finite number.
    """
    graph = scenario.graph()
    down = _without_power(scenario, at_seconds)
    graph.remove_edges_from(_failed(scenario, scenario.prr_at(seconds=at_seconds or 0), failed, down))
    hosts = [node for _, node in sorted(scenario.hosts.items()) if node not in down]
    return dict(networkx.single_source_shortest_path_length(graph, hosts[0])) if hosts else {}


def places(scenario: Scenario) -> dict[int, Place]:
    """Places for the nodes by their links alone, for networks whose places are not known.

    Parameters
    ----------
    scenario : Scenario
        The network.

    Returns
    -------
    dict
        By id the place (x, y), upwards, in units of about the length of a link; the same links give the same places.
    """
    graph = scenario.graph().to_undirected()
    laid: dict[int, Place] = {}
    right = 0.0
    # Parts without links between them side by side.
    for part in sorted(networkx.connected_components(graph), key=min):
        found = _places_of_part(graph.subgraph(sorted(part)))
        left = min(x for x, _ in found.values())
        laid |= {node: (x - left + right, y) for node, (x, y) in found.items()}
        right = max(x for x, _ in laid.values()) + 1.0
    return laid


def _places_of_part(part: networkx.Graph) -> dict[int, Place]:
    """Places in which a link has about the length 1, and no two nodes are at one place."""
    if len(part) < 3:
        return {node: (float(place), 0.0) for place, node in enumerate(sorted(part))}
    # Multidimensional scaling of the hops, and from there springs.
    nodes = sorted(part)
    lengths = np.array(networkx.floyd_warshall_numpy(part, nodelist=nodes, weight=None))
    centre = np.eye(len(nodes)) - 1 / len(nodes)
    values, vectors = np.linalg.eigh(-0.5 * centre @ lengths**2 @ centre)
    spots = vectors[:, [-1, -2]] * np.sqrt(np.maximum(values[[-1, -2]], 0.01))
    # A vector and its opposite fit as well as each other: the first node is at the left, and at the top.
    spots *= np.where(spots[0] > 0, -1, 1) * (1, -1)
    # Nodes with the same neighbours would be at one place.
    spots += 0.05 * np.stack([np.cos(2.4 * np.arange(len(nodes))), np.sin(2.4 * np.arange(len(nodes)))], axis=1)
    spots /= np.abs(spots).max()
    found = networkx.spring_layout(part, pos=dict(zip(nodes, spots)), iterations=30, seed=1, k=1.6 / math.sqrt(len(nodes)))
    spots = np.array([found[node] for node in nodes])
    spots /= np.median([math.dist(found[one], found[other]) for one, other in part.edges])
    return {node: (float(x), float(y)) for node, (x, y) in zip(nodes, apart(spots))}


def apart(spots: NDArray[np.float64], nearest: float = _NEAREST) -> NDArray[np.float64]:
    """Pushes nodes apart that are too near to each other to be told."""
    if len(spots) > 1 and len(np.unique(spots, axis=0)) < len(spots):
        # Two nodes at one place have no direction in which they could be pushed.
        turn = 2.4 * np.arange(len(spots))
        spots = spots + 0.01 * nearest * np.stack([np.cos(turn), np.sin(turn)], axis=1)
    for _ in range(200):
        between = spots[:, None] - spots[None]
        distance = np.linalg.norm(between, axis=2) + np.eye(len(spots)) * 1e9
        if distance.min(initial=1e9) >= 0.99 * nearest:
            break
        push = np.maximum(nearest - distance, 0) / np.maximum(distance, 1e-6 * nearest)
        spots = spots + 0.3 * (push[:, :, None] * between).sum(axis=1)
    return spots


def topology(
    scenario: Scenario, *, positions: Mapping[int, Place] | None = None, failed: Iterable[Link] = (),
    at_seconds: float | None = None, title: str | None = None, background: str | os.PathLike[str] | bytes | None = None,
    extent: tuple[float, float, float, float] | None = None, least_ratio: float | None = None, axes: Axes | None = None,
    paints: Mapping[int, Paint] | None = None,
) -> Figure:  # fmt: skip
    """The nodes and links of a network, as a map.

    Hosts are squares, a node's colour says how many hops it is from the host (`hops`), and the colour of a link its reception ratio. The half of a
    line next to a node is the link to it; a link that is in one direction alone is an arrow. Nodes so near to each other that one would hide the
    other are moved apart, by no more than that takes.

    Parameters
    ----------
    scenario : Scenario
        The network.
    positions : mapping, optional
        By id the place (x, y) of each node in any unit, upwards. Without it they are those of the scenario (`Scenario.places`), if each node has one,
        else the map is laid out by the links.
    failed : iterable of tuple
        Links (sender, receiver) that are drawn as failed, besides those with a ratio of 0.
    at_seconds : float, optional
        A time in seconds from the start of the run. Links of nodes without power then are drawn as failed too, hops are counted from the host that
        has power, and ratios are those of that time.
    title : str, optional
        The title, in place of the numbers of nodes and links.
    background : path or bytes, optional
        The file of a picture, or its bytes, as of a floor plan, that is drawn below the map.
    extent : tuple of float, optional
        Where the background lies, as (left, right, bottom, top) in the units of the positions. Without it a picture element is one unit, and its
        lower left corner is at (0, 0).
    least_ratio : float, optional
        Links below this ratio, 0 to 1, are left out, but for those that have failed and the best from and to each node, and the map says how many.
        Without it all of 300 links are shown, and of more as few as one of the classes of ratios leaves.
    axes : matplotlib.axes.Axes, optional
        Where the map is drawn, without the key, as a part of their figure.
    paints : mapping, optional
        By id the colour of each node and what that means, in place of the hops.

    Returns
    -------
    matplotlib.figure.Figure
        The map, or the figure of `axes`.

    Raises
    ------
    ValueError
        Where the scenario has no nodes, a node has no place, a failed link is none of the scenario, a background is given without positions,
        `least_ratio` is not from 0 to 1, or the time is no finite number.
    OSError
        Where the file of the background can't be read.
    """
    if not scenario.nodes:
        raise ValueError("the scenario has no nodes")
    if positions is None and scenario.nodes.keys() <= scenario.places.keys():
        positions = scenario.places
    laid = places(scenario) if positions is None else {node: positions[node] for node in scenario.nodes if node in positions}
    if missing := set(scenario.nodes) - set(laid):
        raise ValueError(f"node {scenario.name(min(missing))} has no place")
    if strange := (failed := set(failed)) - scenario.links:
        raise ValueError("the scenario has no link from {} to {}".format(*map(scenario.name, min(strange))))
    if background is not None and positions is None:
        raise ValueError("a background needs the positions of the nodes on it")
    down = _without_power(scenario, at_seconds)
    ratios = scenario.prr_at(seconds=at_seconds or 0)
    broken = _failed(scenario, ratios, failed, down)
    shown, left_out = _strong(scenario, ratios, broken, least_ratio)
    outside = any(not _inside(scenario.name(node), _marker(laid)) for node in laid)
    width, height = _size(laid, extent if background is not None else None, _APART_NAMED if outside else _APART)
    laid = _seen(laid, width, height)
    with style.settings():
        figure, drawn = style.axes(width, height, axes)
        drawn.set_aspect("equal")
        drawn.set_axis_off()
        if background is not None:
            draw_background(drawn, background, extent)
        _draw_links(drawn, scenario, ratios, laid, broken, shown)
        if paints is None:
            _draw_nodes(drawn, scenario, laid, hops(scenario, failed=failed, at_seconds=at_seconds), down, outside)
        else:
            _draw_painted(drawn, scenario, laid, paints, outside)
        drawn.margins(0.08)
        note = "\n".join(filter(None, [left_out, _reading(scenario)]))
        style.heading(drawn, title or f"{len(scenario.nodes)} nodes, {len(scenario.links)} links", note, above=16)
        if axes is None:
            style.key(drawn, 4, below=0.1)
        _draw_names(drawn, scenario, laid, down, shown, outside)
        if axes is None:
            _keep_layout(drawn)
    return figure


def draw_background(
    drawn: Axes, source: str | os.PathLike[str] | bytes, extent: tuple[float, float, float, float] | None
) -> None:  # fmt: skip
    with Image.open(io.BytesIO(source) if isinstance(source, bytes) else source) as opened:
        picture = np.asarray(opened.convert("RGBA"))
    tall, wide = picture.shape[:2]
    drawn.imshow(picture, extent=extent or (0, wide, 0, tall), zorder=0, alpha=0.55, interpolation="antialiased")


def _reading(scenario: Scenario) -> str:
    """How its lines are read."""
    arrows = any((receiver, sender) not in scenario.links for sender, receiver in scenario.links)
    return " ".join([_HALVES] * bool(scenario.ratio_lines()) + [_ARROWS] * arrows)


def _without_power(scenario: Scenario, at_seconds: float | None) -> set[int]:
    if at_seconds is None:
        return set()
    boots = power.boots(scenario)
    return set(scenario.nodes) - set(boots.loc[(boots["on_seconds"] <= at_seconds) & (boots["off_seconds"] > at_seconds), "node"])


def _failed(scenario: Scenario, ratios: Mapping[Link, float], failed: Iterable[Link], down: set[int]) -> set[Link]:
    gone = {link for link in scenario.links if ratios.get(link, 1.0) == 0 or down & set(link)}
    return gone | set(failed)


def _size(laid: Mapping[int, Place], extent: tuple[float, float, float, float] | None, apart: float) -> tuple[float, float]:
    """Width and height of the picture in inches, in which the nearest nodes are so far apart; a background may be larger than the network."""
    spots = np.array(list(laid.values()), dtype=np.float64)
    distance = np.linalg.norm(spots[:, None] - spots[None], axis=2)
    nearest = distance[distance > 0].min(initial=np.inf)
    corners = [] if extent is None else [(extent[0], extent[2]), (extent[1], extent[3])]
    wide, tall = np.ptp([*spots, *corners], axis=0) / nearest * apart if len(laid) > 1 else (0.0, 0.0)
    larger = float(np.clip(6.0 / max(wide, 1e-9), 1.0, 3.0))
    return float(np.clip(larger * wide + 1.0, 7.5, 16)), float(np.clip(larger * tall, 0.8, 14)) + 1.6


def _seen(laid: Mapping[int, Place], width: float, height: float) -> dict[int, Place]:
    """The places on a picture of this size in inches, with those apart that would hide each other."""
    spots = np.array(list(laid.values()), dtype=np.float64)
    wide, tall = np.maximum(np.ptp(spots, axis=0), 1e-9)
    # The margins, the title and the key take their part.
    inches = min((width - 1.0) / wide, (height - 1.6) / tall)
    moved = apart(spots, 1.05 * _marker(laid) / 72 / inches) if np.isfinite(inches) and max(wide, tall) > 1e-9 else apart(spots, 1.0)
    return {node: (float(x), float(y)) for node, (x, y) in zip(laid, moved)}


def _strong(scenario: Scenario, ratios: Mapping[Link, float], broken: set[Link], least: float | None) -> tuple[set[Link], str]:
    """The links that are shown, and how many are left out, in words."""
    of = {link: ratios.get(link, 1.0) for link in sorted(scenario.links)}
    if least is None:
        classes = [0.0, *sorted(one for one, _, _ in style.RATIOS if one > 0)]
        fits = [one for one in classes if sum(ratio >= one for ratio in of.values()) <= _LINKS_MOST]
        least = fits[0] if fits else classes[-1]
    least = arguments.real("least_ratio", least, 0, 1)
    best: dict[tuple[str, int], Link] = {}
    for link in sorted(set(of) - broken, key=lambda link: of[link]):
        best["from", link[0]] = best["to", link[1]] = link
    shown = {link for link, ratio in of.items() if ratio >= least} | set(best.values()) | broken
    away = len(of) - len(shown & set(of))
    words = f"{away} of {len(of)} links are left out: those below {100 * least:g} %, but for the best of each node." if away else ""
    return shown, words


def _draw_links(
    drawn: Axes, scenario: Scenario, ratios: Mapping[Link, float], laid: Mapping[int, Place], broken: set[Link], links: Iterable[Link]
) -> None:  # fmt: skip
    paints = {link: style.PALE if link in broken else paint_of(ratios.get(link, 1.0)) for link in links}
    shown: dict[str, list[list[Place]]] = {colour: [] for colour in (style.PALE, *(colour for _, colour, _ in style.RATIOS))}
    for (sender, receiver), paint in sorted(paints.items()):
        start, end = laid[sender], laid[receiver]
        back = paints.get((receiver, sender))
        if back is None:
            arrow = {"arrowstyle": "-|>", "color": paint, "shrinkB": 11, "linewidth": 1.2}
            drawn.annotate("", end, start, arrowprops=arrow, zorder=1, in_layout=False)
        if back is None or back == paint and sender < receiver:
            shown[paint].append([start, end])
        elif back != paint:
            shown[paint].append([((start[0] + end[0]) / 2, (start[1] + end[1]) / 2), end])
    lost = shown.pop(style.PALE)
    drawn.add_collection(LineCollection(lost, colors=style.PALE, linewidths=1.0, linestyles=(0, (2, 3)), zorder=1))
    part = _THIN if len(paints) > _LINKS_BROAD else 1.0
    for _, colour, width in style.RATIOS:
        drawn.add_collection(LineCollection(shown[colour], colors=colour, linewidths=part * width, zorder=1))
    _ratio_key(drawn, shown, bool(scenario.ratio_lines()), bool(lost))


def paint_of(ratio: float) -> str:
    """The colour of a link that has not failed."""
    return next(colour for least, colour, _ in style.RATIOS if ratio >= least)


def _ratio_key(drawn: Axes, shown: Mapping[str, list[list[Place]]], ratios: bool, lost: bool) -> None:
    over = 1.0
    for least, colour, width in style.RATIOS:
        words = f"link of {100 * least:.0f} to {100 * over:.0f} %" if least else f"link below {100 * over:.0f} %"
        if not ratios:
            words = "link"
        if shown[colour]:
            drawn.plot([], [], color=colour, linewidth=1.3 * width, label=words)
        over = least
    if lost:
        drawn.plot([], [], color=style.PALE, linewidth=1.0, linestyle=(0, (2, 3)), label="failed link")


def _draw_nodes(
    drawn: Axes, scenario: Scenario, laid: Mapping[int, Place], away: Mapping[int, int], down: set[int], outside: bool
) -> None:  # fmt: skip
    ranks = {node: rank for rank, node in scenario.hosts.items()}
    size = _marker(laid)
    colours = hop_colours(away)
    for node, (x, y) in sorted(laid.items()):
        colour = style.GROUND if node in down else colours.get(away.get(node, -1), UNREACHED)
        edge = style.PALE if node in down else style.TRANSMITS if node in ranks else style.INK
        name = "" if outside else scenario.name(node)
        _draw_node(drawn, name, (x, y), size, node in ranks, (colour, edge, style.PALE if node in down else style.ink_on(colour)))
    _node_key(drawn, ranks, away, down, set(laid))


def _draw_node(drawn: Axes, name: str, place: Place, size: float, is_host: bool, colours: tuple[str, str, str]) -> None:
    """A node, with its name where that has room in it: in the colours of its inside, its edge and its letters."""
    colour, edge, ink = colours
    drawn.plot(*place, "s" if is_host else "o", color=colour, markersize=size, markeredgewidth=2.2 if is_host else 0.8, markeredgecolor=edge, zorder=3)
    if letters := _inside(name, size):
        drawn.text(*place, name, color=ink, ha="center", va="center", fontsize=letters, zorder=4, in_layout=False)


def _draw_painted(drawn: Axes, scenario: Scenario, laid: Mapping[int, Place], paints: Mapping[int, Paint], outside: bool) -> None:
    """The nodes in colours that are given, with what these mean in the key."""
    hosts = set(scenario.hosts.values())
    for node, place in sorted(laid.items()):
        colour = paints[node][0]
        name = "" if outside else scenario.name(node)
        _draw_node(drawn, name, place, _marker(laid), node in hosts, (colour, style.INK, style.ink_on(colour)))
    # Of nodes in a row none is cut at the edge.
    spots = np.array(list(laid.values()))
    room = 0.1 * float(np.ptp(spots, axis=0).max()) or 1.0
    drawn.plot(*[[value - room, value + room] for value in (spots.min(axis=0) + spots.max(axis=0)) / 2], linestyle="")
    for colour, words in dict.fromkeys(paints.values()):
        drawn.add_line(Line2D([], [], linestyle="", marker="o", markersize=9, color=colour, markeredgecolor=style.INK, label=words))


def hop_colours(away: Mapping[int, int]) -> dict[int, str]:
    """The colours of the hops that occur, up to those that a flood has steps for."""
    most = max((hops for hops in away.values() if hops <= _HOPS_MOST), default=0)
    return dict(enumerate(style.hops(most)))


def _marker(laid: Mapping[int, Place]) -> float:
    """The size of a node in points."""
    return 19.0 if len(laid) <= 36 else 15.0


def _inside(name: str, size: float) -> float:
    """The size of the letters of a name that is inside of a node of this size; 0 where they would be too small."""
    fits = min(0.45 * size, 0.92 * size / max(map_labels.width(name, 1.0), 0.01))
    return fits if fits >= _LETTERS_INSIDE else 0.0


def _draw_names(
    drawn: Axes, scenario: Scenario, laid: Mapping[int, Place], down: set[int], shown: Iterable[Link], outside: bool
) -> None:  # fmt: skip
    """Says beside the nodes which of them host, and where one name is too long to be inside of a node all names: where it covers least."""
    size = _marker(laid)
    words = {node: f"host {rank}" + (", no power" if node in down else "") for rank, node in sorted(scenario.hosts.items())}
    for node in sorted(laid):
        if outside:
            words[node] = scenario.name(node) + (f" ({words[node]})" if node in words else "")
    if not words:
        return
    _lay_out(drawn)
    points = 72.0 / drawn.get_figure().dpi
    at = {node: np.array(drawn.transData.transform(place)) * points for node, place in laid.items()}
    sizes = {node: (map_labels.width(text, _LETTERS) + 2, 1.25 * _LETTERS) for node, text in words.items()}
    found = map_labels.placed(sizes, at, size / 2, [(at[one], at[other]) for one, other in shown])
    for node, label in found.items():
        offset = (label.left + sizes[node][0] / 2 - at[node][0], label.low + sizes[node][1] / 2 - at[node][1])
        lead = {"arrowstyle": "-", "color": style.PALE, "linewidth": 0.6, "shrinkA": 0, "shrinkB": size / 2} if label.far else None
        drawn.annotate(words[node], laid[node], offset, textcoords="offset points", fontsize=_LETTERS, ha="center", va="center", zorder=5,
                       arrowprops=lead, bbox={"facecolor": style.GROUND, "edgecolor": "none", "pad": 0.6, "alpha": 0.8})  # fmt: skip


def _lay_out(drawn: Axes) -> None:
    """Puts the axes where they are drawn, without drawing anything."""
    figure = drawn.get_figure()
    engine = figure.get_layout_engine()
    if engine is not None:
        engine.execute(figure)
    drawn.apply_aspect()


def _keep_layout(drawn: Axes) -> None:
    """Leaves the axes where they are: names that need room at the edge would move all nodes below the other names."""
    drawn.get_figure().set_layout_engine("none")


def _node_key(
    drawn: Axes, ranks: Mapping[int, int], away: Mapping[int, int], down: set[int], nodes: set[int]
) -> None:  # fmt: skip
    def entry(marker: str, face: str, edge: str, words: str) -> None:
        drawn.add_line(Line2D([], [], linestyle="", marker=marker, markersize=9, color=face, markeredgecolor=edge, label=words))

    for distance, colour in hop_colours(away).items():
        if distance in away.values():
            words = "the host: 0 hops" if distance == 0 else f"{distance} hop{'s' * (distance > 1)}"
            entry("s" if distance == 0 else "o", colour, style.TRANSMITS if distance == 0 else style.INK, words)
    if any(distance > _HOPS_MOST for distance in away.values()):
        entry("o", UNREACHED, style.INK, f"more than {_HOPS_MOST} hops")
    if nodes - set(away) - down:
        entry("o", UNREACHED, style.INK, "out of the host's reach")
    if down:
        entry("o", style.GROUND, style.PALE, "no power")
