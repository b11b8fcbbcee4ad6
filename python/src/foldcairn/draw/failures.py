"""Maps of a plan: what breaks where each node fails, and what a relay mends at each candidate place. Tested, not proved."""

from __future__ import annotations

import os
from collections.abc import Mapping
from dataclasses import replace
from typing import TYPE_CHECKING, Any

from matplotlib.axes import Axes
from matplotlib.figure import Figure

from ..requirements import measuring
from . import maps, style
from .maps import Paint

if TYPE_CHECKING:
    from ..plan import Plan
    from ..requirements.failing import Failures
    from ..requirements.relaying import Relays

# What breaks most often has the first colour, and all for which none is left have the last one.
_COLOURS = ("#c9374c", "#e58606", "#7d4fc4", "#0b7fab", "#b5651d")
_OTHERS, _CUTS, _OPEN, _NOTHING, _NOT_ASKED = "#8c1d40", "#e5c1cd", "#ffe47b", "#cfe8d5", style.OFF
# From the most that a relay mends to nothing.
_MENDS = ("#12633f", "#58a36c", "#b9dcb4")
_ORDER = (*_COLOURS, _OTHERS, _CUTS, _OPEN, _NOTHING, *_MENDS, style.GROUND, _NOT_ASKED)
_LETTERS_MOST = 46


def failures(
    found: Failures, *, background: str | os.PathLike[str] | bytes | None = None, least_ratio: float | None = None, axes: Axes | None = None,
) -> Figure:  # fmt: skip
    """The map of a plan whose nodes have the colours of what breaks where they fail.

    Lines are links by their mean ratios at the start. Nodes are at their places, floor above floor, or where the links put them.

    Parameters
    ----------
    found : Failures
        What `planning.failures` gives.
    background : path or bytes, optional
        The file of a picture of the floor plan, or its bytes. Without it that of the plan is drawn where all nodes are on one floor.
    least_ratio : float, optional
        Links below this ratio, 0 to 1, are left out, as in `topology`.
    axes : matplotlib.axes.Axes, optional
        Where the map is drawn, without the key, as a part of their figure.

    Returns
    -------
    matplotlib.figure.Figure
        The map, or the figure of `axes`.

    Raises
    ------
    ValueError
        Where `topology` raises it.
    OSError
        Where the file of the background can't be read.
    """
    rows = {row["failed"]: row for row in found.nodes.to_dict("records")}
    colours = _by_what([row["requirements"] for row in rows.values() if row["breaks"]])
    paints = {name: _paint(rows.get(name), colours) for name, node in found.plan.nodes.items() if not node.candidate}
    lasts = "for good" if found.duration == float("inf") else f"for {found.duration:g} s"
    return _map(found.plan, paints, f"What breaks where a node fails {lasts} at {found.seconds:,g} s", background, least_ratio, axes)


def _by_what(several: list[str]) -> dict[str, str]:
    """A colour for each set of requirements, the most frequent first."""
    order = sorted(dict.fromkeys(several), key=lambda one: (-several.count(one), one))
    return {one: _COLOURS[place] if place < len(_COLOURS) else _OTHERS for place, one in enumerate(order)}


def _paint(row: Mapping[str, Any] | None, colours: Mapping[str, str]) -> Paint:
    if row is None:
        return _NOT_ASKED, "not asked for"
    if row["breaks"]:
        colour = colours[row["requirements"]]
        return colour, "breaks others" if colour == _OTHERS else f"breaks {_short(row['requirements'].replace('; ', ', '))}"
    if row["cut_off"] or row["lost"]:
        return _CUTS, "cuts others off"
    return (_OPEN, "not decided") if row["undecided"] else (_NOTHING, "breaks nothing")


def _short(words: str) -> str:
    return words if len(words) <= _LETTERS_MOST else words[: _LETTERS_MOST - 2] + ".."


def relays(
    found: Relays, *, background: str | os.PathLike[str] | bytes | None = None, least_ratio: float | None = None, axes: Axes | None = None,
) -> Figure:  # fmt: skip
    """The map of a plan with all candidates, which have the colours of what a relay there mends.

    That is all that is broken, a part of it, or nothing. Lines and places are those of `failures`.

    Parameters
    ----------
    found : Relays
        What `planning.relays` gives.
    background : path or bytes, optional
        The file of a picture of the floor plan, or its bytes. Without it that of the plan is drawn where all nodes are on one floor.
    least_ratio : float, optional
        Links below this ratio, 0 to 1, are left out, as in `topology`.
    axes : matplotlib.axes.Axes, optional
        Where the map is drawn, without the key, as a part of their figure.

    Returns
    -------
    matplotlib.figure.Figure
        The map, or the figure of `axes`.

    Raises
    ------
    ValueError
        Where `topology` raises it.
    OSError
        Where the file of the background can't be read.
    """
    rows = {row["candidate"]: row for row in found.places.to_dict("records")}
    plan = found.plan.with_relays(*found.plan.candidates)
    paints = {name: _mended(rows[name], found.broken) if name in rows else (_NOT_ASKED, "no candidate") for name in plan.nodes}
    return _map(plan, paints, f"What a relay mends at {len(rows)} places", background, least_ratio, axes)


def _mended(row: Mapping[str, Any], broken: int) -> Paint:
    if row["mended"] == 0:
        return style.GROUND, "a relay here mends nothing"
    if row["mended"] == broken:
        return _MENDS[0], "a relay here mends all"
    return (_MENDS[1], "a relay here mends half or more") if 2 * row["mended"] >= broken else (_MENDS[2], "a relay here mends less than half")


def _map(
    plan: Plan, paints: Mapping[str, Paint], title: str, background: str | os.PathLike[str] | bytes | None, least_ratio: float | None, axes: Axes | None
) -> Figure:  # fmt: skip
    """A map of the network of a plan in these colours, by the names of nodes."""
    with measuring.quiet():
        network = replace(plan, events=[]).network()
    picture, box = background, plan.extent()
    is_flat = len({node.floor for name, node in plan.nodes.items() if name in paints}) == 1 and network.nodes.keys() <= network.places.keys()
    if picture is None and plan.floor.picture and is_flat:
        picture = plan.folder / plan.floor.picture
    edges = (box[0], box[2], box[1], box[3]) if picture is not None and box is not None else None
    # The key has the colours in this order.
    by_node = dict(sorted(((node, paints[name]) for node, name in network.labels.items()), key=lambda one: _ORDER.index(one[1][0])))
    return maps.topology(network, background=picture, extent=edges, title=title, least_ratio=least_ratio, axes=axes, paints=by_node)
