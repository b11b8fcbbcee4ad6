"""Charts of what draws of a plan show: how late packets come and their deadlines, how values spread over draws, battery lives, and one draw over
time. `plot` has the pictures of runs. Tested, not proved.
"""

from __future__ import annotations

import textwrap
from collections.abc import Mapping, Sequence
from typing import Any

import numpy as np
import pandas as pd
from matplotlib.axes import Axes
from matplotlib.collections import LineCollection
from matplotlib.figure import Figure
from matplotlib.patches import Patch
from matplotlib.ticker import FuncFormatter, LogLocator, NullLocator
from numpy.typing import NDArray

from ..common.visible import visible
from ..requirements import shown
from ..requirements.drawn import Drawn
from . import charts, map_labels, style

# The width of a picture of a page, and of one of two side by side, in inches; and the room of a row.
_WIDE, _NARROW, _ROW = 7.1, 3.4, 0.19
# And of a picture for a phone.
_PHONE = 3.9
# Colours that are seen on light and on dark ground.
_BOX, _LINE = "#9ec5e8", "#4a86c8"
_LETTERS, _NAME_MOST = 7.5, 26
# Lives are on a logarithmic axis where the longest is so many times the shortest.
_FAR = 8.0
_BARS, _BINS = 12, 60


def _rows(count: int, narrow: bool, below: float = 0.62) -> tuple[Figure, Axes]:
    """A picture with so many rows, the first at the top, and the room for a scale below them; narrow for a phone."""
    figure = Figure(figsize=(_PHONE if narrow else _WIDE, _ROW * max(count, 2) + below), layout="constrained")
    drawn = style.plain(figure.subplots())
    drawn.set_ylim(count - 0.4, -0.6)
    drawn.tick_params(labelsize=_LETTERS)
    drawn.spines["left"].set_visible(False)
    return figure, drawn


def _name(drawn: Axes, names: Sequence[str], narrow: bool) -> None:
    drawn.set_yticks(range(len(names)), [map_labels.shortened(name, _NAME_MOST // 2 if narrow else _NAME_MOST) for name in names], parse_math=False)


def _beside(drawn: Axes, place: int, words: str) -> None:
    """Writes words at the right of a row."""
    drawn.annotate(words, (1, place), (4, 0), xycoords=("axes fraction", "data"), textcoords="offset points", fontsize=_LETTERS, va="center")


def _logarithmic(drawn: Axes, narrow: bool) -> None:
    """Seconds or years on a logarithmic axis, with numbers that people read."""
    drawn.set_xscale("log")
    drawn.xaxis.set_major_locator(LogLocator(10, (1, 3) if narrow else (1, 2, 5)))
    drawn.xaxis.set_major_formatter(FuncFormatter(lambda value, _: f"{value:,g}"))
    drawn.xaxis.set_minor_locator(NullLocator())


def in_time(drawn: Drawn) -> pd.Series:
    """The part of the packets of each stream that came in time, over all draws together, those first that have least; missing without a deadline."""
    table = drawn.streams.assign(came=drawn.streams["in_time"] * drawn.streams["packets"])
    sums = table.groupby("stream", sort=False)[["came", "packets"]].sum(min_count=1)
    return (sums["came"] / sums["packets"].where(sums["packets"] > 0)).sort_values(kind="stable", na_position="last")


def deadlines(drawn: Drawn, deadlines: Mapping[str, float | None], *, narrow: bool = False) -> Figure:
    """How long packets take from put to delivery by the draws, on a logarithmic axis in seconds: a row for each stream, the worst first, with a box
    from the first quartile to the third, a line at the median, whiskers from the least to the greatest, and a mark at the deadline of the stream.
    At the right is the part of its packets that came in time, of those without a deadline the part that came at all. `narrow` is for a phone.

    Raises `ValueError` where no packet came."""
    groups = {str(name): table.to_numpy() for name, table in drawn.latencies.groupby("stream")["seconds"]}
    if not groups:
        raise ValueError("no packet came in any of the draws")
    shares, arrived = in_time(drawn), drawn.streams.groupby("stream")["arrived"].mean()
    names = list(shares.index)
    with style.settings():
        figure, axes = _rows(len(names), narrow)
        _logarithmic(axes, narrow)
        there = [place for place, name in enumerate(names) if name in groups]
        axes.boxplot(
            [groups[names[place]] for place in there], positions=there, vert=False, whis=(0, 100), widths=0.62, patch_artist=True, manage_ticks=False,
            boxprops={"facecolor": _BOX, "edgecolor": _LINE, "linewidth": 0.8}, medianprops={"color": style.INK, "linewidth": 1.4},
            whiskerprops={"color": _LINE, "linewidth": 0.8}, capprops={"color": _LINE, "linewidth": 0.8},
        )  # fmt: skip
        marks = [[(seconds, place - 0.45), (seconds, place + 0.45)] for place, name in enumerate(names) if (seconds := deadlines.get(name)) is not None]
        axes.add_collection(LineCollection(marks, colors=style.TRANSMITS, linewidths=2.2, zorder=4))
        axes.plot([], [], color=style.TRANSMITS, linewidth=2.2, label="deadline")
        every = np.concatenate([*groups.values(), [mark[0][0] for mark in marks]])
        axes.set_xlim(0.85 * max(every[every > 0].min(initial=np.inf), 0.01), 1.15 * every.max())
        _name(axes, names, narrow)
        for place, name in enumerate(names):
            _beside(axes, place, _came(shares[name], arrived[name]))
        axes.grid(axis="x", color=style.FAINT, linewidth=0.5)
        axes.set_xlabel("seconds from put to delivery" + ("" if narrow else ", by plan; logarithmic"))
        style.key(axes, 1, below=0.42)
    return figure


def _came(in_time: float, arrived: float) -> str:
    """What came of the packets of a stream."""
    if np.isnan(in_time) and np.isnan(arrived):
        return "none was due"
    return f"{shown.number(arrived, 'of packets')} came" if np.isnan(in_time) else f"{shown.number(in_time, 'of packets')} in time"


def spread(values: Sequence[float], wanted: float | None, unit: str) -> Figure:
    """How a value spreads over draws: how many of them had which, and a line at what is wanted, if something is. `unit` is that of the axis; "%"
    shows parts from 0 to 1 in percent. Raises `ValueError` where there is no value."""
    times = 100.0 if unit == "%" else 1.0
    known: NDArray[np.float64] = times * np.array([value for value in values if np.isfinite(value)], dtype=np.float64)
    if not len(known):
        raise ValueError("no draw has a value")
    with style.settings():
        figure = Figure(figsize=(_NARROW, 1.45), layout="constrained")
        drawn = style.plain(figure.subplots())
        ends = [known.min(), known.max(), *([times * wanted] if wanted is not None else [])]
        low, high = min(ends), max(ends)
        room = 0.06 * (high - low) or max(0.02 * abs(high), 0.5)
        edges = np.linspace(low - room, high + room, _BARS + 1)
        drawn.hist(known, edges, color=_BOX, edgecolor=_LINE, linewidth=0.7)
        if wanted is not None:
            drawn.axvline(times * wanted, color=style.TRANSMITS, linewidth=1.6, linestyle="--")
        drawn.set_xlim(edges[0], edges[-1])
        drawn.tick_params(labelsize=_LETTERS)
        drawn.yaxis.get_major_locator().set_params(integer=True, nbins=3)
        drawn.xaxis.get_major_locator().set_params(nbins=5)
        drawn.set_ylabel("draws", fontsize=_LETTERS)
        drawn.set_xlabel(unit + ("" if wanted is None else "; dashed: what is wanted"), fontsize=_LETTERS)
    return figure


def battery_lives(drawn: Drawn) -> pd.DataFrame:
    """The least, the mean and the greatest life in years of each node with a battery that its radio empties, the shortest first."""
    known = drawn.batteries[np.isfinite(drawn.batteries["years"].to_numpy(dtype=np.float64))]
    return known.groupby("node")["years"].agg(["min", "mean", "max"]).sort_values("mean", kind="stable")


def batteries(drawn: Drawn, wanted: Mapping[str, float], *, most: int = 24, narrow: bool = False) -> Figure:
    """How long batteries last in years: a row for each of the nodes whose batteries are the first to be empty, `most` of them, with a dot at the mean
    over the draws, a line from the least to the greatest, and a mark at what is wanted of it. `narrow` is for a phone. Raises `ValueError` where no
    node has a battery."""
    lives = battery_lives(drawn).head(most)
    if lives.empty:
        raise ValueError("no node has a battery that its radio empties")
    names = [str(name) for name in lives.index]
    with style.settings():
        figure, axes = _rows(len(names), narrow)
        places = range(len(names))
        axes.hlines(places, lives["min"], lives["max"], color=_LINE, linewidth=2.0)
        axes.plot(lives["mean"], places, "o", color=_LINE, markersize=4)
        marks = [[(wanted[name], place - 0.45), (wanted[name], place + 0.45)] for place, name in enumerate(names) if name in wanted]
        axes.add_collection(LineCollection(marks, colors=style.TRANSMITS, linewidths=2.2))
        every = [lives["min"].min(), lives["max"].max(), *(mark[0][0] for mark in marks)]
        if max(every) > _FAR * min(every):
            _logarithmic(axes, narrow)
            axes.set_xlim(0.8 * min(every), 1.25 * max(every))
        else:
            axes.set_xlim(0, 1.08 * max(every))
        _name(axes, names, narrow)
        for place, mean in zip(places, lives["mean"]):
            _beside(axes, place, f"{mean:.2g} years")
        axes.grid(axis="x", color=style.FAINT, linewidth=0.5)
        axes.set_xlabel("years" + (", logarithmic" if axes.get_xscale() == "log" else ""))
        if marks:
            axes.plot([], [], color=style.TRANSMITS, linewidth=2.2, label="what is wanted")
            style.key(axes, 1, below=0.42)
    return figure


def over_time(
    packets: pd.DataFrame, deadlines: Mapping[str, float | None], seconds: float, changes: Sequence[float] = (), *, narrow: bool = False
) -> Figure:  # fmt: skip
    """One draw over time: a row for each stream in the order of the plan, and a cell for each sixtieth of the run, by the part of the packets put
    in it that came to all receivers in time, or at all without a deadline. Cells without a packet are empty. `packets` are those of `Drawn`, lines are
    at these `changes` in seconds, and `narrow` is for a phone. Raises `ValueError` where there is no packet."""
    if packets.empty:
        raise ValueError("there is no packet")
    names = [name for name in deadlines if (packets["stream"] == name).any()]
    edges = np.linspace(0, seconds, _BINS + 1)
    late = packets["seconds"].to_numpy() > packets["stream"].map(lambda name: np.inf if (given := deadlines[name]) is None else given).to_numpy() + 1e-9
    good = ~(late | packets["seconds"].isna().to_numpy())
    row = packets["stream"].map({name: place for place, name in enumerate(names)}).to_numpy()
    column = np.clip(np.searchsorted(edges, packets["put_seconds"].to_numpy(), side="right") - 1, 0, _BINS - 1)
    put, came = np.zeros((len(names), _BINS)), np.zeros((len(names), _BINS))
    np.add.at(put, (row, column), 1)
    np.add.at(came, (row, column), good)
    with style.settings():
        figure, axes = _rows(len(names), narrow)
        axes.set_facecolor(style.OFF)
        shares = np.divide(came, put, out=np.full_like(put, np.nan), where=put > 0)
        image = axes.imshow(shares, cmap=charts.SCALE, vmin=0, vmax=1, aspect="auto", extent=(0, seconds, len(names) - 0.5, -0.5), interpolation="none")
        for change in changes:
            axes.axvline(change, color=style.TRANSMITS, linewidth=1.2, linestyle="--")
        axes.set_xlim(0, seconds)
        _name(axes, names, narrow)
        axes.set_xlabel("seconds from the start of the run" + ("; dashed: what happens" if len(changes) else ""))
        colours = image.cmap
        patches = [Patch(facecolor=colours(share), label=words) for share, words in ((0.0, "none in time"), (0.5, "half"), (1.0, "all in time"))]
        style.key(axes, 4, below=0.42, more=[*patches, Patch(facecolor=style.OFF, label="no packet")])
    return figure


def compared(table: pd.DataFrame, plans: Sequence[str], *, narrow: bool = False) -> Figure:
    """The answers of plans side by side, of the table of `report.compare`: a panel for each answer, a row in it for each plan with a dot at the mean
    and a line for its interval, red where it is better than all others. `narrow` is for a phone. Raises `ValueError` where no plan has an answer."""
    rows = [row for row in table.to_dict("records") if any(np.isfinite(row[plan]) for plan in plans)]
    if not rows:
        raise ValueError("no plan has an answer")
    columns = 1 if narrow else 2
    with style.settings():
        high = -(-len(rows) // columns)
        figure = Figure(figsize=(_PHONE if narrow else _WIDE, high * (0.75 + _ROW * len(plans))), layout="constrained")
        panels = figure.subplots(high, columns, squeeze=False).ravel()
        for panel, row in zip(panels, rows):
            _panel(style.plain(panel), row, plans)
        for panel in panels[len(rows) :]:
            panel.set_axis_off()
    return figure


def _panel(drawn: Axes, row: Mapping[str, Any], plans: Sequence[str]) -> None:
    """One answer of all plans."""
    for place, plan in enumerate(plans):
        colour = style.TRANSMITS if row["better"] == plan else _LINE
        half = 0.0 if np.isnan(row[f"{plan} ±"]) else row[f"{plan} ±"]
        drawn.hlines(place, row[plan] - half, row[plan] + half, color=colour, linewidth=2.0)
        drawn.plot(row[plan], place, "o", color=colour, markersize=4)
    drawn.set_ylim(len(plans) - 0.4, -0.6)
    drawn.spines["left"].set_visible(False)
    drawn.grid(axis="x", color=style.FAINT, linewidth=0.5)
    drawn.set_yticks(range(len(plans)), [map_labels.shortened(visible(plan), _NAME_MOST // 2) for plan in plans], parse_math=False)
    drawn.tick_params(labelsize=_LETTERS)
    drawn.xaxis.get_major_locator().set_params(nbins=5)
    drawn.set_title("\n".join(textwrap.wrap(f"{row['answer']}, {row['unit']}", 46)), fontsize=8.5, pad=4)
