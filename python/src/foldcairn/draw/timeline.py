"""The timeline of the radios of a run. `plot` has all pictures in one place. Tested, not proved."""

from __future__ import annotations

from collections.abc import Iterable

import numpy as np
import pandas as pd
from matplotlib.axes import Axes
from matplotlib.figure import Figure
from matplotlib.patches import Patch, PathPatch
from matplotlib.path import Path
from matplotlib.ticker import MaxNLocator
from numpy.typing import NDArray

from ..answers import findings, timing
from ..answers.rounds import rounds
from ..common import arguments
from ..model.scenario import Scenario
from ..runs.required import of_log
from ..runs.results import Log
from . import style

# Below this length of the window slots and transmissions are drawn, above it rounds as ticks.
DETAIL_SECONDS = 12.0
# Below this length times are written in milliseconds after the start of the window.
_MILLISECONDS_BELOW = 2.0
_WIDTH = 11.0
# About how many points of the width are the axes.
_POINTS = (_WIDTH - 1.2) * 72
_HALF = 0.32


@of_log
def timeline(
    log: Log, *, start_seconds: float = 0.0, end_seconds: float | None = None, frame: int | None = None,
    nodes: Iterable[int | str] | None = None, title: str | None = None, note: str | None = None, axes: Axes | None = None,
) -> Figure:  # fmt: skip
    """What each radio did in a window of the run, a row for each node.

    In a window of more than 12 s each round is a tick by the colour of its rank's channel; dots are rounds in which the node delivered packets, if
    there is room for them, and grey is time without power. In a shorter one there are the windows of slots, with what the node received and
    transmitted in them; from about 60 ms down with the steps as numbers. Times are seconds of true time from the start of the run, in windows
    below 2 s milliseconds after the window's start.

    Parameters
    ----------
    log : results.Log
        The run.
    start_seconds : float
        Where the window starts, in seconds from the start of the run, from 0 on.
    end_seconds : float, optional
        Where it ends, in such seconds; None: at the end of the run.
    frame : int, optional
        A frame whose round is shown, in place of the window that is given.
    nodes : iterable of int or str, optional
        The nodes that are shown, by ids or names; None: all.
    title : str, optional
        The title, in place of one that says the window.
    note : str, optional
        A line below the title, after the seed by which the losses were drawn.
    axes : matplotlib.axes.Axes, optional
        Where it is drawn, without the key, as a part of their figure.

    Returns
    -------
    matplotlib.figure.Figure
        The picture, or the figure of `axes`.

    Raises
    ------
    ValueError
        Where `log` is no log of a run, the window has no length or lies outside of the run, a frame has no round, or a node is none of the scenario.
    """
    if frame is not None:
        start_seconds, end_seconds = _of_round(log, frame)
    start_seconds, end = arguments.window(start_seconds, end_seconds, log.scenario.seconds)
    shown = sorted(log.scenario.nodes if nodes is None else {log.scenario.id(node) for node in nodes})
    with style.settings():
        drawn = style.axes(_WIDTH, 1.4 + (0.3 if len(shown) <= 30 else 0.2) * len(shown))[1] if axes is None else style.plain(axes)
        row = {node: place for place, node in enumerate(shown)}
        if end - start_seconds > DETAIL_SECONDS:
            _draw_rounds(drawn, log, row, start_seconds, end)
            above = 30.0
        else:
            _draw_slots(drawn, log, row, start_seconds, end)
            above = _slot_lines(drawn, log, len(shown), start_seconds, end)
        _rows(drawn, log.scenario, shown)
        drawn.set_xlim(start_seconds, end)
        _times(drawn, log.scenario, start_seconds, end)
        notes = [findings.draw(log.origin.seed), note or ""]
        style.heading(drawn, title or f"The radios from {start_seconds:g} s to {end:g} s", "; ".join(filter(None, notes)) or None, above=above)
        if axes is None:
            style.key(drawn, 6, more=[Patch(facecolor=style.GROUND, edgecolor=style.FAINT, label="radio off")])
    return drawn.get_figure()


def _of_round(log: Log, frame: int) -> tuple[float, float]:
    """The time of the round of a frame, from a little before its first slot to a little after its last."""
    slots = timing.slots(log)
    slots = slots[slots["frame"] == frame]
    if slots.empty:
        raise ValueError(f"frame {frame} has no round; `planning.rounds` has the frames that have one")
    return max(0.0, slots["start_seconds"].min() - 0.002), min(float(log.scenario.seconds), slots["end_seconds"].max() + 0.002)


def _rows(drawn: Axes, scenario: Scenario, shown: list[int]) -> None:
    ranks = {node: rank for rank, node in scenario.hosts.items()}
    named = {node: findings.node(scenario, node) for node in shown}
    names = [f"host {ranks[node]}, {named[node]}" if node in ranks else named[node] for node in shown]
    drawn.set_yticks(range(len(shown)), names, parse_math=False)
    drawn.set_ylim(len(shown) - 0.4, -0.6)
    drawn.spines["left"].set_visible(False)


def _times(drawn: Axes, scenario: Scenario, start: float, end: float) -> None:
    drawn.tick_params(axis="x", length=3, color=style.FAINT)
    if end - start > DETAIL_SECONDS:
        length = scenario.frame_seconds
        above = drawn.secondary_xaxis("top", functions=(lambda seconds: seconds / length, lambda frame: frame * length))
        frames = MaxNLocator(24, integer=True, steps=(1, 2, 5, 10)).tick_values(start / length, end / length)
        frames = frames[(frames >= start / length) & (frames <= end / length)]
        above.set_xticks(frames, [f"{frame:g}" for frame in frames])
        above.set_xlabel("start of frame", fontsize=8.5)
        # It has no title, and matplotlib need not look for a place for it: what `y` says for other axes (see `style.heading`).
        above._autotitlepos = False
        above.tick_params(length=0, labelsize=8.5)
        above.spines["top"].set_visible(False)
        drawn.vlines(length * frames, 0, 1, transform=drawn.get_xaxis_transform(), color=style.FAINT, linewidth=0.5, zorder=0.6)
    if end - start >= _MILLISECONDS_BELOW:
        drawn.set_xlabel("seconds from the start of the run")
        drawn.ticklabel_format(axis="x", useOffset=False)
        return
    places = drawn.xaxis.get_major_locator().tick_values(0.0, 1e3 * (end - start))
    places = places[(places >= 0) & (places <= 1e3 * (end - start) + 1e-9)]
    drawn.set_xticks(start + places / 1e3, [f"{place:g}" for place in places])
    drawn.set_xlabel(f"milliseconds after {start:g} s")


def _bars(
    drawn: Axes, table: pd.DataFrame, row: dict[int, int], colour: str, label: str, least: float, half: float = _HALF,
    zorder: float = 2.0,
) -> None:  # fmt: skip
    """A bar for each row of a table, all as one shape; `least` is the least width in seconds."""
    if table.empty:
        return
    start = table["start_seconds"].to_numpy()
    end = np.maximum(table["end_seconds"].to_numpy(), start + least)
    middle = table["node"].map(row).to_numpy()
    low, high = middle - half, middle + half
    corners = np.stack([start, low, end, low, end, high, start, high], axis=1).reshape(-1, 4, 2)
    closed = np.concatenate([corners, corners[:, :1]], axis=1)
    shape = PathPatch(Path.make_compound_path_from_polys(closed), facecolor=colour, linewidth=0, label=label, zorder=zorder)
    # As a patch it would be looked through for the limits of the axes, which are set.
    drawn.add_artist(shape)


def _cut(table: pd.DataFrame, row: dict[int, int], start: float, end: float) -> pd.DataFrame:
    return timing.within(table[table["node"].isin(row)], start, end)


def _draw_rounds(drawn: Axes, log: Log, row: dict[int, int], start: float, end: float) -> None:
    point = (end - start) / _POINTS
    _bars(drawn, _cut(timing.pauses(log), row, start, end), row, style.OFF, "no power", 0, 0.5, zorder=0.5)
    spells = _cut(timing.spells(log), row, start, end)
    for rank, colour in enumerate(style.RANKS):
        ours = spells[spells["rank"] == rank]
        _bars(drawn, ours, row, colour, f"radio on, channel of rank {rank}", 1.2 * point)
    opened = rounds(log).rename(columns={"host": "node"})
    opened["end_seconds"] = opened["start_seconds"]
    _bars(drawn, _cut(opened, row, start - point, end), row, style.TRANSMITS, "opens a round", 2 * point, 0.46, zorder=3.0)
    _dots(drawn, log, row, start, end)


def _dots(drawn: Axes, log: Log, row: dict[int, int], start: float, end: float) -> None:
    """A dot for each node and round with deliveries, in the middle of the round; none where they would cover each other."""
    table = log.deliveries[log.deliveries["node"].isin(row)]
    spells = timing.spells(log)
    spells = spells[~spells["searching"]].assign(frame=lambda t: (t["start_seconds"] // log.scenario.frame_seconds).astype("int64"))
    keys = ["node", "rank", "frame"]
    got = table[keys].astype("int64").drop_duplicates().merge(spells.astype({key: "int64" for key in keys}), on=keys)
    got = got[(got["start_seconds"] >= start) & (got["end_seconds"] <= end)]
    times = np.sort(got["frame"].unique()) * float(log.scenario.frame_seconds)
    apart = (np.quantile(np.diff(times), 0.1) if len(times) > 1 else end - start) / (end - start) * _POINTS
    if len(got) and apart >= 3.5:
        size = min(5.0, 0.6 * apart)
        middle = (got["start_seconds"] + got["end_seconds"]) / 2
        drawn.plot(middle, got["node"].map(row), "o", color=style.DELIVERY, markersize=size, markeredgewidth=0,
                   label="delivers packets", zorder=4, clip_on=False)  # fmt: skip


def _draw_slots(drawn: Axes, log: Log, row: dict[int, int], start: float, end: float) -> None:
    point = (end - start) / _POINTS
    _bars(drawn, _cut(timing.pauses(log), row, start, end), row, style.OFF, "no power", 0, 0.5, zorder=0.5)
    _bars(drawn, _cut(log.tunings, row, start, end), row, style.LISTENS, "listens", 0.5 * point)
    for table, colour, label in ((log.receptions, style.RECEIVES, "receives"), (log.transmissions, style.TRANSMITS, "transmits")):
        ours = _cut(table, row, start, end)
        _bars(drawn, ours, row, colour, label, 0.5 * point, zorder=3.0)
        _steps(drawn, ours, row, point)


def _steps(drawn: Axes, table: pd.DataFrame, row: dict[int, int], point: float) -> None:
    """The relay counter of each packet in its bar, where it has room."""
    for one in table[table["end_seconds"] - table["start_seconds"] > 9 * point].itertuples():
        middle = (one.start_seconds + one.end_seconds) / 2
        drawn.text(middle, row[one.node], str(one.step), color=style.ON_DARK, fontsize=7, ha="center", va="center", zorder=5, in_layout=False)


def _slot_lines(drawn: Axes, log: Log, rows: int, start: float, end: float) -> float:
    """The edges of slots, and their names where there is room; gives the height of the names in points."""
    slots = timing.within(timing.slots(log), start, end)
    edges: NDArray[np.float64] = np.unique(slots[["start_seconds", "end_seconds"]])
    drawn.vlines(edges[(edges > start) & (edges < end)], -0.6, rows - 0.4, color=style.FAINT, linewidth=0.6, linestyle="--", zorder=1)
    names = [f"slot {slot.slot}: {slot.name}" for slot in slots.itertuples()]
    room = ((slots["end_seconds"] - slots["start_seconds"]) / (end - start) * _POINTS).to_numpy()
    # A slot of which little is shown gives no measure.
    whole = room >= 0.5 * room.max(initial=0.0)
    upright = bool(np.any(whole & (room < [4.6 * len(name) for name in names])))
    for slot, name, width in zip(slots.itertuples(), names, room):
        if width > (10 if upright else 4.6 * len(name)):
            middle = (slot.start_seconds + slot.end_seconds) / 2
            drawn.annotate(name, (middle, -0.6), (0, 4), textcoords="offset points", rotation=90 if upright else 0, fontsize=8,
                           ha="center", va="bottom", color=style.PALE)  # fmt: skip
    drawn.set_ylim(rows - 0.4, -0.6)
    return 12.0 + (4.6 * max(map(len, names)) if upright and room.max() > 10 else 12.0 if names else 0.0)
