"""Charts of planning tables: delivery ratios, latencies, energy and outages. `plot` has all pictures in one place.

Tested, not proved.
"""

from __future__ import annotations

from collections.abc import Iterable
from typing import Any

import numpy as np
import pandas as pd
from matplotlib.axes import Axes
from matplotlib.figure import Figure
from matplotlib.patches import Patch
from matplotlib.ticker import FuncFormatter, LogLocator, NullLocator, PercentFormatter

from ..answers import radio
from . import style

# The colours of ratios, from dark to light.
SCALE = "cividis"
# Up to so many columns there is room for counts in the cells.
_COUNTS_MOST = 6
# Latencies are on a logarithmic axis where the greatest is so many times the least.
_FAR = 20.0


def delivery(
    pairs: pd.DataFrame, *, column: str = "ratio_of_put", title: str | None = None, axes: Axes | None = None
) -> Figure:
    """Which stream arrives where: a row for each stream and a column for each node.

    The numbers are percents. Cells of a stream at its own node, and of what there is none of, are empty. Next to a stream is how many packets it
    put: the ratio of four packets says little.

    Parameters
    ----------
    pairs : pandas.DataFrame
        A table of `planning.delivery_ratio(log, "pair")`.
    column : str
        One of its ratios (0 to 1): "ratio_of_put", "ratio_of_sent" or "ratio_of_sent_while_on".
    title : str, optional
        The title, in place of one that says what the ratio is of.
    axes : matplotlib.axes.Axes, optional
        Where it is drawn, without the scale of its colours, as a part of their figure.

    Returns
    -------
    matplotlib.figure.Figure
        The picture, or the figure of `axes`.

    Raises
    ------
    ValueError
        Where the table has not these columns, or no rows.
    """
    _require(pairs, "source", "stream", "node", column)
    table = pairs.pivot(index=["source", "stream"], columns="node", values=column)
    with style.settings():
        figure, drawn = style.axes(max(5.0, 1.8 + 0.36 * table.shape[1]), max(2.4, 1.2 + 0.22 * len(table)), axes)
        drawn.set_facecolor(style.OFF)
        ratios = table.to_numpy(dtype="float64")
        image = drawn.imshow(ratios, cmap=SCALE, vmin=0, vmax=1, aspect="auto")
        drawn.set_xticks(range(table.shape[1]), [str(node) for node in table.columns], parse_math=False)
        # Where a cell has its own count, no count of the stream is needed.
        counts = pairs.groupby(["source", "stream"])["put"].max() if "put" in pairs and table.shape[1] > _COUNTS_MOST else None
        packets = {} if counts is None else counts.to_dict()
        names = [name + (f" ({packets[key]:g})" if key in packets else "") for key, name in zip(table.index, _names(table.index))]
        drawn.set_yticks(range(len(table)), names, parse_math=False)
        drawn.set_xlabel("receiving node")
        drawn.set_ylabel(_of_streams(table.index) + (", and how many packets it put" if packets else ""))
        words = _cells(pairs, table)
        for (row, place), ratio in np.ndenumerate(ratios):
            if not np.isnan(ratio):
                ink = style.ink_on(image.cmap(ratio))
                # Within the axes nothing has to make room for it, and matplotlib need not measure it again and again.
                drawn.text(place, row, words[row][place], ha="center", va="center", fontsize=7, color=ink, in_layout=False)
        if axes is None:
            bar = figure.colorbar(image, ax=drawn, fraction=0.03, pad=0.01)
            bar.ax.yaxis.set_major_formatter(PercentFormatter(1))
            bar.outline.set_visible(False)
        drawn.set_title(title or f"Delivery ratio in percent of {_OF[column]}")
    return figure


_OF = {
    "ratio_of_put": "what was put", "ratio_of_sent": "what was sent",
    "ratio_of_sent_while_on": "what was sent while the receiver had power",
}  # fmt: skip


def _names(streams: Iterable[tuple[Any, int]]) -> list[str]:
    """The names of streams: of their nodes alone where all are stream 0 of theirs."""
    streams = list(streams)
    if all(stream == 0 for _, stream in streams):
        return [str(source) for source, _ in streams]
    return [f"{source}, stream {stream}" for source, stream in streams]


def _of_streams(streams: Iterable[tuple[Any, int]]) -> str:
    """What an axis with these names has."""
    return "source" if all(stream == 0 for _, stream in streams) else "source and stream"


def _cells(pairs: pd.DataFrame, table: pd.DataFrame) -> list[list[str]]:
    """The words of the cells: percents, and in a map of few columns the counts too."""
    ratios = table.to_numpy(dtype="float64")
    told = [["" if np.isnan(ratio) else percent(ratio) for ratio in row] for row in ratios]
    if table.shape[1] > _COUNTS_MOST or not {"put", "delivered"} <= set(pairs.columns):
        return told
    got, put = (pairs.pivot(index=["source", "stream"], columns="node", values=name).to_numpy() for name in ("delivered", "put"))
    for (row, place), words in np.ndenumerate(np.array(told, dtype=object)):
        if words:
            told[row][place] = f"{words} ({got[row, place]:g} of {put[row, place]:g})"
    return told


def percent(ratio: float) -> str:
    """A ratio in percent, rounded; 0 is none and 100 is all."""
    rounded = int(100 * ratio + 0.5 + 1e-9)
    return ">99" if rounded == 100 and ratio < 1 else "<1" if rounded == 0 and ratio > 0 else str(rounded)


def latency(
    deliveries: pd.DataFrame, *, deadline_seconds: float | None = None, title: str | None = None, axes: Axes | None = None
) -> Figure:  # fmt: skip
    """How the latencies of each stream are distributed, in seconds.

    There is a box from the first quartile to the third with a line at the median, and whiskers from the least to the greatest. Where the greatest
    is more than 20 times the least the axis is logarithmic, and says so. The latencies of a report without a log are by plan, and the axis says
    so too.

    Parameters
    ----------
    deliveries : pandas.DataFrame
        A table of `planning.latencies(log)`.
    deadline_seconds : float, optional
        A deadline in seconds from put to delivery, which a line marks.
    title : str, optional
        The title, in place of one that says what the boxes are.
    axes : matplotlib.axes.Axes, optional
        Where it is drawn, as a part of their figure.

    Returns
    -------
    matplotlib.figure.Figure
        The picture, or the figure of `axes`.

    Raises
    ------
    ValueError
        Where the table has not its columns, or no rows.
    """
    by_plan = "planned_latency_seconds" in deliveries
    column = "planned_latency_seconds" if by_plan else "latency_seconds"
    _require(deliveries, "source", "stream", column)
    groups = deliveries.groupby(["source", "stream"])[column]
    names = _names(groups.groups)
    with style.settings():
        figure, drawn = style.axes(max(5.0, 1.4 + 0.36 * len(names)), 4.0, axes)
        drawn.boxplot(
            [one.to_numpy() for _, one in groups], whis=(0, 100), widths=0.6, patch_artist=True,
            boxprops={"facecolor": "#9ec5e8", "edgecolor": style.RECEIVES}, medianprops={"color": style.TRANSMITS, "linewidth": 1.8},
            whiskerprops={"color": style.RECEIVES}, capprops={"color": style.RECEIVES},
        )  # fmt: skip
        drawn.set_xticks(range(1, len(names) + 1), names, parse_math=False)
        far = _scale(drawn, float(deliveries[column].min()), float(deliveries[column].max()))
        if deadline_seconds is not None:
            drawn.axhline(deadline_seconds, color=style.TRANSMITS, linestyle="--", linewidth=1.2, zorder=1)
            drawn.annotate(f"deadline {deadline_seconds:g} s", (1, deadline_seconds), (2, 0), xycoords=("axes fraction", "data"),
                           textcoords="offset points", fontsize=8, va="center", color=style.TRANSMITS)  # fmt: skip
        drawn.grid(axis="y", color=style.FAINT, linewidth=0.5)
        drawn.set_xlabel(_of_streams(groups.groups))
        drawn.set_ylabel("seconds from put to delivery" + (", by plan" if by_plan else "") + (", logarithmic" if far else ""))
        if len(names) > 12:
            drawn.tick_params(axis="x", rotation=90)
        drawn.set_title(title or "Latency: least, quartiles, median and greatest")
    return figure


def _scale(drawn: Axes, least: float, greatest: float) -> bool:
    """Sets the scale of latencies, and gives whether it is logarithmic: then short ones are told apart beside long ones."""
    far = least > 0 and greatest > _FAR * least
    if far:
        drawn.set_yscale("log")
        drawn.yaxis.set_major_locator(LogLocator(10, (1, 2, 5)))
        drawn.yaxis.set_major_formatter(FuncFormatter(lambda seconds, _: f"{seconds:g}"))
        drawn.yaxis.set_minor_locator(NullLocator())
    else:
        drawn.set_ylim(bottom=0)
    return far


def energy(times: pd.DataFrame, *, title: str | None = None, axes: tuple[Axes, Axes] | None = None) -> Figure:
    """What the radio time of each node goes to, in seconds.

    On the left is all of it, on the right that in rounds, without searching for a host, which otherwise hides the rest.

    Parameters
    ----------
    times : pandas.DataFrame
        A table of `planning.radio_time(log)`.
    title : str, optional
        The title of the left part, in place of "Time with the radio on".
    axes : tuple of matplotlib.axes.Axes, optional
        The two, left and right, where it is drawn, without the key, as a part of their figure.

    Returns
    -------
    matplotlib.figure.Figure
        The picture, or the figure of `axes`.

    Raises
    ------
    ValueError
        Where the table has not its columns, or no rows.
    """
    _require(times.reset_index(), "node", *radio.PURPOSES)
    table = times
    with style.settings():
        figure = axes[0].get_figure() if axes else Figure(figsize=(11.0, 1.9 + 0.2 * max(4, len(table))), layout="constrained")
        left, right = (style.plain(drawn) for drawn in axes or figure.subplots(1, 2, sharey=True))
        _stack(left, table, list(radio.PURPOSES))
        _stack(right, table, [purpose for purpose in radio.PURPOSES if purpose != "searching"])
        for drawn in (left, right):
            drawn.set_yticks(range(len(table)), [node if isinstance(node, str) else f"node {node}" for node in table.index], parse_math=False)
            drawn.set_ylim(len(table) - 0.4, -0.6)
            drawn.set_xlabel("seconds with the radio on")
        left.set_title(title or "Time with the radio on")
        left.set_xlim(right=1.12 * left.get_xlim()[1])
        right.set_xlim(right=1.12 * right.get_xlim()[1])
        right.set_title("The same in rounds, without searching")
        if axes is None:
            right.tick_params(labelleft=False)
            style.key(left, len(radio.PURPOSES), below=0.55)
    return figure


def _stack(drawn: Axes, table: pd.DataFrame, purposes: list[str]) -> None:
    base = np.zeros(len(table))
    for purpose in purposes:
        colour = style.PURPOSES[radio.PURPOSES.index(purpose)]
        last = drawn.barh(range(len(table)), table[purpose], 0.66, base, color=colour, label=purpose)
        base = base + table[purpose].to_numpy()
    drawn.bar_label(last, [f"{seconds:.{1 if seconds >= 10 else 2}f}" for seconds in base], padding=3, fontsize=7.5)
    drawn.grid(axis="x", color=style.FAINT, linewidth=0.5)
    drawn.spines["left"].set_visible(False)


def outages(streams: pd.DataFrame, *, title: str | None = None, axes: Axes | None = None) -> Figure:
    """How long each stream was without deliveries where a host failed or another took over.

    There is a bar for each change of hosts, in seconds from the start of the run: from the last delivery before it to the first after it, to the
    end of the run with an arrow where there is none. Lines show when the old host lost power and when the new one opened its first round. Streams
    whose source had no power itself, or no packet, are apart, below the others.

    Parameters
    ----------
    streams : pandas.DataFrame
        A table of `planning.outages(log, "stream")`.
    title : str, optional
        The title, in place of "Without deliveries at a change of hosts".
    axes : matplotlib.axes.Axes, optional
        Where it is drawn, without the key, as a part of their figure.

    Returns
    -------
    matplotlib.figure.Figure
        The picture, or the figure of `axes`.

    Raises
    ------
    ValueError
        Where the table has not its columns, or no rows: then the host never changed.
    """
    _require(streams, "source", "stream", "off_seconds", "first_round_seconds", "last_delivery_seconds", "first_delivery_seconds",
             "outage_seconds")  # fmt: skip
    streams = streams if "cause" in streams else streams.assign(cause="host")
    names = _by_cause(streams)
    with style.settings():
        figure, drawn = style.axes(11.0, 1.9 + 0.22 * len(names), axes)
        times = streams[["off_seconds", "first_round_seconds", "last_delivery_seconds", "first_delivery_seconds"]]
        low = float(times.min().min())
        high = float(max(times.max().max(), (streams["last_delivery_seconds"] + streams["outage_seconds"]).max()))
        for row in streams.itertuples():
            _outage(drawn, row, names.index((row.source, row.stream)), low, high)
        for name, colour, line, words in (
            ("off_seconds", style.TRANSMITS, "--", "the host loses power"),
            ("first_round_seconds", style.RECEIVES, "-", "first round of the new host"),
        ):
            for number, seconds in enumerate(sorted(streams[name].dropna().unique())):
                drawn.axvline(seconds, color=colour, linestyle=line, linewidth=1.4, zorder=1, label=None if number else words)
        drawn.set_yticks(range(len(names)), _names(names), parse_math=False)
        drawn.set_ylim(len(names) - 0.4, -0.6)
        drawn.set_xlim(low - 0.03 * (high - low), high + 0.12 * (high - low))
        drawn.set_xlabel("seconds from the start of the run")
        drawn.set_ylabel(_of_streams(names))
        drawn.set_title(title or "Without deliveries at a change of hosts")
        causes = [cause for cause in _CAUSES if (streams["cause"] == cause).any()]
        if axes is None:
            style.key(drawn, 5, more=[_bar_of(cause) for cause in causes])
    return figure


# The colour of an outage by its cause, and the words for it.
_CAUSES = {
    "host": ("#9ec5e8", "by the host"), "own power": (style.OFF, "the source had no power itself"),
    "no packet": (style.GROUND, "the source had no packet"),
}  # fmt: skip


def _bar_of(cause: str) -> Patch:
    colour, words = _CAUSES[cause]
    return Patch(facecolor=colour, edgecolor=style.PALE, label=words, hatch=None if cause == "host" else "////")


def _by_cause(streams: pd.DataFrame) -> list[tuple[Any, int]]:
    """The streams, those with an outage by the host first."""
    order = {cause: place for place, cause in enumerate(_CAUSES)}
    worst: dict[tuple[Any, int], int] = {}
    for row in streams.itertuples():
        key = (row.source, row.stream)
        worst[key] = min(worst.get(key, len(order)), order[str(row.cause)])
    return sorted(worst, key=lambda key: (worst[key], key))


def _outage(drawn: Axes, row: Any, place: int, low: float, high: float) -> None:
    start, end = row.last_delivery_seconds, row.first_delivery_seconds
    known = start if not np.isnan(start) else low
    # An outage that no delivery ends lasts to the end of the run.
    until = end if not np.isnan(end) else known + row.outage_seconds if row.outage_seconds > 0 else high
    hatch = None if row.cause == "host" else "////"
    drawn.barh(place, until - known, 0.6, known, color=_CAUSES[str(row.cause)][0], edgecolor=style.RECEIVES if row.cause == "host" else
               style.PALE, linewidth=0.6, zorder=2, hatch=hatch)  # fmt: skip
    if np.isnan(end):
        words = {"host": "not back", "own power": "no power", "no packet": "no packet"}[str(row.cause)]
    else:
        words = "never before" if np.isnan(start) else f"{end - start:.0f} s"
    if np.isnan(end):
        drawn.plot(until, place, ">", color=style.INK, markersize=6, markeredgewidth=0, zorder=3)
    drawn.annotate(words, (until, place), (7, 0), textcoords="offset points", fontsize=8, va="center", zorder=3)


def _require(table: pd.DataFrame, *names: str) -> None:
    """Raises `ValueError` where a table has not these columns, or no rows."""
    missing = [name for name in names if name not in table]
    if missing:
        raise ValueError(f"the table has no column {', '.join(missing)}")
    if table.empty:
        raise ValueError("the table has no rows, so there is nothing to draw")
