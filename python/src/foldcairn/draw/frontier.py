"""The picture of a search: the battery life of each setting against the margin of its worst share of packets. `plot` has all pictures in one place.

Tested, not proved.
"""

from __future__ import annotations

from typing import Any

import numpy as np
import pandas as pd
from matplotlib.axes import Axes
from matplotlib.figure import Figure
from matplotlib.ticker import FuncFormatter, NullLocator

from ..requirements.judging import MET, NOT_DECIDED, NOT_MET
from ..search.found import Found
from ..search.results import OUTDONE
from ..search.space import shown
from . import style

# How each verdict is drawn: its sign, its size and its colour.
_SIGNS = {
    NOT_MET: ("x", 22.0, style.PALE), OUTDONE: ("o", 16.0, style.RANKS[3]), NOT_DECIDED: ("D", 34.0, style.PURPOSES[3]), MET: ("o", 46.0, style.RANKS[1]),
}  # fmt: skip
# Margins are linear within this part about 0, a hundredth of the packets, and logarithmic beyond.
_LINEAR = 0.01
_WIDE = 0.1


def search(found: Found, *, title: str | None = None, axes: Axes | None = None) -> Figure:
    """The life of each setting that was run, in years, against its margin.

    The margin is by how much the worst share of packets is above what is wanted, in points of percent: right of the line at 0 all shares are as
    they are wanted. The signs say what became of each setting, and the first of the table has its name. Bars are intervals of the shares that
    were verified.

    Parameters
    ----------
    found : Found
        What `planning.search` gives.
    title : str, optional
        The title, in place of "Settings by battery life and margin".
    axes : matplotlib.axes.Axes, optional
        Where it is drawn, as a part of their figure.

    Returns
    -------
    matplotlib.figure.Figure
        The picture, or the figure of `axes`.

    Raises
    ------
    ValueError
        Where no setting was run, or no requirement is one of packets.
    """
    table = found.table.dropna(subset=["margin"])
    table = table[np.isfinite(table["life_years"])]
    if not len(table):
        raise ValueError("no setting has both a life and a share of packets: none was run, or no requirement is one of packets")
    margin = table["margin"].to_numpy(dtype=np.float64)
    with style.settings():
        figure, drawn = style.axes(7.6, 4.6, axes)
        drawn.axvline(0, color=style.INK, linewidth=0.9, zorder=1)
        for verdict, (sign, size, colour) in _SIGNS.items():
            _points(drawn, table[table["verdict"] == verdict], verdict, sign, size, colour)
        is_wide = bool(np.abs(margin).max() > _WIDE)
        if is_wide:
            drawn.set_xscale("symlog", linthresh=_LINEAR, linscale=1.2)
        drawn.xaxis.set_major_formatter(FuncFormatter(lambda value, _: f"{100 * value:+g}" if value else "0"))
        drawn.xaxis.set_minor_locator(NullLocator())
        drawn.set_ylim(bottom=0, top=1.12 * float(table["life_years"].max()))
        drawn.grid(color=style.FAINT, linewidth=0.5)
        drawn.set_axisbelow(True)
        drawn.set_xlabel("worst share of packets above what is wanted, in points of percent" + (", logarithmic beyond 1" if is_wide else ""))
        drawn.set_ylabel("years until the first battery is empty")
        drawn.set_title(title or "Settings by battery life and margin")
        _name_first(drawn, found, table)
        style.key(drawn, len(_SIGNS), below=0.62)
    return figure


def _points(drawn: Axes, table: pd.DataFrame, verdict: str, sign: str, size: float, colour: str) -> None:
    """The settings with a verdict; those that were verified with their intervals."""
    if not len(table):
        return
    edge: dict[str, Any] = {"linewidths": 1.1} if sign == "x" else {"edgecolors": style.GROUND, "linewidths": 0.6}
    drawn.scatter(table["margin"], table["life_years"], s=size, marker=sign, color=colour, label=f"{verdict} ({len(table)})", zorder=3, **edge)
    if verdict in (MET, NOT_DECIDED):
        ends = np.abs(table[["margin_low", "margin_high"]].to_numpy(dtype=np.float64).T - table["margin"].to_numpy(dtype=np.float64))
        drawn.errorbar(table["margin"], table["life_years"], xerr=ends, fmt="none", ecolor=colour, elinewidth=1.0, capsize=2.5, zorder=2)


def _name_first(drawn: Axes, found: Found, table: pd.DataFrame) -> None:
    """The name of the first setting of the table, above its point and within the picture."""
    first = table.iloc[0]
    low, high = drawn.get_xlim()
    place = drawn.transData.transform((float(first["margin"]), 0))[0]
    is_right = place > drawn.transData.transform((low, 0))[0] / 2 + drawn.transData.transform((high, 0))[0] / 2
    drawn.annotate(
        shown(found.setting), (float(first["margin"]), float(first["life_years"])), (-4 if is_right else 4, 8), textcoords="offset points",
        ha="right" if is_right else "left", va="bottom", fontsize=8, color=style.INK, zorder=4,
    )  # fmt: skip
