"""What a search has found, in words and as a table for people. Tested, not proved."""

from __future__ import annotations

import math
from collections import Counter
from typing import Any

from . import space
from .found import Found
from .results import VERDICTS

# How many rows a terminal gets; files have all of them.
ROWS_MOST = 20


def table(found: Found) -> str:
    """The first rows of the table for a terminal, then the best, what limits it, and how many settings there were."""
    rows = found.table.to_dict("records")
    words = list(found.setting)
    columns = {word: [space.shown_value(row[word]) for row in rows] for word in words}
    columns |= {
        "verdict": [row["verdict"] for row in rows], "fails first": [row["requirement"] or "-" for row in rows],
        "life": [_years(row["life_years"], row["life_low"], row["life_high"]) for row in rows],
        "margin %": [_points(row["margin"], row["margin_low"], row["margin_high"]) for row in rows],
        "of": [row["worst"] or "-" for row in rows], "draws": [f"{row['draws']:,}" for row in rows],
    }  # fmt: skip
    kept = {name: [name, *cells[:ROWS_MOST]] for name, cells in columns.items()}
    widths = {name: max(map(len, cells)) for name, cells in kept.items()}
    shown = ["  ".join(cell.ljust(width) for cell, width in zip(line, widths.values())).rstrip() for line in zip(*kept.values())]
    more = [f".. and {len(rows) - ROWS_MOST:,} more"] if len(rows) > ROWS_MOST else []
    counts = Counter(row["verdict"] for row in rows)
    told = ", ".join(f"{counts[verdict]:,} {verdict}" for verdict in VERDICTS if counts[verdict])
    return "\n".join([*shown, *more, "", *sentences(found), "", f"of {len(rows):,} setting{'s' * (len(rows) > 1)}: {told}", ""])


def sentences(found: Found) -> list[str]:
    """The best, and what limits it."""
    what = {0: "the best that meets all requirements", 11: "the best, of which that is not decided", 10: "none meets all requirements; the nearest"}
    return [f"{what[found.status]}: {space.shown(found.setting)}", *found.limits]


def _years(value: Any, low: Any, high: Any) -> str:
    """A life with its interval, where there is one."""
    if value is None or math.isnan(value):
        return "-"
    ends = "" if math.isinf(high) else f" ({low:.3g} to {high:.3g})"
    return f"{value:.3g} years{ends}"


def _points(value: Any, low: Any, high: Any) -> str:
    """A margin in points of percent with its interval, where that says anything."""
    if value is None or math.isnan(value):
        return "-"
    ends = "" if high - low >= 1 else f" ({100 * low:+.3g} to {100 * high:+.3g})"
    return f"{100 * value:+.3g}{ends}"
