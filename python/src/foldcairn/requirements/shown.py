"""Verdicts in words and as a table for people. Tested, not proved."""

from __future__ import annotations

from collections.abc import Mapping
from typing import Any

import pandas as pd

from .judging import IMPOSSIBLE, MET, NOT_DECIDED, NOT_MET

_PARTS = ("of packets", "of draws")


def number(value: Any, unit: str) -> str:
    """A value in its unit: a part in percent."""
    if pd.isna(value):
        return "-"
    return f"{_percent(value)} %" if unit in _PARTS else f"{value:.3g} {unit}"


def _percent(part: float) -> str:
    """A part in percent; near 1 by more digits, since 99.9 % is what many ask for."""
    return f"{100 * part:.{6 if 0.9989 < part < 1 else 4}g}"


def interval(row: Mapping[str, Any]) -> str:
    """The interval of a verdict."""
    if pd.isna(row["low"]):
        return "-"
    if row["unit"] in _PARTS:
        return f"{_percent(row['low'])} to {_percent(row['high'])} %"
    return f"{row['low']:.3g} to {row['high']:.3g} {row['unit']}"


def sentence(row: Mapping[str, Any]) -> str:
    """A verdict in a sentence, without what would help."""
    wanted = number(row["wanted"], row["unit"])
    if row["verdict"] == IMPOSSIBLE:
        return f"impossible: {wanted} {row['unit'] if row['unit'] in _PARTS else ''}".rstrip() + " can't be had"
    of = f" {row['unit']}" if row["unit"] in _PARTS else ""
    return (
        f"{row['verdict']}: {number(row['value'], row['unit'])}{of} ({interval(row)}) where {wanted} is wanted; worst {row['worst']}, {row['draws']} draws, "
        f"{row['packets']:,} packets"
    )


def table(verdicts: pd.DataFrame) -> str:
    """The table of `verdicts` for a terminal, then what would help, and how many are met."""
    rows = verdicts.to_dict("records")
    columns = {
        "requirement": [row["requirement"] for row in rows], "when": [row["when"] for row in rows], "verdict": [row["verdict"] for row in rows],
        "value": [number(row["value"], row["unit"]) for row in rows], "interval": [interval(row) for row in rows],
        "wanted": [number(row["wanted"], row["unit"]) for row in rows],
        "of": [row["unit"].removeprefix("of ") if row["unit"] in _PARTS else "" for row in rows],
        "worst": [row["worst"] or "-" for row in rows], "draws": [f"{row['draws']:,}" for row in rows], "packets": [f"{row['packets']:,}" for row in rows],
    }  # fmt: skip
    widths = [max(map(len, [name, *cells])) for name, cells in columns.items()]
    listed = [list(columns), *zip(*columns.values())]
    shown = ["  ".join(cell.ljust(width) for cell, width in zip(line, widths)).rstrip() for line in listed]
    helps = [f"{row['requirement']}: {row['helps']}" for row in rows if row["helps"]]
    counts = [f"{count} {verdict}" for verdict in (MET, NOT_MET, NOT_DECIDED, IMPOSSIBLE) if (count := sum(row["verdict"] == verdict for row in rows))]
    return "\n".join([*shown, "", *helps, *([""] if helps else []), f"of {len(rows)} requirement{'s' * (len(rows) > 1)}: {', '.join(counts)}", ""])
