"""What breaks where any one node fails, and what relays mend, as texts for a terminal. Tested, not proved."""

from __future__ import annotations

import math
from collections.abc import Mapping, Sequence
from typing import Any

from .failing import Failures
from .relaying import Relays

# Of how many names a cell has the first ones, and the last sentence.
_NAMED_MOST, _LISTED_MOST = 4, 12


def text(found: Failures) -> str:
    """What is asked, a row for each node whose failure breaks a requirement or cuts others off, and how many nodes there are."""
    rows = found.nodes.to_dict("records")
    told = [row for row in rows if row["breaks"] or row["cut_off"] or row["lost"]]
    columns = {
        "failed": [row["failed"] for row in told], "role": [row["role"] for row in told],
        "breaks": [row["requirements"] or "-" for row in told], "for": [few(row["whom"]) for row in told],
        "for how long": [_long(row, found) for row in told], "silent": [_silent(row) for row in told],
        "cuts off": [few(row["cut_off"]) for row in told], "without a host in draws": [few(row["lost"]) for row in told],
        "draws": [str(row["draws"]) for row in told],
    }  # fmt: skip
    return "\n".join([*found.remarks(), "", *(aligned(columns) if told else []), *([""] if told else []), *_summary(rows), ""])


def few(names: str) -> str:
    """The first of several names in a cell."""
    several = names.split("; ") if names else []
    more = f" and {len(several) - _NAMED_MOST} more" if len(several) > _NAMED_MOST else ""
    return ", ".join(several[:_NAMED_MOST]) + more or "-"


def aligned(columns: Mapping[str, Sequence[str]]) -> list[str]:
    """The lines of a table."""
    widths = [max(map(len, [name, *cells])) for name, cells in columns.items()]
    return ["  ".join(cell.ljust(width) for cell, width in zip(line, widths)).rstrip() for line in [list(columns), *zip(*columns.values())]]


def _long(row: Mapping[str, Any], found: Failures) -> str:
    if not row["breaks"]:
        return "-"
    if not math.isnan(row["broken_seconds"]):
        return f"{row['broken_seconds']:,.0f} s"
    return "to the end" if math.isinf(found.duration) else "longer than it is gone"


def _silent(row: Mapping[str, Any]) -> str:
    return "-" if math.isnan(row["silent_seconds"]) else f"{row['silent_seconds']:,.0f} s, {row['silent']}"


def _summary(rows: Sequence[Mapping[str, Any]]) -> list[str]:
    """How many nodes break something, or may."""
    breaking = [row for row in rows if row["breaks"]]
    left = [row["failed"] for row in rows if row["undecided"] and not row["breaks"]]
    told = [f"of {len(rows)} node{'s' * (len(rows) > 1)}: {len(breaking)} break{'s' * (len(breaking) == 1)} a requirement"]
    if left:
        more = ", .." if len(left) > _LISTED_MOST else ""
        told.append(f"not decided, which more draws may be (--seeds N): without {', '.join(left[:_LISTED_MOST])}{more}")
    return told


def of_relays(found: Relays) -> str:
    """What is broken, and a row for each place, those first that mend the most."""
    rows = found.places.to_dict("records")
    asked = found.requirements["requirement"].nunique()
    columns = {
        "place": [row["candidate"] for row in rows], "mends": [f"{row['mended']} of {found.broken}" for row in rows],
        "nearer by": [f"{100 * row['gain']:.0f} %" for row in rows], "requirements met": [f"{row['met']} of {asked}" for row in rows],
        "mended": [few(row["whom"]) for row in rows], "draws": [str(row["draws"]) for row in rows],
    }  # fmt: skip
    return "\n".join([*found.remarks(), *([""] if rows else []), *(aligned(columns) if rows else []), ""])
