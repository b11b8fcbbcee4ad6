"""One cell of a table of nodes, links or streams: whether it is given, and the number, the id, the name or the time that it has.

A number that is not spelled as numbers are is none, since it may be a name: `007`, `4E1`, `1_0`. Tested, not proved.
"""

from __future__ import annotations

import contextlib
import datetime
import math
import re
from typing import Any

import pandas

from ..common.arguments import ArgumentError, index

# What stands in cells for "not given", in any case.
_NONE = frozenset({"n/a", "na", "nan", "null", "none", "#n/a", "<na>"})
_NUMBER = re.compile(r"[+-]?(\d+\.?\d*|\.\d+)([eE][+-]?\d+)?", re.ASCII)
# As pandas writes ids of a column that had gaps, too.
_ID = re.compile(r"(0|[1-9]\d*)(\.0*)?", re.ASCII)


def is_blank(value: Any) -> bool:
    """Whether a cell has nothing in it."""
    return value is None or value is pandas.NaT or value is pandas.NA or value != value or (isinstance(value, str) and not value.strip())


def is_given(value: Any) -> bool:
    """Whether a cell has a value: it is neither blank, nor one of the words for that, as `n/a`."""
    return not is_blank(value) and not (isinstance(value, str) and value.strip().casefold() in _NONE)


def number(value: Any) -> Any:
    """The number of a text that is one, else the value as it is."""
    text = value.strip() if isinstance(value, str) else ""
    if not _NUMBER.fullmatch(text):
        return value
    return int(text) if text.lstrip("+-").isdecimal() else float(text)


def name(value: Any) -> str:
    """A cell as a name: its text, with one blank in place of several, as texts of scenarios keep it; of a whole number its digits."""
    whole = None if isinstance(value, str) else index(value)
    return " ".join(str(value if whole is None else whole).split())


def plain_id(value: Any) -> int | None:
    """The number of a cell that is an id as ids are spelled, or None."""
    if isinstance(value, str):
        return int(value.strip().split(".")[0]) if _ID.fullmatch(value.strip()) else None
    return index(value)


def numeral(value: Any) -> int | None:
    """The whole number that a text may be taken for, however it is spelled, or None."""
    text = str(value).strip()
    with contextlib.suppress(ValueError):
        found = float(text)
        return int(found) if math.isfinite(found) and found == int(found) else None
    with contextlib.suppress(ValueError):
        return int(text, 0)
    return None


def an_id(column: str, value: Any) -> Any:
    """The id of a cell as a number, or the cell as it is where it is none. Raises `ArgumentError` where it may be taken for a number and
    is not spelled as one."""
    found = plain_id(value)
    if found is None and isinstance(value, str) and (other := numeral(value)) is not None:
        raise ArgumentError(
            f"`{column}` is {value!r}, which may be the number {other} or a name; write {other}, or a name that is no number, as n{value.strip()}"
        )
    return value if found is None else found


def stamp(column: str, value: Any) -> datetime.datetime:
    """The time of a cell, which has a date. Raises `ArgumentError` where it is none."""
    if isinstance(value, datetime.datetime):
        return value
    if index(number(value)) is not None or isinstance(number(value), float):
        raise ArgumentError(
            f"`{column}` is {value}, a number; name the column `seconds` if it counts from the start of the run, or `frame`, and write a time as "
            "2026-01-31 14:05:00"
        )
    try:
        return datetime.datetime.fromisoformat(str(value).strip())
    except ValueError as error:
        raise ArgumentError(f"`{column}` is {value!r}, and has to be a date and a time, as 2026-01-31 14:05:00") from error
