"""What all answers about a run share: they take a `results.Log`, some any `results.Report`, are worked out once for each, and a
column has the same type in each of their tables, also in empty ones. Tested, not proved."""

from __future__ import annotations

import functools
from collections.abc import Callable, Hashable
from typing import TYPE_CHECKING, Any, TypeVar, cast

import pandas as pd

from ..common import arguments
from ..runs import required
from .schema import WHOLE

if TYPE_CHECKING:
    from ..runs.results import Report

Call = TypeVar("Call", bound=Callable[..., Any])

def answer(call: Call) -> Call:
    """Makes a call that takes a log raise `arguments.ArgumentError` where it is given something else, keep what it gives for
    the same log, receivers of its scenario and arguments, and give tables with the types of `typed`. What it gives is the caller's own,
    and of an iterator it gets a list."""
    return _answering(call, required.require_log)


def report_answer(call: Call) -> Call:
    """The same for a call that takes any `results.Report`, also one without a log."""
    return _answering(call, required.require_report)


def _answering(call: Call, require: Callable[[str, Any], None]) -> Call:
    @functools.wraps(call)
    def answered(log: Report, *rest: Any, **named: Any) -> Any:
        require(call.__name__, log)
        rest, named = tuple(map(arguments.settled, rest)), arguments.settled(named)
        kept: dict[Hashable, Any] = log.__dict__.setdefault("_answers", {})
        # What of its scenario may still be said after the run: for whom packets are meant, and which of them count.
        meant = repr(log.scenario.receivers), frozenset(log.scenario.keep_alive)
        key = (call.__module__, call.__name__, rest, tuple(sorted(named.items())), meant)
        found = kept[key] if _is_hashable(key) and key in kept else call(log, *rest, **named)
        if not isinstance(found, pd.DataFrame):
            return found
        table = typed(found)
        if _is_hashable(key):
            kept[key] = table
        return table.copy()

    return cast(Call, answered)


def _is_hashable(key: Hashable) -> bool:
    """Whether a call can be kept by its arguments: a list among them has no hash."""
    try:
        hash(key)
    except TypeError:
        return False
    return True


def typed(table: pd.DataFrame) -> pd.DataFrame:
    """The table with its ids and counts as int64, also in its index, and its times and ratios as float64.

    pandas gives columns and indices without rows, and those of joins, other types.
    """
    types = {}
    for name, dtype in table.dtypes.items():
        if name in WHOLE and dtype not in ("bool", "int64"):
            types[name] = "int64"
        elif dtype == "object" and str(name).endswith("_seconds"):
            types[name] = "float64"
    if types:
        table = table.astype(types)
    if isinstance(table.index, pd.MultiIndex):
        table.index = table.index.set_levels(
            [level.astype("int64") if level.name in WHOLE else level for level in table.index.levels]
        )
    elif table.index.name in WHOLE:
        table.index = table.index.astype("int64")
    elif table.empty and table.index.name is None:
        table = table.reset_index(drop=True)
    return table
