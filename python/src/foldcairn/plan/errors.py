"""What is wrong with a plan: the file, the line or the row, the key, the value, its range and the nearest known name.

Tested, not proved.
"""

from __future__ import annotations

from collections.abc import Iterable, Sequence
from typing import TYPE_CHECKING, Any

from ..common.arguments import did_you_mean
from ..model.scenario import ScenarioError

if TYPE_CHECKING:
    from .plan import Plan

__all__ = ["PlanError", "at", "known", "listed"]

# How many known names a message has at most.
_SHOWN_MOST = 8


class PlanError(ScenarioError):
    """A plan that is none; the message says where it is wrong, what it has there, the range, and the nearest known name.

    `where` is the place, as "plan.toml, line 12, [[node]], row 3", and `what` what is wrong.
    """

    def __init__(self, where: str, what: str) -> None:
        super().__init__(f"{where}: {what}" if where else what)
        self.where = where
        self.what = what

    def __reduce__(self) -> tuple[type[PlanError], tuple[str, str]]:
        return type(self), (self.where, self.what)


def at(plan: Plan, table: str, row: Any = None) -> str:
    """Where a table, or one of its rows, is in words; a row that was not read from a file has its name."""
    if getattr(row, "where", ""):
        return str(row.where)
    shown = f"[{table}]" if row is None or table in ("plan", "floor", "losses", "battery", "search") else f"[[{table}]] {getattr(row, 'name', '')}".rstrip()
    return f"{plan.path or 'the plan'}, {shown}"


def known(where: str, key: str, names: Iterable[str], there: Iterable[str], kind: str = "node") -> None:
    """Raises `PlanError` where a key names what is not there."""
    known_names = list(there)
    for name in names:
        if name not in known_names:
            raise PlanError(where, f"`{key}` is {name!r}, and no {kind} has this name{did_you_mean(name, known_names) or listed(known_names, kind)}")


def listed(names: Sequence[str], kind: str) -> str:
    """Which names there are, as the end of a sentence."""
    if not names:
        return f"; there is no {kind}"
    return f"; there are {', '.join(map(str, names[:_SHOWN_MOST]))}{', ..' * (len(names) > _SHOWN_MOST)}"
