"""What the page is given of Python: the keys of plan files, with their ranges and meanings, so that nothing of them is said twice.

Tested, not proved.
"""

from __future__ import annotations

from typing import Any

from ..plan import words
from ..plan.model import Event
from ..plan.reading import ROWS, SINGLE
from ..plan.schema import REQUIRED, Named, keys


def schema() -> dict[str, Any]:
    """The tables of plan files and their keys, as JSON has them."""
    return {
        "single": {name: [_key(named) for named in keys(kind)] for name, kind in SINGLE.items()},
        "rows": {name: [_key(named) for named in keys(kind)] for name, kind in ROWS.items()},
        "capacities": words.CAPACITIES,
    }


def event() -> dict[str, Any]:
    """An event without anything given, of which the page makes failures."""
    return {named.key.name: named.default for named in keys(Event)}


def _key(named: Named) -> dict[str, Any]:
    told = named.key
    return {
        "name": told.name, "kind": told.kind, "about": told.about, "unit": told.unit, "low": told.low, "high": told.high, "above": told.above,
        "choices": list(told.choices), "aliases": list(told.aliases), "required": told.required,
        "reserved": list(words.RESERVED) if told.kind == "name" else [],
        "default": None if named.default is REQUIRED else named.default,
    }  # fmt: skip
