"""Writes a plan as TOML, with the comments of the text that it was read from, and its CSV files. What did not change stays as it was written.

Tested, not proved.
"""

from __future__ import annotations

from collections.abc import Sequence
from typing import TYPE_CHECKING, Any

import tomlkit
from tomlkit.items import AoT

from . import values
from .model import Row, Stream
from .reading import ROWS, SINGLE
from .schema import Named, keys

if TYPE_CHECKING:
    from .plan import Plan

# The fields of a plan that have the tables of a file.
_FIELDS = {
    "plan": "settings", "floor": "floor", "losses": "losses", "battery": "battery", "node": "nodes", "link": "links", "stream": "streams",
    "host": "hosts", "event": "events", "requirement": "requirements", "search": "search",
}  # fmt: skip


def rows_of(plan: Plan, table: str) -> list[Any]:
    """The rows of a table of a plan."""
    found = getattr(plan, _FIELDS[table])
    return list(found.values() if isinstance(found, dict) else found)


def text(plan: Plan, outside: Sequence[str] = ()) -> str:
    """The TOML of a plan; the tables `outside` are in CSV files, which [tables] names, and all others in the text."""
    document = tomlkit.parse(plan.source.text) if plan.source is not None else tomlkit.document()
    if not outside and "tables" in document:
        document.remove("tables")
    for name in SINGLE:
        _single(document, name, getattr(plan, _FIELDS[name]))
    below = [_listed(plan, document, name, rows_of(plan, name)) for name in ROWS if name not in outside]
    above = tomlkit.dumps(document)
    return (above + "".join(below)).lstrip("\n") if above.endswith("\n") or not above else above + "\n" + "".join(below)


def left_out(plan: Plan, row: Any, named: Named, value: Any) -> bool:
    """Whether a key need not be written, since what is read without it has the same value."""
    if isinstance(row, Stream) and named.field == "name":
        return bool(value == (row.source if row.number == 0 else f"{row.source}/{row.number}"))
    if isinstance(row, Stream) and named.field == "number":
        return value == 0 and sum(one.source == row.source for one in plan.streams.values()) == 1
    return bool(value == named.default)


def _single(document: Any, name: str, one: Any) -> None:
    if name in document:
        _update(None, document[name], one)
    elif given := _given(None, one):
        document[name] = _table(given)


def _given(plan: Plan | None, row: Any) -> dict[str, Any]:
    """The keys that have to be written, with their values."""
    found = ((named, getattr(row, named.field)) for named in keys(type(row)))
    return {named.key.name: value for named, value in found if not (value == named.default if plan is None else left_out(plan, row, named, value))}


def _table(given: dict[str, Any]) -> Any:
    made = tomlkit.table()
    for key, value in given.items():
        made.add(key, _toml(value))
    return made


def _shown(name: str, given: dict[str, Any]) -> str:
    """The lines of a new row. tomlkit makes them too, and takes a second for a thousand."""
    return f"\n[[{name}]]\n" + "".join(f"{key} = {_spelled(value)}\n" for key, value in given.items())


def _spelled(value: Any) -> str:
    if isinstance(value, list):
        return f"[{', '.join(map(_spelled, value))}]"
    if isinstance(value, (int, float)) and not isinstance(value, bool):
        return repr(value)
    found: str = _toml(value).as_string()
    return found


def _toml(value: Any) -> Any:
    """A value as TOML has it. A mapping stays on its line."""
    if isinstance(value, dict):
        made = tomlkit.inline_table()
        made.update(value)
        return made
    return tomlkit.item(value)


def _update(plan: Plan | None, table: Any, row: Any) -> None:
    """Lets a table have the values of a row; what has them already stays as it is written."""
    for named in keys(type(row)):
        name, value = named.key.name, getattr(row, named.field)
        if name in table:
            if _taken(named, table[name]) == value:
                continue
            if value == named.default:
                table.remove(name)
            else:
                table[name] = _toml(value)
        elif not (value == named.default if plan is None else left_out(plan, row, named, value)):
            _add(table, name, _toml(value))


def _taken(named: Named, item: Any) -> Any:
    """What is read of an item, or the default where it is not known."""
    value = item.unwrap() if hasattr(item, "unwrap") else item
    if isinstance(value, str) and values.is_unknown(value) and named.key.kind in ("real", "whole"):
        return named.default
    return values.take(named.key, value)


def _add(table: Any, name: str, value: Any) -> None:
    """Adds a key below the others, above the comments and blank lines that belong to what follows."""
    body = table.value.body
    below: list[Any] = []
    while body and body[-1][0] is None:
        below.insert(0, body.pop())
    table.add(name, value)
    body.extend(below)


def _listed(plan: Plan, document: Any, name: str, rows: list[Row]) -> str:
    """Lets a list of tables have these rows: in place where their order is the old one with some gone and some at the end, else anew. What
    stands below the document then, where it had no such list, is given back."""
    old = document.get(name)
    if old is None:
        return "".join(_shown(name, _given(plan, row)) for row in rows)
    if not rows:
        document.remove(name)
    elif isinstance(old, AoT) and _is_in_order(rows):
        _in_place(plan, old, rows)
    else:
        document[name] = _list(_anew(plan, list(old), rows))
    return ""


def _list(tables: list[Any]) -> AoT:
    made = tomlkit.aot()
    for one in tables:
        made.append(one)
    return made


def _place(row: Row) -> int | None:
    """Which row of the text it was."""
    return row.origin[1] if row.origin is not None and row.origin[0] == "" else None


def _is_in_order(rows: list[Row]) -> bool:
    places = [_place(row) for row in rows]
    kept = [place for place in places if place is not None]
    return places[: len(kept)] == kept and all(one < other for one, other in zip(kept, kept[1:]))


def _in_place(plan: Plan, old: AoT, rows: list[Row]) -> None:
    by_place = {_place(row): row for row in rows}
    for place in reversed(range(len(old))):
        if place in by_place:
            _update(plan, old[place], by_place[place])
        else:
            del old[place]
    for row in rows:
        if _place(row) is None:
            old.append(_table(_given(plan, row)))


def _anew(plan: Plan, old: list[Any], rows: list[Row]) -> list[Any]:
    found, used = [], set()
    for row in rows:
        place = _place(row)
        is_kept = place is not None and place < len(old) and place not in used and isinstance(old[place], tomlkit.items.Table)
        used.add(place)
        if is_kept and place is not None:
            _update(plan, old[place], row)
        found.append(old[place] if is_kept and place is not None else _table(_given(plan, row)))
    return found
