"""Writes the rows of a plan that were read from CSV files back to them: with their columns and names, and more columns where they need some.

Tested, not proved.
"""

from __future__ import annotations

import csv
import io
from typing import TYPE_CHECKING, Any

from . import values
from .model import Row
from .reading import ROWS, Csv, Source
from .schema import Named, keys
from .writing import left_out, rows_of

if TYPE_CHECKING:
    from .plan import Plan

_BETWEEN = (",", ";", "\t")


def files(plan: Plan, source: Source) -> dict[str, bytes]:
    """The content of each CSV file by its name. A row that was in none is in the last one of its table."""
    found = {}
    for one in source.files:
        last = [other.name for other in source.files if other.table == one.table][-1]
        rows = [row for row in rows_of(plan, one.table) if _file(source, row, one.table, last) == one.name]
        found[one.name] = _content(plan, one, rows)
    return found


def _file(source: Source, row: Row, table: str, last: str) -> str:
    names = [one.name for one in source.files if one.table == table]
    return row.origin[0] if row.origin is not None and row.origin[0] in names else last


def _content(plan: Plan, file: Csv, rows: list[Any]) -> bytes:
    """The bytes of a file; those that it had where nothing changed."""
    by_key = {named.key.name: named for named in keys(ROWS[file.table])}
    read = {column: by_key[key] for column, key in file.columns.items()}
    more = [
        named for named in by_key.values()
        if named not in read.values() and any(not left_out(plan, row, named, getattr(row, named.field)) for row in rows)
    ]  # fmt: skip
    cells = [_cells(plan, file, row, read, more) for row in rows]
    if cells == file.cells and not more:
        return file.data
    head = [*file.head, *(named.key.name for named in more)]
    text = file.data.decode("utf-8-sig")
    sink = io.StringIO()
    writer = csv.writer(sink, delimiter=_delimiter(text), lineterminator="\r\n" if "\r\n" in text else "\n")
    writer.writerow(head)
    writer.writerows([["" if row[column] is None else row[column] for column in head] for row in cells])
    return sink.getvalue().encode()


def _delimiter(text: str) -> str:
    """What is between the cells, as `table_files` finds it."""
    first = next((line for line in text.splitlines() if line.strip()), "")
    return max(_BETWEEN, key=first.count)


def _cells(plan: Plan, file: Csv, row: Any, read: dict[str, Named], more: list[Named]) -> dict[str, str | None]:
    """The cells of a row: those that it had, as far as they say what it has now."""
    place = row.origin[1] if row.origin is not None and row.origin[0] == file.name else None
    old: dict[str, str | None] = dict(file.cells[place]) if place is not None else dict.fromkeys(file.head)
    for column, named in read.items():
        value = getattr(row, named.field)
        if _taken(named, old[column]) != value:
            old[column] = _cell(value)
    return {**old, **{named.key.name: _cell(getattr(row, named.field)) for named in more}}


def _taken(named: Named, cell: str | None) -> Any:
    """What is read of a cell, or the default where it is not given."""
    if cell is None or (named.key.kind not in values.TEXTS and values.is_unknown(cell)):
        return named.default
    return values.take(named.key, cell, True)


def _cell(value: Any) -> str | None:
    """A value as a cell has it."""
    if value is None:
        return None
    if isinstance(value, bool):
        return "true" if value else "false"
    if isinstance(value, float):
        return repr(int(value)) if value.is_integer() and abs(value) < 1e15 else repr(value)
    if isinstance(value, list):
        return values.BETWEEN.join(_cell(one) or "" for one in value) or None
    return str(value) or None
