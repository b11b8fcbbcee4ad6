"""Tables as files for other tools, by the ending of the file: CSV, JSON, Excel, Parquet, and the line protocol of InfluxDB and Grafana.

    from foldcairn import planning, report

    report.save(planning.tables(log), "hall.xlsx")

Each table has its name in each of them: that of a file, a key, a sheet, or a measurement. Tested, not proved.
"""

from __future__ import annotations

import importlib.util
import io
import os
from collections.abc import Callable, Mapping
from dataclasses import dataclass
from pathlib import Path
from typing import Any

import numpy as np
import pandas as pd

from ..answers import schema
from ..common import files
from ..common.arguments import ArgumentError, did_you_mean
from ..common.visible import csv, visible
from . import report

Tables = Mapping[str, pd.DataFrame]

# What a sheet of Excel has room for, with the names of its columns.
_ROWS_MOST = 1_048_575
_WIDTH_LEAST, _WIDTH_MOST = 8, 60
# Columns that tell the rows of a table apart: the tags of the line protocol. All others are fields.
TAGS = frozenset({*schema.IDS, *schema.EVERYWHERE, "requirement", "when", "plan", "answer", "file", "seed", "failed", "candidate", "setting"})
_ROW, _PLAN = "row", "plan"


@dataclass(frozen=True)
class _About:
    """What is told beside the tables: the versions that they depend on, the seed of one draw, and what the plan is called."""

    versions: Mapping[str, str]
    seed: int | None
    name: str


def save(
    tables: Tables, path: str | os.PathLike[str], *, versions: Mapping[str, str] | None = None, seed: int | None = None, name: str = ""
) -> list[Path]:  # fmt: skip
    """Writes tables by the ending of a path, all files or none of them.

    | ending | what is written |
    |---|---|
    | .csv, .parquet | a file for each table: FILE-TABLE.csv, or FILE.csv if there is one table |
    | .json | an object with `versions`, `seed` if there is one, and for each table a list with an object a row |
    | .xlsx | a sheet for each table, and one with the versions |
    | .lp | a line for each row: the table is the measurement, what tells rows apart are the tags, with `name` as the tag `plan`, and the rest are the fields |

    Lines of .lp have no times, so what reads them takes its own. Parquet needs the module pyarrow, and Excel openpyxl. A text that a spreadsheet
    would take for a formula stays a text.

    Parameters
    ----------
    tables : mapping
        By name each table.
    path : path
        The file; folders that are missing are made.
    versions : mapping, optional
        The versions of the package and the programs, by name.
    seed : int, optional
        The seed of one draw.
    name : str
        The name of the plan.

    Returns
    -------
    list of pathlib.Path
        The paths of the files.

    Raises
    ------
    ArgumentError
        Where the ending is another one, a table is too long or a module is missing.
    OSError
        Where a file can't be written.
    """
    target = Path(path)
    kind = format_of(target)
    about = _About(versions or {}, seed, name)
    if kind in _EACH and len(tables) > 1:
        contents = {target.with_name(f"{target.stem}-{one}{target.suffix}"): _EACH[kind](table) for one, table in tables.items()}
    elif kind in _EACH:
        contents = {target: _EACH[kind](table) for table in tables.values()}
    else:
        contents = {target: _WHOLE[kind](tables, about)}
    files.write_all(contents)
    return list(contents)


def format_of(path: Path) -> str:
    """The ending of a path. Raises `ArgumentError` where tables have no such files, or what writes them is missing."""
    kind = path.suffix.lower()
    if kind not in FORMATS:
        raise ArgumentError(f"{path}: the ending of a file of tables is one of {', '.join(FORMATS)}, not {kind or 'none'}{did_you_mean(kind, FORMATS)}")
    module = _NEEDS.get(kind, "")
    if module and importlib.util.find_spec(module) is None:
        raise ArgumentError(f"{path}: files {kind} need the module {module}: {_INSTALLED[module]}")
    return kind


def _plain(value: Any) -> Any:
    """A cell as files have it: a number, a truth, a text without control characters, or None where it is missing."""
    if isinstance(value, (bool, np.bool_)):
        return bool(value)
    if isinstance(value, (int, np.integer)):
        return int(value)
    if isinstance(value, (float, np.floating)):
        return float(value) if np.isfinite(value) else None
    if value is None or value is pd.NA or value is pd.NaT:
        return None
    return visible(str(value))


def _parquet(table: pd.DataFrame) -> bytes:
    """A table for pandas, DuckDB and others; columns of words are texts."""
    words = table.select_dtypes(include=["object", "category"]).columns
    plain = table.reset_index(drop=True).assign(**{one: table[one].map(_plain).astype("string").to_numpy() for one in words})
    written = io.BytesIO()
    plain.set_axis([str(one) for one in table.columns], axis="columns").to_parquet(written, engine="pyarrow", index=False)
    return written.getvalue()


def _json(tables: Tables, about: _About) -> bytes:
    return report.as_json(dict(tables), dict(about.versions), about.seed).encode()


def _excel(tables: Tables, about: _About) -> bytes:
    """A workbook; each sheet has the names of its columns at the top, which stay in sight."""
    from openpyxl import Workbook

    book = Workbook(write_only=True)
    told: dict[str, Any] = {**about.versions, **({} if about.seed is None else {"seed": about.seed})}
    for name, table in {**tables, "versions": pd.DataFrame({"of": list(told), "is": [str(one) for one in told.values()]})}.items():
        _fill(book, name, table)
    written = io.BytesIO()
    book.save(written)
    return written.getvalue()


def _fill(book: Any, name: str, table: pd.DataFrame) -> None:
    """Adds a sheet."""
    from openpyxl.cell import WriteOnlyCell
    from openpyxl.styles import Font
    from openpyxl.utils import get_column_letter

    if len(table) > _ROWS_MOST:
        raise ArgumentError(f"the table {name} has {len(table):,} rows, and a sheet has room for {_ROWS_MOST:,}: save it as .csv or .parquet")
    sheet = book.create_sheet(name)
    sheet.freeze_panes = "A2"
    rows = [[_plain(value) for value in row] for row in table.itertuples(index=False, name=None)]
    for place, column in enumerate(table.columns):
        longest = max([len(str(column)), *(len(str(row[place])) for row in rows[:1_000])])
        sheet.column_dimensions[get_column_letter(place + 1)].width = min(_WIDTH_MOST, max(_WIDTH_LEAST, longest + 2))

    def cell(value: Any, bold: bool = False) -> Any:
        """A text is one, whatever it begins with."""
        if not isinstance(value, str):
            return value
        made = WriteOnlyCell(sheet, value)
        made.data_type, made.font = "s", Font(bold=bold)
        return made

    sheet.append([cell(visible(str(column)), True) for column in table.columns])
    for row in rows:
        sheet.append([cell(value) for value in row])


def _lines(tables: Tables, about: _About) -> bytes:
    """The line protocol of InfluxDB."""
    return "".join(f"{line}\n" for name, table in tables.items() for line in _of_table(name, table, about.name)).encode()


def _of_table(name: str, table: pd.DataFrame, plan: str) -> list[str]:
    """The lines of a table. Rows with the same tags would replace each other, so they are numbered then."""
    columns = [str(column) for column in table.columns]
    tags = [column for column in columns if column in TAGS]
    several = bool(table.duplicated(tags).any()) if tags else len(table) > 1
    whole = {str(column): table[column].dtype.kind in "iu" or str(table[column].dtype).startswith(("Int", "UInt")) for column in table.columns}
    found = []
    for number, row in enumerate(table.itertuples(index=False, name=None)):
        cells = dict(zip(columns, map(_plain, row)))
        told: dict[str, Any] = {**({_PLAN: plan} if plan else {}), **{one: cells[one] for one in tags}, **({_ROW: number} if several else {})}
        tagged = "".join(f",{_key(one)}={_key(value)}" for one, value in told.items() if value not in (None, ""))
        fields = [f"{_key(one)}={_field(value, whole[one])}" for one, value in cells.items() if one not in told and value is not None]
        if fields:
            found.append(f"{_key(name, '')}{tagged} {','.join(fields)}")
    return found


def _key(value: Any, more: str = "=") -> str:
    """A name or a tag, in which blanks, commas and signs that mean something have a backslash before them."""
    text = str(value).replace("\n", " ").replace("\t", " ").replace("\\", "\\\\")
    for sign in (",", " ", *more):
        text = text.replace(sign, f"\\{sign}")
    return text


def _field(value: Any, is_whole: bool) -> str:
    """A value; each column is of one kind in all rows, whatever is missing."""
    if isinstance(value, bool):
        return "true" if value else "false"
    if isinstance(value, (int, float)):
        return f"{int(value)}i" if is_whole else repr(float(value))
    escaped = value.replace("\\", "\\\\").replace('"', '\\"').replace("\n", " ")
    return f'"{escaped}"'


_EACH: dict[str, Callable[[pd.DataFrame], bytes]] = {".csv": lambda table: csv(table).encode(), ".parquet": _parquet}
_WHOLE: dict[str, Callable[[Tables, _About], bytes]] = {".json": _json, ".xlsx": _excel, ".lp": _lines}
FORMATS = (".csv", ".json", ".xlsx", ".parquet", ".lp")
_NEEDS = {".parquet": "pyarrow", ".xlsx": "openpyxl"}
_INSTALLED = {
    "openpyxl": "apt-get install python3-openpyxl, or pip install openpyxl",
    "pyarrow": "pip install pyarrow (Debian 12 has no package of it)",
}
