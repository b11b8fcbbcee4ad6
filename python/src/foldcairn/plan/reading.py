"""Reads a plan file and the CSV files that it names into the tables of `model`, each value checked at its line or row.

Tested, not proved.
"""

from __future__ import annotations

import io
import os
import tomllib
from collections.abc import Callable, Mapping, Sequence
from dataclasses import dataclass, field
from pathlib import Path
from typing import Any

from ..model import lines, table_files
from ..common.arguments import ArgumentError, did_you_mean
from ..model.cells import plain_id
from . import values
from .columns import columns, plain
from .errors import PlanError
from .model import Battery, Event, Floor, Host, Link, Losses, Node, Requirement, Search, Settings, Stream
from .places import Places
from .schema import Named, keys

# The tables of a file: those that it has once, and those with a row for each.
SINGLE: dict[str, type] = {"plan": Settings, "floor": Floor, "losses": Losses, "battery": Battery, "search": Search}
ROWS: dict[str, type] = {"node": Node, "link": Link, "stream": Stream, "host": Host, "event": Event, "requirement": Requirement}
# The tables that may be CSV files, by the keys of `[tables]`.
FILES = {"nodes": "node", "links": "link", "streams": "stream"}
IGNORE = "ignore"
# In a row of a link they may be told to be not known.
_MEASURES = frozenset({"ratio", "sent", "received", "rssi"})
_NAME = "name"
_NAMES = frozenset({_NAME, "node", "label"})


@dataclass
class Csv:
    """A CSV file as it was read: the table that it is of, its name in the plan, its bytes, the names of its columns,
    the key of each that is read, and its cells."""

    table: str
    name: str
    data: bytes
    head: list[str]
    columns: dict[str, str]
    cells: list[dict[str, str | None]]


@dataclass
class Source:
    """What a plan was read from: the text of its file, how its lines end, and its CSV files."""

    text: str
    line_end: str = "\n"
    files: list[Csv] = field(default_factory=list)


@dataclass
class Reader:
    """Reads one plan, of a text, and of the file at `path` where there is one. `contents` has other files than those on the disk, by the names
    that the plan has for them."""

    path: Path | None
    text: str
    places: Places
    source: Source
    contents: Mapping[str, bytes] = field(default_factory=dict)

    @classmethod
    def of(cls, text: str, path: Path | None, contents: Mapping[str, bytes] | None = None) -> Reader:
        """The reader of a text."""
        plain = text.replace("\r\n", "\n")
        return cls(path, plain, Places.of(plain), Source(plain, "\n" if plain == text else "\r\n"), contents or {})

    @property
    def called(self) -> str:
        """What its file is called in messages."""
        return "the plan" if self.path is None else str(self.path)

    def where(self, table: str, row: int = 0, key: str = "") -> str:
        """A place of the file in words: of a table, of one of its rows, or of a key."""
        line = self.places.line(table, row or 1, key)
        shown = f"[[{table}]], row {row}" if row else f"[{table}]"
        return f"{self.called}, line {line}, {shown}" if line else f"{self.called}, {shown}"

    def tables(self) -> dict[str, Any]:
        """All tables that the file gives: an object for each of `SINGLE`, a list for each of `ROWS`. Raises `PlanError`."""
        given = self._document()
        found: dict[str, Any] = {name: self._single(name, kind, given.get(name, {})) for name, kind in SINGLE.items()}
        for name, kind in ROWS.items():
            found[name] = self._listed(name, kind, given.get(name, []))
        for file_key, names, ignored in self._files(given.get("tables", {})):
            table = FILES[file_key]
            if found[table]:
                raise PlanError(found[table][0].where, f"`[tables] {file_key}` names a file, so the plan file has no [[{table}]] of its own")
            found[table] = [one for name in names for one in self._csv(table, name, ignored, file_key)]
        return found

    def _document(self) -> dict[str, Any]:
        try:
            given = tomllib.loads(self.text)
        except tomllib.TOMLDecodeError as error:
            raise PlanError(self.called, f"it is no TOML: {error}") from error
        known = [*SINGLE, "tables", *ROWS]
        for name, value in given.items():
            if name not in known:
                raise PlanError(self.where(name), f"a plan has no table {name!r}; it has {', '.join(known)}{did_you_mean(name, known)}")
            if isinstance(value, dict) and name in ROWS:
                raise PlanError(self.where(name), f"it is one table, and has to be a list of rows; write [[{name}]]")
            if not isinstance(value, dict) and name not in ROWS:
                raise PlanError(self.where(name), f"it has to be a table; write [{name}] above its keys")
        return given

    def _single(self, name: str, kind: type, given: Mapping[str, Any]) -> Any:
        made = _Row(kind, {one.key.name: one for one in keys(kind)}).made(given, lambda key: self.where(name, 0, key))
        if hasattr(made, "where"):
            made.where = self.where(name)
        return made

    def _listed(self, name: str, kind: type, given: Any) -> list[Any]:
        if not isinstance(given, list) or not all(isinstance(one, dict) for one in given):
            raise PlanError(self.where(name), f"it has to be a list of rows; write [[{name}]] above each")
        row = _Row(kind, {one.key.name: one for one in keys(kind)})
        found = []
        for number, one in enumerate(given, 1):
            found.append(row.made(one, lambda key, number=number: self.where(name, number, key)))  # type: ignore[misc]
            found[-1].where, found[-1].origin = self.where(name, number), ("", number - 1)
        return found

    # CSV files.

    def _files(self, given: Mapping[str, Any]) -> list[tuple[str, list[str], list[str]]]:
        """The files of each table, and the columns that are not read."""
        known = [*FILES, IGNORE]
        ignored, found, seen = self._names(given, IGNORE), [], {os.path.abspath(self.called): "the plan file itself"}
        for key in given:
            if key not in known:
                raise PlanError(self.where("tables", 0, key), f"it has no {key!r}; it has {', '.join(known)}{did_you_mean(key, known)}")
        for key in (one for one in FILES if one in given):
            names = self._names(given, key)
            for name in names:
                path = os.path.abspath(self._path(name))
                if path in seen:
                    raise PlanError(self.where("tables", 0, key), f"`{key}` names {name}, which is {seen[path]}")
                seen[path] = f"the table of {key} already"
            found.append((key, names, ignored))
        return found

    def _names(self, given: Mapping[str, Any], key: str) -> list[str]:
        value = given.get(key, [])
        found = [value] if isinstance(value, str) else value
        if not isinstance(found, list) or not all(isinstance(one, str) and one for one in found):
            raise PlanError(self.where("tables", 0, key), f"`{key}` is {value!r}, and has to be a name, or a list of names")
        return found

    def _path(self, name: str) -> Path:
        return Path(name) if self.path is None else self.path.parent / name

    def _csv(self, table: str, name: str, ignored: Sequence[str], file_key: str) -> list[Any]:
        """The rows of a CSV file."""
        path, kind = self._path(name), ROWS[table]
        if name not in self.contents and not path.is_file():
            raise PlanError(self.where("tables", 0, file_key), f"`{file_key}` names {name}, and there is no such file{self._near(path)}")
        data = self.contents[name] if name in self.contents else path.read_bytes()
        try:
            frame = table_files.read(io.BytesIO(data), str(path))
        except ArgumentError as error:
            raise PlanError("", str(error)) from error
        called = f"{path}, [[{table}]]"
        given = [str(column) for column in frame.columns]
        cells: list[dict[str, str | None]] = frame.to_dict("records")
        testbed, is_id = _of_testbed(table, given, cells)
        if is_id:
            cells, given = [{**row, _NAME: row[testbed]} for row in cells], [*given, _NAME]
        try:
            read = columns(kind, given, [one for one in ignored if one in given], "" if is_id else testbed)
        except ArgumentError as error:
            raise PlanError(called, str(error)) from error
        row, found = _Row(kind, read, is_cell=True), []
        for number, one in enumerate(cells, 1):
            where = f"{called}, row {number}"
            found.append(row.made(one, lambda column, where=where: f"{where}, column {column}" if column else where))  # type: ignore[misc]
            found[-1].where, found[-1].origin = where, (name, number - 1)
        self.source.files.append(Csv(table, name, data, given, {column: named.key.name for column, named in read.items()}, cells))
        return found

    @staticmethod
    def _near(path: Path) -> str:
        """The file beside it that has nearly its name."""
        folder = path.parent
        return did_you_mean(path.name, sorted(one.name for one in folder.iterdir() if one.is_file())) if folder.is_dir() else ""


def _of_testbed(table: str, given: list[str], cells: list[dict[str, str | None]]) -> tuple[str, bool]:
    """The column `id` of a table of nodes that has no names but there, as tables of testbeds do, and whether it has their numbers too; else an
    empty text."""
    has_names = table != "node" or any(plain(column) in _NAMES for column in given)
    ids = "" if has_names else next((column for column in given if plain(column) == "id"), "")
    return ids, bool(ids) and all(plain_id(row[ids]) is not None for row in cells)


@dataclass
class _Row:
    """Makes rows of a kind: `keys` has what each key of the file, or column, is."""

    kind: type
    keys: Mapping[str, Named]
    is_cell: bool = False

    def made(self, given: Mapping[str, Any], where: Callable[[str], str]) -> Any:
        """The row of these values. Raises `PlanError` where a key is not known or missing, or a value is wrong; `where` is the place of a key."""
        found: dict[str, Any] = {}
        for key, value in given.items():
            named = self.keys.get(key)
            if named is None and self.is_cell:
                continue
            if named is None:
                raise PlanError(where(key), self._unknown(key, given))
            if self._is_left_out(named, value):
                continue
            try:
                found[named.field] = values.take(named.key, value, self.is_cell)
            except ArgumentError as error:
                raise PlanError(where(key), str(error)) from error
        for named in self.keys.values():
            if named.key.required and named.field not in found:
                raise PlanError(where(""), f"`{named.key.name}` is not given; it is {named.key.about}")
        return self.kind(**found)

    def _is_left_out(self, named: Named, value: Any) -> bool:
        """Whether a cell, or a measure, says that it is not given."""
        if self.is_cell and named.key.kind in values.TEXTS:
            return value is None
        may_be = self.is_cell or (named.key.name in _MEASURES and isinstance(value, str))
        return may_be and values.is_unknown(value)

    def _unknown(self, key: str, given: Mapping[str, Any]) -> str:
        free = [name for name in self.keys if name not in given]
        aliases = {alias: named.key.name for named in self.keys.values() for alias in named.key.aliases}
        meant = aliases.get(plain(key), plain(key) if plain(key) in free else "")
        asked = f"; do you mean {meant}?" if meant else did_you_mean(key, free)
        return f"it has no key {key!r}; it has {', '.join(self.keys)}{asked}"


def text_of(path: Path) -> str:
    """The text of a plan file. Raises `PlanError` where it is none in UTF-8, and `OSError` where it can't be read."""
    if path.stat().st_size > lines.TEXT_BYTES_MOST:
        raise PlanError(str(path), f"it has more than {lines.TEXT_BYTES_MOST:,} bytes, which are the most that are read")
    return decoded(path.read_bytes(), str(path))


def decoded(data: bytes, called: str) -> str:
    """The text of the bytes of a plan file. Raises `PlanError` where it is none in UTF-8."""
    try:
        return data.decode("utf-8-sig")
    except UnicodeDecodeError as error:
        line = data.count(b"\n", 0, error.start) + 1
        raise PlanError(f"{called}, line {line}", f"the byte {data[error.start]:02x} is not UTF-8; save it as UTF-8") from error
