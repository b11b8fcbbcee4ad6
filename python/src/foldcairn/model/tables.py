"""A scenario of tables of nodes, links and streams, as CSV files or DataFrames. Tested, not proved."""

from __future__ import annotations

import os
from collections.abc import Callable, Iterable, Iterator, Mapping
from dataclasses import dataclass, field
from functools import partial
from typing import TYPE_CHECKING, Any, TypeVar

import pandas

from ..common import arguments
from ..common.arguments import ArgumentError
from . import cells, table_files
from .errors import ScenarioError

if TYPE_CHECKING:
    from .scenario import Link, Scenario

    AnyScenario = TypeVar("AnyScenario", bound=Scenario)

_TRUE = frozenset({"yes", "y", "true", "t", "1", "1.0"})
_FALSE = frozenset({"no", "n", "false", "f", "0", "0.0", ""})


# The columns of each table that are read; of several names for one the first is used.
_COLUMNS: dict[str, tuple[tuple[str, ...], ...]] = {
    "nodes": (("id", "node"), ("name",), ("offset",), ("ppm",), ("host",), ("on",), ("x",), ("y",)),
    "links": (("from", "u", "source"), ("to", "v", "target"), ("prr",), ("both",), ("seconds",), ("frame",), ("timestamp", "datetime", "time")),
    "streams": (("node", "id"), ("interval",), ("stream",), ("start",), ("every",), ("until",), ("keep_alive",)),
}
# The columns that have nodes, in which any text may be a name, and that of the ratios, in which each cell is one.
_NAMES = frozenset({"id", "name", "from", "to", "node"})
_RATIO = "prr"
# How much of a name two columns have in common that are taken for one that is misspelt.
_NEAR = 0.8


def table(source: Any, name: str, required: tuple[str, ...]) -> pandas.DataFrame:
    """The DataFrame, or that of the CSV file (`table_files.read`), with the columns that are required, by the names of `_COLUMNS`.

    Raises `ScenarioError` where one is missing, one is nearly but not quite one that is read, or a file is no CSV file, and `OSError`
    where it can't be read.
    """
    frame = source
    if isinstance(source, (str, os.PathLike)) or hasattr(source, "read"):
        try:
            frame = table_files.read(source, f"the table of {name}")
        except ArgumentError as error:
            raise ScenarioError(str(error)) from error
    known = _COLUMNS.get(name, ())
    given = [str(column) for column in frame.columns]
    frame = frame.set_axis(given, axis=1)
    for column in _unread(given, name):
        if near := arguments.near(column, [one for names in known for one in names if one not in given], _NEAR):
            raise ScenarioError(f"the table of {name} has the column {column!r}, which is not read: do you mean {near}?")
    frame = frame.rename(columns={other: names[0] for names in known for other in names[1:] if names[0] not in given})
    lacking = [column for column in required if column not in frame.columns]
    if lacking:
        others = [f" (or {' or '.join(names[1:])})" if len(names) > 1 else "" for column in lacking for names in known if names[0] == column]
        told = " and ".join(column + other for column, other in zip(lacking, others or [""] * len(lacking)))
        raise ScenarioError(f"the table of {name} lacks the column {told}; it has {', '.join(given)}")
    return frame


def _unread(columns: Iterable[str], name: str) -> list[str]:
    """The columns that are not read from a table of this name."""
    known = {one for names in _COLUMNS.get(name, ()) for one in names}
    return [column for column in columns if column not in known] if known else []


def rows(frame: pandas.DataFrame, name: str) -> Iterator[tuple[str, Mapping[str, Any]]]:
    """Each row with its name for messages and the values that are given."""
    for number, row in enumerate(frame.to_dict("records"), 1):
        yield f"the table of {name}, row {number}", {str(key): value for key, value in row.items() if _is_given(str(key), value)}


def _is_given(column: str, value: Any) -> bool:
    """Whether a cell has a value. In place of a ratio a word as `n/a` is a mistake, and a node may have any name."""
    return not cells.is_blank(value) if column in _NAMES or column == _RATIO else cells.is_given(value)


def whole(row: Mapping[str, Any], column: str, default: int | None = None) -> int:
    """The whole number of a column, or the default where it isn't given; without one that is a `KeyError`."""
    return arguments.whole(column, cells.number(row[column] if default is None else row.get(column, default)))


def real(row: Mapping[str, Any], column: str, default: float | None = None) -> float:
    """The number of a column, or the default where it isn't given; without one that is a `KeyError`."""
    return arguments.real(column, cells.number(row[column] if default is None else row.get(column, default)))


def truth(row: Mapping[str, Any], column: str) -> bool:
    """Whether a column says yes; what isn't given says no. Raises `ArgumentError` where it says neither."""
    said = str(row.get(column, "no")).strip().lower()
    if said in _TRUE or said in _FALSE:
        return said in _TRUE
    raise ArgumentError(f"`{column}` is {row[column]!r}, and has to be yes or no")


def each(source: Any, name: str, required: tuple[str, ...], step: Callable[[Mapping[str, Any]], object]) -> None:
    """Takes a step for each row of a table; a value that is missing or wrong raises `ScenarioError`, which names the row."""
    for where, row in rows(table(source, name, required), name):
        try:
            step(row)
        except KeyError as error:
            raise ScenarioError(f"{where}: {error} is not given") from error
        except ValueError as error:
            raise ScenarioError(f"{where}: {error}") from error


def scenario_of(scenario: AnyScenario, nodes: Any, links: Any, streams: Any = None) -> AnyScenario:
    """Adds the nodes, links and streams of the tables to the scenario, with the columns that `Scenario.from_tables` names."""
    read = table(nodes, "nodes", ("id",))
    step = _Nodes(scenario, _ids(read), any(not cells.is_blank(value) for value in read.get("name", ())))
    each(read, "nodes", ("id",), step.add)
    each(read, "nodes", ("id",), _Names(scenario).check)
    if step.ids:
        scenario.remarks.append(
            f"nodes have the ids 1 to {len(step.ids)} by the order of the rows of the table of nodes, and ids rule which nodes contend for slots with "
            "which: rows in another order give other delays; a column `id` with numbers beside a column `name` pins them"
        )
    between = table(links, "links", ("from", "to"))
    _add_links(scenario, between, adds=True)
    asked = None
    if streams is not None:
        asked = table(streams, "streams", ("node", "interval"))
        each(asked, "streams", ("node", "interval"), partial(_add_stream, scenario))
    for name, frame in (("nodes", read), ("links", between), ("streams", asked)):
        if frame is not None:
            scenario.remarks.extend(_remarks(name, frame))
    return scenario


def _remarks(name: str, frame: pandas.DataFrame) -> Iterator[str]:
    """What of a table is not read, in sentences; a column that looks like reception ratios is told apart."""
    left = _unread(map(str, frame.columns), name)
    ratios = {column: found for column in left if name == "links" and _RATIO not in frame.columns if (found := _ratios(frame[column]))}
    for column, numbers in ratios.items():
        yield (
            f"no link loses anything, since the table of links has no column prr; its column {column!r} has numbers from {min(numbers):g} to "
            f"{max(numbers):g}: if these are reception ratios, name it prr, and give them from 0 to 1"
        )
    if others := [column for column in left if column not in ratios]:
        yield f"the table of {name} has columns that are not read: {', '.join(map(repr, others))}"


def _ratios(column: pandas.Series) -> list[float]:
    """The numbers of a column where they look like reception ratios, as parts or in percent, else none."""
    given = [cells.number(value) for value in column if cells.is_given(value)]
    if any(isinstance(value, (str, bool)) or not hasattr(value, "__float__") for value in given) or pandas.api.types.is_bool_dtype(column):
        return []
    numbers = [float(value) for value in given]
    return numbers if len(set(numbers)) > 1 and min(numbers) >= 0 and max(numbers) <= 100 else []


# Nodes and their names.


def _ids(frame: pandas.DataFrame) -> dict[str, int]:
    """The ids of nodes that are given by names, by the rows of the table; empty where they are numbers.

    Where most are numbers, one that is none is a mistake, which is told by its row.
    """
    given = [value for value in frame["id"] if not cells.is_blank(value)]
    names = [value for value in given if isinstance(value, str) and cells.plain_id(value) is None and cells.numeral(value) is None]
    if len(names) <= len(given) / 2:
        return {}
    return {cells.name(value): number for number, value in reversed(list(enumerate(frame["id"], 1)))}


def _id_of(row: Mapping[str, Any], ids: Mapping[str, int]) -> int:
    """The id of a row of a table of nodes, by its number or its name."""
    value = row["id"]
    return ids[cells.name(value)] if ids else arguments.whole("id", cells.an_id("id", value))


def node_of(scenario: Scenario, row: Mapping[str, Any], column: str) -> int:
    """The id of a node that a row names by its id or by its name. Raises `ArgumentError` where it is neither, or the one of one node and
    the other of another."""
    value = row[column]
    called = [node for node, name in scenario.labels.items() if name == cells.name(value)]
    number = cells.plain_id(value)
    if called and number is not None and number in scenario.nodes and number not in called:
        raise ArgumentError(f"`{column}` is {value}, which is the name of node {called[0]} and the id of node {number}; give that node another name")
    if len(called) == 1:
        return called[0]
    if called:
        raise ArgumentError(f"`{column}` is {value!r}, the name of nodes {' and '.join(map(str, called))}; names have to differ")
    if number is None and isinstance(value, str) and scenario.labels:
        raise ArgumentError(f"`{column}` is {value!r}, and no node has this name{arguments.did_you_mean(value, scenario.labels.values())}")
    return arguments.whole(column, cells.an_id(column, value))


@dataclass
class _Nodes:
    """Adds the nodes of a table, row by row; `are_named` where it has a column with names."""

    scenario: Scenario
    ids: Mapping[str, int]
    are_named: bool
    first: dict[int, int] = field(default_factory=dict)
    count: int = 0

    def add(self, row: Mapping[str, Any]) -> None:
        """Adds the node of the next row."""
        self.count += 1
        scenario, node = self.scenario, _id_of(row, self.ids)
        if node in self.first:
            raise ArgumentError(f"node {cells.name(row['id'])} is given already, by row {self.first[node]}")
        scenario.node(node, whole(row, "offset", 0), whole(row, "ppm", 0))
        self.first[node] = self.count
        if self.are_named and "name" not in row:
            raise ArgumentError(f"`name` is not given, and other nodes have names; write one, or {cells.name(row['id'])}, its id")
        if self.ids or self.are_named:
            scenario.labels[node] = cells.name(row.get("name", row["id"]))
        if "x" in row and "y" in row:
            scenario.places[node] = real(row, "x"), real(row, "y")
        if "host" in row:
            scenario.host(whole(row, "host"), node)
        scenario.on(node, seconds=real(row, "on", 0.0))


@dataclass
class _Names:
    """Checks the names of a table of nodes, row by row, once all nodes are known."""

    scenario: Scenario
    seen: dict[str, int] = field(default_factory=dict)
    count: int = 0

    def check(self, row: Mapping[str, Any]) -> None:
        """Raises `ArgumentError` where the name of the next row is that of an earlier one, or may be taken for the id of another node."""
        self.count += 1
        column = "name" if "name" in row else "id"
        name = cells.name(row[column])
        named = [node for node, one in self.scenario.labels.items() if one == name]
        earlier = self.seen.setdefault(name, self.count)
        if earlier != self.count:
            raise ArgumentError(f"`{column}` is {name!r}, which row {earlier} has too; names have to differ")
        number = cells.numeral(name)
        if named and number in self.scenario.nodes and number not in named:
            raise ArgumentError(
                f"`{column}` is {name!r}, a name that is also the id of another node, {self.scenario.name(number)} (nodes that are given by names have "
                "the ids 1, 2, .. by their rows); give it a name that is no number"
            )


# Links and their ratios.


def _add_links(scenario: Scenario, frame: pandas.DataFrame, adds: bool) -> None:
    """Adds the links of a table with their ratios, or where `adds` is False gives the links that are there theirs."""
    times = [column for column in ("seconds", "frame", "timestamp") if column in frame.columns]
    if len(times) > 1:
        raise ScenarioError(f"the table of links has the times {' and '.join(times)}; keep one of these columns")
    step = _Links(scenario, adds, _RATIO in frame.columns or not adds, times[0] if times else "")
    if step.time == "timestamp":
        each(frame, "links", ("from", "to"), step.note)
    each(frame, "links", ("from", "to"), step.add)
    if step.time == "timestamp":
        step.hold_first()


@dataclass
class _Links:
    """Adds the ratios of a table of links, row by row. `has_ratios` says whether it has a column of them, and `time` is the column from
    when on they hold, or empty."""

    scenario: Scenario
    adds: bool
    has_ratios: bool
    time: str
    given: dict[tuple[int, int, int], tuple[int, float]] = field(default_factory=dict)
    start: Any = None
    count: int = 0

    def note(self, row: Mapping[str, Any]) -> None:
        """Takes the earliest time stamp for the start of the run."""
        stamp = cells.stamp("timestamp", row["timestamp"])
        try:
            self.start = stamp if self.start is None else min(self.start, stamp)
        except TypeError as error:
            raise ArgumentError(f"`timestamp` is {row['timestamp']}, and others have no time zone, or this has none; write all alike") from error

    def add(self, row: Mapping[str, Any]) -> None:
        """Adds the link of the next row, or both of a pair."""
        self.count += 1
        one, other = node_of(self.scenario, row, "from"), node_of(self.scenario, row, "to")
        ratio, frame = self._ratio(row), self._frame(row)
        for link in [(one, other), (other, one)] if truth(row, "both") else [(one, other)]:
            earlier, before = self.given.setdefault((*link, frame), (self.count, ratio))
            if before != ratio:
                raise ArgumentError(self._twice(link, ratio, earlier, before))
            if self.adds and link not in self.scenario.links:
                self.scenario.link(*link)
            if link not in self.scenario.links:
                raise ArgumentError(f"the scenario has no link from {self.scenario.name(link[0])} to {self.scenario.name(link[1])}")
            self.scenario.ratio(*link, ratio, frame=frame)

    def _ratio(self, row: Mapping[str, Any]) -> float:
        if not self.has_ratios:
            return 1.0
        if not cells.is_given(row.get(_RATIO)) or str(row[_RATIO]).strip() in ("-", "–", "—"):
            told = f"is {row[_RATIO]!r}" if _RATIO in row else "is not given"
            raise ArgumentError(f"`prr` {told}; write the ratio, from 0 to 1, of a link that passes nothing 0, or take the row out")
        return real(row, _RATIO)

    def _frame(self, row: Mapping[str, Any]) -> int:
        """The frame from which on the ratio of a row holds; 0 where no time is given."""
        if self.time == "seconds":
            return self.scenario.frame_at(real(row, "seconds", 0.0))
        if self.time != "timestamp":
            return whole(row, "frame", 0)
        seconds = (cells.stamp("timestamp", row["timestamp"]) - self.start).total_seconds()
        if seconds >= self.scenario.seconds:
            raise ArgumentError(
                f"`timestamp` is {row['timestamp']}, {seconds:,.0f} s after the first one, which is the start of the run, and the run ends at "
                f"{self.scenario.seconds:,} s; take the rows up to there, or let it have more frames"
            )
        return self.scenario.frame_at(seconds)

    def _twice(self, link: Link, ratio: float, earlier: int, before: float) -> str:
        one, other = map(self.scenario.name, link)
        told = f"the link from {one} to {other} has the ratio {ratio:g}, and row {earlier} gives it {before:g}"
        if self.time:
            return f"{told} in the same frame of {self.scenario.frame_seconds} s: write their mean"
        return f"{told}: write one row with their mean, or give the time of each in a column timestamp, seconds or frame"

    def hold_first(self) -> None:
        """Lets the first sample of a link hold from the start of the run on."""
        first: dict[Link, float] = {}
        for (sender, receiver, _), (_, ratio) in sorted(self.given.items()):
            first.setdefault((sender, receiver), ratio)
        for link, ratio in first.items():
            self.scenario.ratio(*link, ratio, frame=0)


# Streams, ratios and places.


def _add_stream(scenario: Scenario, row: Mapping[str, Any]) -> None:
    node, stream, start = node_of(scenario, row, "node"), whole(row, "stream", 0), real(row, "start", 0.0)
    kept = real(row, "keep_alive") if "keep_alive" in row else None
    scenario.stream(node, whole(row, "interval"), stream=stream, seconds=start, keep_alive=kept)
    if "every" in row:
        until = real(row, "until") if "until" in row else None
        scenario.every(real(row, "every"), node, stream=stream, start=start, until=until)


def set_ratios(scenario: AnyScenario, links: Any) -> AnyScenario:
    """Gives the links of a scenario the ratios of a table.

    Where it has a column `seconds`, `frame` or `timestamp` a ratio holds from that time on, so a link may have several rows, as in
    `Scenario.from_tables`. Columns that are not read are told by `cautions`.

    Parameters
    ----------
    scenario : Scenario
        The scenario, which is changed.
    links : pandas.DataFrame, path or file
        A row for each ratio, with the columns `from`, `to` and `prr`; a CSV file is in UTF-8.

    Returns
    -------
    Scenario
        The same scenario.

    Raises
    ------
    ScenarioError
        Where a column or value is missing, the scenario has no such link, a ratio is not from 0 to 1, or a link has different ratios at one time.
    OSError
        Where a file can't be read.
    """
    frame = table(links, "links", ("from", "to", _RATIO))
    _add_links(scenario, frame, adds=False)
    scenario.remarks.extend(_remarks("links", frame))
    return scenario


def positions(nodes: Any, scenario: Scenario | None = None) -> dict[int, tuple[float, float]]:
    """The places of nodes of a table.

    Names in place of ids are those that the scenario has; where it has none, they count by rows, as in `Scenario.from_tables`, and the scenario
    gets them.

    Parameters
    ----------
    nodes : pandas.DataFrame, path or file
        A row for each node, with the columns `id`, `x` and `y`, in any unit.
    scenario : Scenario, optional
        The scenario whose names count.

    Returns
    -------
    dict
        By id the place (x, y).

    Raises
    ------
    ScenarioError
        Where a column or value is missing, a value is no number, two names are equal or one is the id of another node, or the scenario has other
        names.
    OSError
        Where a file can't be read.
    """
    found: dict[int, tuple[float, float]] = {}
    read = table(nodes, "nodes", ("id", "x", "y"))
    ids = _ids(read)
    named = bool(ids) and scenario is not None and bool(scenario.labels)

    def add(row: Mapping[str, Any]) -> None:
        node = node_of(scenario, row, "id") if named and scenario is not None else _id_of(row, ids)
        found[node] = real(row, "x"), real(row, "y")
        if scenario is not None and node in scenario.nodes and (ids or "name" in row):
            scenario.labels[node] = cells.name(row.get("name", row["id"]))

    each(read, "nodes", ("id", "x", "y"), add)
    if scenario is not None:
        each(read, "nodes", ("id", "x", "y"), _Names(scenario).check)
    return found
