"""The columns of a CSV file of nodes, links or streams, by the names that people use for them. Tested, not proved."""

from __future__ import annotations

import re
from collections.abc import Iterable, Mapping, Sequence

from ..common import arguments
from ..common.arguments import ArgumentError
from .schema import Named, keys

# Units at the end of a column's name, as in `x_m`, `period_s`, `rssi (dBm)`.
_UNIT = re.compile(r"_?[(\[]?(?<=[_(\[])(m|s|sec|seconds|dbm|db|ppm|mah|metres|meters|bytes)[)\]]?$")
# How much of a name two columns have in common that are taken for one that is misspelt.
_NEAR = 0.6


def plain(column: str) -> str:
    """A column's name without case, blanks, dashes and unit."""
    word = re.sub(r"[\s-]+", "_", column.strip().casefold())
    return _UNIT.sub("", word).strip("_") or word


def columns(kind: type, given: Sequence[str], ignored: Iterable[str] = (), names: str = "") -> dict[str, Named]:
    """The key of each column that is read; `names` is one that has names, whatever it is called. Raises `ArgumentError` where a column is none
    that is read, two are the same, or one that has to be given is missing."""
    known = {plain(one): named for named in keys(kind) for one in (*named.key.aliases, named.key.name)}
    if names:
        known[plain(names)] = known["name"]
    left = set(ignored)
    read = [column for column in given if column and column not in left]
    found = {column: known[plain(column)] for column in read if plain(column) in known}
    if unread := [column for column in read if column not in found]:
        raise ArgumentError(_unread(kind, unread[0], found))
    _each_once(found)
    if lacking := [named.key for named in keys(kind) if named.key.required and named not in found.values()]:
        others = f" (or {', '.join(lacking[0].aliases)})" if lacking[0].aliases else ""
        raise ArgumentError(f"it lacks the column {lacking[0].name}{others}; it has {', '.join(read)}")
    return found


def _unread(kind: type, column: str, found: Mapping[str, Named]) -> str:
    free = [named.key.name for named in keys(kind) if named not in found.values()]
    aliases = {alias: named.key.name for named in keys(kind) if named.key.name in free for alias in named.key.aliases}
    near = arguments.near(plain(column), [*free, *aliases], _NEAR)
    asked = f"do you mean {aliases.get(near, near)}? " if near else ""
    return f"the column {column!r} is not read: {asked}it reads {', '.join(free)}; name it in `[tables] ignore` to leave it out"


def _each_once(found: Mapping[str, Named]) -> None:
    first: dict[str, str] = {}
    for column, named in found.items():
        if (other := first.setdefault(named.key.name, column)) != column:
            raise ArgumentError(f"the columns {other!r} and {column!r} are both {named.key.name}; name one of them in `[tables] ignore`")
