"""How the keys of a plan file are told: the kind, the range, the unit and the meaning of each stand beside its field in `model`.

What reads, writes, explains and documents plan files goes through the same keys, so nothing of them is said twice. Tested, not proved.
"""

from __future__ import annotations

import dataclasses
from collections.abc import Callable
from dataclasses import MISSING, Field, dataclass
from typing import Any

# What has to be given.
REQUIRED = MISSING


@dataclass(frozen=True)
class Key:
    """One key of a table, or column of a CSV file.

    kind       what its values are, one of `values.KINDS`
    about      what it means, for the pages and messages
    name       how it is spelled in a file
    unit       of its number, or empty
    low, high  the range of its number, both ends included, or None
    above      what its number has to be above, or None
    choices    the words that it may be, or empty
    aliases    names by which people have it as a column; case, blanks, dashes and endings as `_m` count for nothing
    required   whether it has to be given
    """

    kind: str
    about: str
    name: str = ""
    unit: str = ""
    low: float | None = None
    high: float | None = None
    above: float | None = None
    choices: tuple[str, ...] = ()
    aliases: tuple[str, ...] = ()
    required: bool = False


@dataclass(frozen=True)
class Named:
    """A key with the field that has its value, and the value that it has where it is not given."""

    field: str
    key: Key
    default: Any


def key(kind: str, about: str, default: Any = None, **more: Any) -> Any:
    """The field of a key. Without a default it is None where it is not given; `REQUIRED` says that it has to be. A list, a dictionary or a
    class is made anew for each."""
    metadata = {"key": Key(kind, about, required=default is REQUIRED, **more)}
    if default is REQUIRED:
        return dataclasses.field(metadata=metadata)
    if isinstance(default, (list, dict)):
        return dataclasses.field(default_factory=_copier(default), metadata=metadata)
    return dataclasses.field(default=default, metadata=metadata)


def _copier(value: Any) -> Callable[[], Any]:
    return lambda: type(value)(value)


_KEYS: dict[type, tuple[Named, ...]] = {}


def keys(kind: type) -> tuple[Named, ...]:
    """The keys of a dataclass of `model`, in the order in which files and pages have them."""
    if kind not in _KEYS:
        _KEYS[kind] = tuple(_named(one) for one in dataclasses.fields(kind) if "key" in one.metadata)
    return _KEYS[kind]


def _named(field: Field[Any]) -> Named:
    told: Key = field.metadata["key"]
    default = field.default_factory() if field.default_factory is not MISSING else None if field.default is MISSING else field.default
    return Named(field.name, told if told.name else dataclasses.replace(told, name=field.name), default)
