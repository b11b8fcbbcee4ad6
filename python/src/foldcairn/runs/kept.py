"""Results that are kept in a folder, by a key of all that they depend on.

A key is made of content: the text of a scenario with its ratios and receivers, the measure, the program and the version of this
package. So what is kept is never the answer to another question: a file that changed, another measure or another program has other
keys. Tested, not proved.
"""

from __future__ import annotations

import datetime
import functools
import hashlib
import inspect
import json
import os
import pickle
from collections.abc import Callable, Mapping
from pathlib import Path
from typing import TYPE_CHECKING, Any

from ..common import files
from . import program

if TYPE_CHECKING:
    from ..model.scenario import Scenario


# Of which form the results are. It is part of each key, and is raised where what is counted of a run changes, so that older results are
# made again.
FORM = 2


def digest(*parts: object) -> str:
    """A short name for these values: numbers, texts, bytes, lists and mappings of such, those of numpy and paths.

    Raises `TypeError` where a value is of another kind.
    """
    spelled = json.dumps(parts, sort_keys=True, default=plain)
    return hashlib.blake2b(spelled.encode(), digest_size=16).hexdigest()


def content(scenario: Scenario) -> list[object]:
    """All of a scenario that an answer about it depends on, for `digest`: the form of results, its text with its ratios, and what the text
    has not: for whom packets are meant, which streams are kept alive, what reading tables left in doubt, and what a plan's seeds draw from."""
    found = [FORM, scenario.network_text(warn=False), repr(scenario.receivers), sorted(scenario.keep_alive), list(scenario.remarks)]
    varied = scenario.varied_by()
    return [*found, varied] if varied else found


def plain(value: Any) -> Any:
    """The plain number, list or text of what numpy and pandas have, of bytes and of a path, for `json`."""
    if hasattr(value, "tolist"):
        return value.tolist()
    if isinstance(value, os.PathLike):
        return os.fspath(value)
    if isinstance(value, bytes):
        return value.hex()
    raise TypeError(f"{value!r} can't be kept")


def spelled(function: Callable[..., Any]) -> str:
    """A function by its name and its source, with what it holds: the arguments of a `functools.partial`, the defaults and what
    a nested function takes from around it. What it calls or reads elsewhere is not part of it.

    Where there is no source, as in an interactive session, its compiled code is taken.
    """
    if isinstance(function, functools.partial):
        return digest("partial", spelled(function.func), _held(function.args), _held(sorted(function.keywords.items())))
    name = f"{_module_of(function)}.{getattr(function, '__qualname__', type(function).__qualname__)}"
    code = getattr(function, "__code__", None)
    try:
        source = inspect.getsource(function if code is not None or inspect.isclass(function) else type(function))
    except (OSError, TypeError):
        source = repr((code.co_code.hex(), code.co_consts, code.co_names)) if code is not None else ""
    cells = [cell.cell_contents for cell in getattr(function, "__closure__", None) or ()]
    own = [] if code is not None else _held(sorted(getattr(function, "__dict__", {}).items()))
    return digest(name, source, _held(cells), _held(getattr(function, "__defaults__", None) or ()), own)


def _module_of(function: Callable[..., Any]) -> str:
    """The module of a function; one of this package is named without the package that it is in, so that what is kept outlasts a move."""
    first, *rest = str(getattr(function, "__module__", "")).split(".")
    return ".".join([first, *rest[-1:]] if first == __name__.partition(".")[0] else [first, *rest])


def _held(values: Any) -> list[str]:
    """What a function holds, each value as a text."""
    return [spelled(value) if callable(value) else _whole(value) for value in values]


def _whole(value: Any) -> str:
    """All of a value: `repr` leaves out the middle of a large array or table."""
    try:
        return digest(value)
    except TypeError:
        pass
    try:
        return pickle.dumps(value).hex()
    except (pickle.PicklingError, TypeError, AttributeError):
        return repr(value)


# What JSON has no word for is kept as a mapping with one of these marks alone.
_TUPLE, _SET, _TIME, _SPAN, _MISSING = "#tuple", "#set", "#time", "#span", "#missing"


def _encoded(value: Any) -> Any:
    """A value as JSON has it."""
    if isinstance(value, dict):
        return {str(key): _encoded(part) for key, part in value.items()}
    if isinstance(value, list):
        return [_encoded(part) for part in value]
    if isinstance(value, tuple):
        return {_TUPLE: [_encoded(part) for part in value]}
    if isinstance(value, (set, frozenset)):
        return {_SET: sorted((_encoded(part) for part in value), key=repr)}
    if isinstance(value, (float, int, str, bool)) or value is None:
        return value
    # pandas is asked for a value of its own alone: it takes a second to load.
    if type(value).__name__ in ("NAType", "NaTType"):
        return {_MISSING: [type(value).__name__]}
    if isinstance(value, datetime.datetime):
        return {_TIME: [type(value).__name__, value.isoformat()]}
    if isinstance(value, datetime.timedelta):
        return {_SPAN: [type(value).__name__, value // datetime.timedelta(microseconds=1)]}
    return value


def _decoded(value: Any) -> Any:
    """A value of what `_encoded` made of it."""
    if isinstance(value, list):
        return [_decoded(part) for part in value]
    if not isinstance(value, dict):
        return value
    mark: str
    told: Any
    mark, told = next(iter(value.items())) if len(value) == 1 else ("", None)
    if mark == _TUPLE:
        return tuple(_decoded(part) for part in told)
    if mark == _SET:
        return {_decoded(part) for part in told}
    if mark in (_TIME, _SPAN, _MISSING):
        return _of_pandas(mark, *told)
    return {key: _decoded(part) for key, part in value.items()}


def _of_pandas(mark: str, name: str, told: Any = None) -> Any:
    """A time, or a span of time, of Python or of pandas, or what is missing."""
    import pandas

    if mark == _MISSING:
        return pandas.NA if name == "NAType" else pandas.NaT
    if mark == _TIME:
        return pandas.Timestamp(told) if name == "Timestamp" else datetime.datetime.fromisoformat(told)
    return pandas.Timedelta(told, "us") if name == "Timedelta" else datetime.timedelta(microseconds=told)


class Store:
    """A folder of results, one file each, which appears whole or not at all; without a folder nothing is kept."""

    def __init__(self, folder: str | os.PathLike[str] | None) -> None:
        self.folder = Path(folder) if folder is not None else None
        if self.folder:
            self.folder.mkdir(parents=True, exist_ok=True)

    def keys(self) -> frozenset[str]:
        """The keys of all results that are there."""
        return frozenset(path.stem for path in self.folder.glob("*.json")) if self.folder else frozenset()

    def take(self, key: str) -> Any:
        """What is kept by a key, or None: also where the file is damaged, or was written by something else."""
        if self.folder is None:
            return None
        try:
            read = json.loads((self.folder / f"{key}.json").read_text(encoding="utf-8"))
            if not isinstance(read, dict) or read.get("key") != key or read.get("checksum") != digest(read.get("result")):
                return None
            return _decoded(read["result"])
        except (FileNotFoundError, ValueError, TypeError, RecursionError):
            # A file that others wrote may nest lists more deeply than can be read.
            return None

    def keep(self, key: str, result: Any, about: Mapping[str, object] | None = None) -> None:
        """Keeps a result: numbers, texts, times, what is missing, and lists, tuples, sets and mappings of such, which `take` gives as they were;
        of arrays it gives lists, and of the numbers of numpy plain ones. `about` is for readers of the file. Raises `TypeError` where a value
        is of another kind."""
        if self.folder is None:
            return
        whole = json.loads(json.dumps(_encoded(result), default=plain))
        told: dict[str, object] = {**program.versions(), **(about or {})}
        kept = {"key": key, "about": told, "checksum": digest(whole), "result": whole}
        files.write(self.folder / f"{key}.json", json.dumps(kept, default=plain).encode())
