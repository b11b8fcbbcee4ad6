"""The values of a plan file: each is taken from TOML, or from a cell of a CSV file, by the kind of its key (`KINDS`).

What is wrong is an `ArgumentError` that names the key, the value, its range with the unit, and the nearest known word.
Tested, not proved.
"""

from __future__ import annotations

import datetime
from collections.abc import Callable, Mapping
from typing import TYPE_CHECKING, Any

from ..common import arguments
from ..common.arguments import ArgumentError, did_you_mean, instead
from ..model import cells
from .words import BATTERY, RESERVED

if TYPE_CHECKING:
    from .schema import Key

# What stands in a cell for "not known", beside those words that all tables have.
_DASHES = frozenset({"-", "–", "—", "?"})
_YES, _NO = frozenset({"yes", "y", "true", "t", "1"}), frozenset({"no", "n", "false", "f", "0"})
# Between the names of a cell.
BETWEEN = ";"


def take(key: Key, value: Any, is_cell: bool = False) -> Any:
    """The value of a key, of TOML or of a cell. Raises `ArgumentError` where it is of another kind or out of range."""
    return KINDS[key.kind](key, cells.number(value) if is_cell and key.kind not in TEXTS else value, is_cell)


def is_unknown(value: Any) -> bool:
    """Whether a cell has no value: it is blank, `n/a`, a dash, or not a number."""
    return not cells.is_given(value) or (isinstance(value, str) and value.strip() in _DASHES)


def wrong(key: Key, value: Any, more: str = "") -> ArgumentError:
    """What to raise for a value: its key, what it has to be, and what to write."""
    advice = more or instead(value) or _percent(key, value) or (did_you_mean(value, key.choices) if isinstance(value, str) and key.choices else "")
    shown = f"{value:,g}" if isinstance(value, (int, float)) and not isinstance(value, bool) else repr(value)
    return ArgumentError(f"`{key.name}` is {shown}, and has to be {in_words(key)}{advice}")


def _percent(key: Key, value: Any) -> str:
    """What to write for a part that is given in percent."""
    is_part = key.kind == "real" and key.high == 1 and isinstance(value, (int, float)) and not isinstance(value, bool)
    return f"; write {value / 100:g} for {value:g} %" if is_part and 1 < value <= 100 else ""


def in_words(key: Key) -> str:
    """What the values of a key have to be, with range and unit."""
    words = _WORDS[key.kind].format(range=_range(key), choices=", ".join(key.choices))
    return words + (f", in {key.unit}" if key.unit and key.kind in _NUMBERS else "")


def _range(key: Key) -> str:
    if key.low is not None and key.high is not None:
        return f" from {key.low:,g} to {key.high:,g}"
    upper = "" if key.high is None else f" and at most {key.high:,g}"
    if key.above is not None:
        return f" above {key.above:,g}{upper}"
    return f" of at least {key.low:,g}" if key.low is not None else upper.replace(" and", " of")


# One value of each kind.


def _text(key: Key, value: Any, _: bool) -> str:
    if not isinstance(value, str) or not value.isprintable():
        raise wrong(key, value)
    return value.strip()


def _name(key: Key, value: Any, is_cell: bool) -> str:
    """A name, with one blank in place of several; of a whole number its digits."""
    found = _node(key, value, is_cell)
    if found in RESERVED:
        raise wrong(key, value, f"; {found} stands for several nodes, so none has this name")
    return found


def _node(key: Key, value: Any, _: bool) -> str:
    number = arguments.index(value)
    found = cells.name(value) if isinstance(value, str) or number is not None else ""
    if not found or not found.isprintable() or BETWEEN in found:
        raise wrong(key, value)
    return found


def _whole(key: Key, value: Any, _: bool) -> int:
    number = arguments.index(value)
    if number is None or not _is_within(key, number):
        raise wrong(key, value)
    return number


def _real(key: Key, value: Any, _: bool = False) -> float:
    try:
        number = arguments.real(key.name, value)
    except ArgumentError as error:
        raise wrong(key, value) from error
    if not _is_within(key, number):
        raise wrong(key, value)
    return number


def _is_within(key: Key, number: float) -> bool:
    below = key.low is not None and number < key.low
    return not (below or (key.high is not None and number > key.high) or (key.above is not None and number <= key.above))


def _truth(key: Key, value: Any, is_cell: bool) -> bool:
    if isinstance(value, bool):
        return value
    said = str(value).strip().casefold()
    if is_cell and said in _YES | _NO:
        return said in _YES
    raise wrong(key, value)


def _choice(key: Key, value: Any, _: bool) -> str:
    if not isinstance(value, str) or value not in key.choices:
        raise wrong(key, value)
    return value


def _power(key: Key, value: Any, is_cell: bool) -> str | float:
    if isinstance(value, str):
        plain = {one.casefold(): one for one in key.choices}
        if value.strip().casefold() not in plain:
            raise wrong(key, value)
        return plain[value.strip().casefold()]
    return _real(key, value)


def _start(key: Key, value: Any, is_cell: bool) -> str | float:
    if isinstance(value, str):
        return _choice(key, value.strip(), is_cell)
    return _real(key, value)


def _time(key: Key, value: Any, _: bool) -> str | float:
    """Seconds, or a date and a time as the file has it."""
    if isinstance(value, datetime.datetime):
        return value.isoformat()
    if not isinstance(value, str):
        return _real(key, value)
    try:
        datetime.datetime.fromisoformat(value.strip())
    except ValueError as error:
        raise wrong(key, value) from error
    return value.strip()


def _texts(key: Key, value: Any, is_cell: bool) -> list[str]:
    """Words, of a list or with semicolons between them."""
    found = value.split(BETWEEN) if isinstance(value, str) else value
    if not isinstance(found, list) or not all(isinstance(one, str) and one.isprintable() and BETWEEN not in one for one in found):
        raise wrong(key, value)
    return [one.strip() for one in found if one.strip()]


def _to(key: Key, value: Any, is_cell: bool) -> str | list[str]:
    """A word or a name, or several names."""
    several = value.split(BETWEEN) if isinstance(value, str) and BETWEEN in value else value
    if isinstance(several, list) and len(several) != 1:
        return [_node(key, one, is_cell) for one in several if one != ""]
    if isinstance(several, list):
        return _node(key, several[0], is_cell)
    return _node(key, value, is_cell)


def _numbers(key: Key, value: Any, counts: tuple[int, ...]) -> list[float]:
    if not isinstance(value, list) or (counts and len(value) not in counts):
        raise wrong(key, value)
    try:
        return [_real(key, one) for one in value]
    except ArgumentError as error:
        raise wrong(key, value) from error


def _wholes(key: Key, value: Any, is_cell: bool) -> list[int]:
    if not isinstance(value, list):
        raise wrong(key, value)
    try:
        return [_whole(key, one, is_cell) for one in value]
    except ArgumentError as error:
        raise wrong(key, value) from error


def _reals(key: Key, value: Any, is_cell: bool) -> list[float]:
    found = [cells.number(one.strip()) for one in value.split(BETWEEN)] if is_cell and isinstance(value, str) else value
    return _numbers(key, [found] if is_cell and not isinstance(found, list) else found, ())


def _box(key: Key, value: Any, _: bool) -> list[float]:
    found = _numbers(key, value, (4,))
    if not (found[0] < found[2] and found[1] < found[3]):
        raise wrong(key, value)
    return found


def _span(key: Key, value: Any, _: bool) -> list[float]:
    found = _numbers(key, value, (2,))
    if not found[0] < found[1]:
        raise wrong(key, value)
    return found


def _pair(key: Key, value: Any, is_cell: bool) -> list[str]:
    if not isinstance(value, list) or len(value) != 2:
        raise wrong(key, value)
    found = [_node(key, one, is_cell) for one in value]
    if found[0] == found[1]:
        raise wrong(key, value)
    return found


def _walls(key: Key, value: Any, _: bool) -> list[list[float]]:
    if not isinstance(value, list):
        raise wrong(key, value)
    return [_numbers(key, one, (4, 5, 6)) for one in value]


def _capacities(key: Key, value: Any, _: bool) -> dict[str, float]:
    given = value if isinstance(value, Mapping) else {BATTERY: value}
    for kind in given:
        if kind not in key.choices:
            raise ArgumentError(f"`{key.name}` has {kind!r}, and not one of {', '.join(key.choices)}{did_you_mean(kind, key.choices)}")
    return {kind: _real(key, one) for kind, one in given.items()}


Taker = Callable[["Key", Any, bool], Any]
KINDS: dict[str, Taker] = {
    "text": _text, "file": _text, "name": _name, "node": _node, "whole": _whole, "real": _real, "truth": _truth, "choice": _choice, "power": _power,
    "start": _start, "time": _time, "texts": _texts, "to": _to, "wholes": _wholes, "reals": _reals, "box": _box, "span": _span, "pair": _pair, "walls": _walls,
    "capacities": _capacities,
}  # fmt: skip
# Whose cells are texts, so that `n/a` and `-` are names.
TEXTS = frozenset({"text", "file", "name", "node", "texts", "to", "pair", "choice", "truth"})
_NUMBERS = frozenset({"whole", "real", "power", "start", "wholes", "reals", "box", "span", "walls", "capacities"})
_WORDS = {
    "text": "a text on one line", "file": "the name of a file", "name": "a name, without a semicolon", "node": "the name of a node",
    "whole": "a whole number{range}", "real": "a number{range}", "truth": "true or false", "choice": "one of {choices}",
    "power": "one of {choices}, or a number{range}", "start": "a number{range}, or {choices}",
    "time": "a number of seconds{range}, or a date and a time, as 2026-01-31 14:05:00", "texts": "a list of texts",
    "to": "a name, or a list of names", "wholes": "a list of whole numbers{range}", "reals": "a list of numbers{range}",
    "box": "four numbers, [left, lower, right, upper]",
    "span": "two numbers, [from, to], the first below the second", "pair": "two names of nodes that differ, [one, other]",
    "walls": "a list of walls, each [x0, y0, x1, y1], then maybe its loss in dB and its floor",
    "capacities": "a number{range}, or a table of such by kind of battery: {choices}",
}  # fmt: skip
