"""The checks of arguments, where they enter: what is wrong is told by its name, its value, its range and what to write.

Each check gives the value in the type that the rest of the package uses. Tested, not proved.
"""

from __future__ import annotations

import contextlib
import difflib
import math
import os
import re
from collections.abc import Collection, Iterable, Mapping
from pathlib import Path
from typing import Any

# How names of files with texts end.
_FILES = (".scenario", ".network", ".flood", ".deadlines", ".log", ".txt")
_DECIMAL_COMMA = re.compile(r"[+-]?\d+,\d+", re.ASCII)


class ArgumentError(ValueError):
    """A value that a call can't take; the message names it, its range, and what to write."""


def whole(name: str, value: Any, low: int | None = None, high: int | None = None) -> int:
    """The whole number of a value, also of one of numpy, or of a float that has no fraction, as tables have them.

    Raises `ArgumentError` where it is none, or is not from `low` to `high`; None sets no bound.
    """
    number = index(value)
    if number is None:
        raise ArgumentError(f"`{name}` is {value!r}, and has to be a whole number{_range(low, high)}{instead(value)}")
    if (low is not None and number < low) or (high is not None and number > high):
        raise ArgumentError(f"`{name}` is {number}, and has to be a whole number{_range(low, high)}")
    return number


def index(value: Any) -> int | None:
    """The whole number of a value, as `whole` takes it, or None where it is none."""
    # numpy's truth is called so from its second version on, and bool_ before; and an array of one number has an index too.
    if type(value).__name__ in ("bool", "bool_") or _is_array(value):
        return None
    if hasattr(value, "__index__"):
        # An array of numpy has it too, and is no whole number unless it is one alone.
        with contextlib.suppress(TypeError):
            return int(value.__index__())
        return None
    if isinstance(value, float) and value.is_integer():
        return int(value)
    return None


def _is_array(value: Any) -> bool:
    return bool(getattr(value, "ndim", False))


def real(
    name: str, value: Any, low: float | None = None, high: float | None = None, *, above: float | None = None
) -> float:
    """The number of a value. Raises `ArgumentError` where it is none, is not finite, is not from `low` to `high`, or is not
    above `above`; None sets no bound."""
    wanted = f", and has to be a number{_range(low, high)}{'' if above is None else f' above {above:g}'}"
    number = _float(value)
    if number is None or not math.isfinite(number):
        raise ArgumentError(f"`{name}` is {value!r}{wanted}{instead(value)}")
    if (low is not None and number < low) or (high is not None and number > high) or (above is not None and number <= above):
        raise ArgumentError(f"`{name}` is {number:g}{wanted}")
    return number


def _float(value: Any) -> float | None:
    if isinstance(value, (str, bytes, bool)) or _is_array(value) or not (hasattr(value, "__float__") or hasattr(value, "__index__")):
        return None
    try:
        return float(value)
    except (TypeError, ValueError, OverflowError):
        return None


def _range(low: float | None, high: float | None) -> str:
    if low is not None and high is not None:
        return f" from {low:,} to {high:,}"
    return f" of at least {low:,}" if low is not None else f" of at most {high:,}" if high is not None else ""


def instead(value: Any) -> str:
    """What to write in place of a text that is a number, as the end of a sentence."""
    if not isinstance(value, str):
        return ""
    text = value.strip()
    if _DECIMAL_COMMA.fullmatch(text):
        return f"; write {text.replace(',', '.')}, with a point"
    try:
        number = float(text)
    except ValueError:
        return ""
    return f"; write {text} without quotes" if math.isfinite(number) and "_" not in text else ""


def settled(value: Any) -> Any:
    """A collection that can be gone through again, with plain values: a list of an iterator, a range, a set, or an array of numpy or
    pandas, and a dictionary with such values of a mapping. It is the caller's own no more. What is no collection, a text and a tuple
    stay as they are."""
    if isinstance(value, Mapping):
        return {key: settled(one) for key, one in value.items()}
    if hasattr(value, "tolist"):
        return value.tolist()
    if isinstance(value, (str, bytes, tuple, frozenset)) or not isinstance(value, Iterable):
        return value
    return list(value)


def one_of(name: str, value: Any, choices: Collection[str]) -> str:
    """A word that is one of the choices. Raises `ArgumentError` where it is none."""
    if not isinstance(value, str) or value not in choices:
        raise ArgumentError(f"`{name}` is {value!r}, and not one of {', '.join(choices)}{did_you_mean(value, choices)}")
    return value


def near(word: Any, known: Iterable[str], least: float = 0.6) -> str:
    """The known word that a word nearly is, where its case, its blanks and its dashes are let alone; an empty text where none is.

    `least` is how much of them two words have in common, 0 to 1, by `difflib`."""
    plain = {_plain(one): one for one in reversed(list(known))}
    found = difflib.get_close_matches(_plain(word), list(plain), 1, least)
    return plain[found[0]] if found else ""


def _plain(word: Any) -> str:
    return str(word).strip().casefold().replace(" ", "_").replace("-", "_")


def did_you_mean(word: Any, known: Iterable[str]) -> str:
    """The question for the known word that a word nearly is, as the end of a sentence; empty where none is."""
    found = near(word, known)
    return f"; did you mean {found}?" if found else ""


def payload(name: str, value: Any) -> bytes:
    """The bytes of a payload. Raises `ArgumentError` where it is a text, a number or something else without bytes."""
    if isinstance(value, (bytes, bytearray, memoryview)):
        return bytes(value)
    advice = ""
    if isinstance(value, str):
        advice = f"; write {value.encode()!r}, or bytes.fromhex({value!r}) where it is in hexadecimal digits"
    elif (number := index(value)) is not None:
        advice = f"; write bytes([{number}]) for one byte of this value" if 0 <= number < 256 else "; write bytes([..])"
    raise ArgumentError(f"`{name}` is {value!r}, and has to be bytes{advice}")


def text(name: str, value: Any) -> bytes:
    """The bytes of a text that is given as such, or by the path of a file (`pathlib.Path`) that has it.

    Raises `ArgumentError` where it is neither, or a text that is the name of a file, and `OSError` where the file can't be read.
    """
    if isinstance(value, str):
        if "\n" not in value and (value.endswith(_FILES) or (value and os.path.isfile(value))):
            raise ArgumentError(f"`{name}` is {value!r}, the name of a file, and has to be a text; write pathlib.Path({value!r}) for that in the file")
        return value.encode("utf-8", "surrogateescape")
    if isinstance(value, (bytes, bytearray, memoryview)):
        return bytes(value)
    if isinstance(value, os.PathLike):
        return Path(value).read_bytes()
    raise ArgumentError(f"`{name}` is {kind(value)}, and has to be a text, its bytes, or the pathlib.Path of a file")


def window(start_seconds: Any, end_seconds: Any, run_seconds: float) -> tuple[float, float]:
    """A time within a run of this length; without `end_seconds` (None) to its end.

    Raises `ArgumentError` where a value is no number, or the time has no length or lies outside of the run.
    """
    start = real("start_seconds", start_seconds)
    end = float(run_seconds) if end_seconds is None else real("end_seconds", end_seconds)
    if not 0 <= start < end <= run_seconds:
        raise ArgumentError(
            f"the window from {start:g} to {end:g} s is no part of the run, which goes from 0 to {run_seconds:g} s; "
            "`start_seconds` has to be below `end_seconds`"
        )
    return start, end


def kind(value: Any) -> str:
    """What a value is, in words."""
    name = type(value).__name__
    return f"{'an' if name[:1] in 'AEIOaeio' else 'a'} {name}"
