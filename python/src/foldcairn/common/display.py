"""How objects show themselves in notebooks and files.

A scenario, a report and a sample have methods that give HTML, and the pages that make it are above them: they need what the objects are. So
the objects ask here by a word, and the package says once, in its `__init__`, which call answers. Tested, not proved.
"""

from __future__ import annotations

from collections.abc import Callable

_CALLS: dict[str, Callable[..., str]] = {}


def by(word: str, call: Callable[..., str]) -> None:
    """Lets a call answer for what is shown by this word, in place of any other."""
    _CALLS[word] = call


def shown(word: str, *given: object) -> str:
    """The HTML of what is shown by this word. Raises `KeyError` where no call answers for it."""
    return _CALLS[word](*given)
