"""What the columns of planning tables mean, as the docstrings of their functions define it: each is written once.

Tested, not proved.
"""

from __future__ import annotations

import inspect
import itertools
import textwrap
from collections.abc import Callable
from functools import cache
from typing import Any

import pandas as pd

from ..answers import schema, tables


@cache
def of_docstring(function: Callable[..., Any]) -> dict[str, str]:
    """The columns that the part `Returns` of a docstring in numpydoc's form defines: lines of one name or several, and below each, further to
    the right, what they mean."""
    lines = _returns(inspect.getdoc(function) or "")
    found: dict[str, str] = {}
    names: list[str] = []
    for line, below in itertools.pairwise([*lines, ""]):
        if not line.startswith(" "):
            names = line.split(", ") if below.startswith(" ") else []
        elif names:
            found.update({name: f"{found.get(name, '')} {line.strip()}".lstrip() for name in names})
    return found


def _returns(docstring: str) -> list[str]:
    """The lines of the part `Returns` below the type, without their indent."""
    lines = docstring.splitlines()
    heads = [place for place, line in enumerate(lines) if place and line and set(line) == {"-"}]
    start = next((place for place in heads if lines[place - 1] == "Returns"), len(lines))
    end = next((place - 1 for place in heads if place > start), len(lines))
    return textwrap.dedent("\n".join(lines[start + 2 : end])).splitlines()


def of_table(name: str, table: pd.DataFrame) -> dict[str, str]:
    """What each column of a table of `planning.tables` means, in its order; a column of which nothing is said is left out."""
    about = tables.NAMED[name]
    told = of_docstring(about.call)
    if about.says is not None:
        told = {**of_docstring(about.says), **told}
    if not about.own_words:
        told = {**told, **{column: schema.MEANINGS[column] for column in schema.EVERYWHERE & told.keys()}}
    found = {str(column): told.get(str(column), schema.MEANINGS.get(str(column), "")) for column in table.columns}
    return {column: meaning.rstrip(". ").replace("`", "") for column, meaning in found.items() if meaning}
