"""Names of nodes in tables: where a scenario has names (`Scenario.labels`), answers show them in place of the ids.

The tables of `results` are what the program wrote, and have ids, by which they are joined and counted: `labels.named(log.scenario,
log.deliveries)` gives one with the names. Tested, not proved.
"""

from __future__ import annotations

import functools
from collections.abc import Callable
from typing import Any, TypeVar, cast

import pandas as pd

from ..common import arguments
from ..model.scenario import Scenario
from .schema import IDS

Call = TypeVar("Call", bound=Callable[..., Any])


def named(scenario: Scenario, table: pd.DataFrame) -> pd.DataFrame:
    """A table with names in place of ids.

    A node without a name is then named by its id, as a text, so that all can be sorted; what is no node, as -1 for no host, stays.

    Parameters
    ----------
    scenario : Scenario
        The scenario that has the names.
    table : pandas.DataFrame
        Its columns of ids, and its index, are known by their names, as `node` and `source`; it is not changed.

    Returns
    -------
    pandas.DataFrame
        A copy, or the table itself where the scenario has no names.
    """
    if not scenario.labels:
        return table
    names = {node: scenario.name(node) for node in scenario.nodes}
    table = table.copy()
    for column in IDS & set(map(str, table.columns)):
        table[column] = [names.get(node, node) for node in table[column]]
    if "nodes" in table:
        table["nodes"] = [tuple(names.get(node, node) for node in nodes) for nodes in table["nodes"]]
    if IDS & set(table.index.names):
        table = table.rename(index=names, level=None if table.index.nlevels == 1 else 0)
    return table


def answers(function: Call) -> Call:
    """The function, of a log or a scenario, with names in its table. Of iterators and arrays it gets lists."""

    @functools.wraps(function)
    def call(*given: Any, **more: Any) -> pd.DataFrame:
        given = (*given[:1], *map(arguments.settled, given[1:]))
        more = {name: value if name in ("executor", "progress") else arguments.settled(value) for name, value in more.items()}
        table = function(*given, **more)
        return named(next(map(scenario_of, filter(_has_scenario, (*given, *more.values())))), table)

    return cast(Call, call)


def _has_scenario(given: Any) -> bool:
    return isinstance(given, Scenario) or hasattr(given, "scenario")


def scenario_of(given: Any) -> Scenario:
    """The scenario of what an answer is asked of.

    Parameters
    ----------
    given : Scenario or results.Report
        A scenario, or what has one.

    Returns
    -------
    Scenario
        That scenario itself, or its `scenario`.
    """
    found: Scenario = given if isinstance(given, Scenario) else given.scenario
    return found
