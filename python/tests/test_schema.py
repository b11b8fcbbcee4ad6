"""The registry of tables and columns: what it says is what the functions give, and what their docstrings say."""

from __future__ import annotations

import inspect
import re

import pandas as pd
import pytest
from networks import FAILOVER, log_of

from foldcairn import planning
from foldcairn.answers import schema, tables
from foldcairn.pages import meanings, titles

EMPTY = "frames 1\nsends 1\nnode 1 0\nnode 2 0\nhost 0 1\n"
# What a type of the registry is in a table; `collided` is also a yes or no, of a single slot.
DTYPES = {"node": {"int64"}, "whole": {"int64"}, "truth": {"bool"}, "words": {"object", "category"}, "real": {"float64"}}


@pytest.fixture(scope="module")
def given() -> dict[str, pd.DataFrame]:
    return planning.tables(log_of(FAILOVER), battery={"target_days": 30})


def test_names_are_there_once() -> None:
    assert len(tables.NAMED) == len(tables.TABLES) == 25 and len({one.title for one in tables.TABLES if one.title}) == 19
    assert len(schema.COLUMNS) == len(schema._LISTED)
    assert len({(one.call, one.by) for one in tables.TABLES}) == len(tables.TABLES)


def test_ids_and_counts() -> None:
    assert {"node", "source", "sender", "origin", "host", "other_host", "from_host", "to_host", "one", "other"} == schema.IDS
    assert schema.IDS | {"put", "deliveries", "frame"} <= schema.WHOLE and not {"seconds", "start", "ended"} & schema.WHOLE


def test_a_column_has_the_type_that_is_said(given: dict[str, pd.DataFrame]) -> None:
    assert list(given) == list(tables.NAMED)
    for name, table in (*given.items(), *planning.tables(log_of(EMPTY)).items()):
        for column, dtype in table.dtypes.items():
            known = schema.COLUMNS.get(str(column))
            slot = (name, column) == ("contention-by-slot", "collided")
            assert str(dtype) in ({"bool"} if slot else DTYPES[known.type if known else "real"]), (name, column, dtype)


def test_a_column_means_what_a_docstring_or_the_registry_says(given: dict[str, pd.DataFrame]) -> None:
    for one in tables.TABLES:
        told = meanings.of_table(one.name, given[one.name])
        named = re.findall(r"`(\w+)`", inspect.getdoc(one.call) or "")
        left = [column for column in map(str, given[one.name]) if column not in told and column not in named]
        assert left == [], one.name


def test_a_docstring_names_no_column_that_no_table_has(given: dict[str, pd.DataFrame]) -> None:
    columns: dict[object, set[str]] = {}
    for one in tables.TABLES:
        for call in filter(None, (one.call, one.says)):
            columns.setdefault(call, set()).update(map(str, given[one.name]))
    for call, there in columns.items():
        assert set(meanings.of_docstring(call)) <= there, call  # type: ignore[arg-type]


def test_the_questions_name_all_answers() -> None:
    calls = " ".join(calls for _, calls in tables.QUESTIONS)
    assert set(re.findall(r"\b([a-z_]+)\(", calls)) - {"range", "sweep"} == set(planning.__all__) - {"tables"}
    for one in tables.TABLES:
        assert f"{one.call.__name__}(" in calls and (one.by in (None, "pair") or f'"{one.by}"' in calls)
    assert planning.__doc__.count("| `delivery_ratio(log)` |") == 1 and "QUESTIONS" not in planning.__doc__


def test_a_title_says_whom_and_which_battery(given: dict[str, pd.DataFrame]) -> None:
    told = titles.titles(log_of(FAILOVER), [2], {"capacity_mah": 2500})
    assert list(told)[:3] == ["hosts", "hosts-at-once", "delivery-by-stream"]
    assert told["delivery-by-stream"] == "Delivery ratio by stream, at node 2" and told["hosts"] == "Which host serves when"
    assert told["battery-life"].startswith("Battery life in days (2500 mAh")
