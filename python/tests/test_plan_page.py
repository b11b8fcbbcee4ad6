"""docs/PLAN-FILE.md has each table and key of plan files, as the package has them, and its pieces of code do what it says."""

from __future__ import annotations

import re

import pytest

import plan_page
from foldcairn.plan import example, model, reading, schema, words

TEXT = plan_page.PAGE.read_text(encoding="utf-8")


def test_the_tables_of_the_page_are_those_of_the_package() -> None:
    """`python3 python/tests/plan_page.py` writes them anew."""
    assert plan_page.filled(TEXT) == TEXT


@pytest.mark.parametrize("name", [*reading.SINGLE, *reading.ROWS])
def test_each_table_has_a_section(name: str) -> None:
    head = f"## [{name}]" if name in reading.SINGLE else f"## [[{name}]]"
    assert f"\n{head}\n\n<!-- keys of {name} -->\n" in TEXT


def test_what_the_page_says_of_batteries_and_words() -> None:
    assert re.search(r"2,600 mAh \(`2xAA`, and `battery`\), 1,300 mAh \(`1xAA`.*19,000 mAh \(`D`", TEXT)
    assert words.CAPACITIES == {"battery": 2600, "2xAA": 2600, "1xAA": 1300, "D": 19000}
    told = re.search(r"No node is called (.*?), since", TEXT)
    assert told and set(re.findall(r"`(\w+)`", told[1])) == set(words.RESERVED)


def test_each_key_has_a_meaning_and_each_field_is_a_key() -> None:
    for kind in (*reading.SINGLE.values(), *reading.ROWS.values()):
        named = schema.keys(kind)
        assert all(one.key.about and not one.key.about.endswith(".") for one in named)
        assert len({one.key.name for one in named}) == len(named)
        names = [*(one.key.name for one in named), *(alias for one in named for alias in one.key.aliases)]
        assert len(set(names)) == len(names), kind
        assert {one.field for one in named} | {"where", "origin"} >= {field for field in kind.__dataclass_fields__}
    assert {kind.__name__ for kind in reading.ROWS.values()} <= set(dir(model))


def test_the_example_has_nothing_that_the_page_has_not() -> None:
    assert all(f"## [{name}]" in TEXT or f"## [[{name}]]" in TEXT for name in re.findall(r"^\[+(\w+)", example.PLAN, re.MULTILINE))
