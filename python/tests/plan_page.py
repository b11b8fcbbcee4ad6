"""The tables of docs/PLAN-FILE.md, made of the keys of the package: `python3 plan_page.py` writes them into the page, between its marks."""

from __future__ import annotations

import re
import sys
from pathlib import Path
from typing import Any

PAGE = Path(__file__).resolve().parents[2] / "docs" / "PLAN-FILE.md"
_MARKS = re.compile(r"(<!-- keys of (\w+) -->\n\n)(.*?)(<!-- end -->)", re.DOTALL)


def shown(value: Any) -> str:
    """A default as the file has it."""
    if value in (None, "", [], {}):
        return "–"
    if isinstance(value, bool):
        return "`true`" if value else "`false`"
    return f"`{value:g}`" if isinstance(value, (int, float)) else f"`\"{value}\"`"


def keys_of(name: str) -> str:
    """The rows of a table of the file: each key, its values with range and unit, its default, and what it means."""
    from foldcairn.plan import reading, schema, values

    rows = ["| key | value | default | what it is |", "|---|---|---|---|"]
    for named in schema.keys({**reading.SINGLE, **reading.ROWS}[name]):
        default = "required" if named.key.required else shown(named.default)
        rows.append(f"| `{named.key.name}` | {values.in_words(named.key)} | {default} | {named.key.about} |")
    return "\n".join(rows) + "\n\n"


def names_of(name: str) -> str:
    """Other names of the columns of a CSV file."""
    from foldcairn.plan import reading, schema

    rows = ["| column | other names |", "|---|---|"]
    rows += [f"| `{one.key.name}` | {', '.join(f'`{alias}`' for alias in one.key.aliases)} |" for one in schema.keys(reading.ROWS[name]) if one.key.aliases]
    return "\n".join(rows) + "\n\n"


def filled(text: str) -> str:
    """The page with its tables."""
    made = _MARKS.sub(lambda found: found[1] + keys_of(found[2]) + found[4], text)
    columns = re.compile(r"(<!-- columns of (\w+) -->\n\n)(.*?)(<!-- end -->)", re.DOTALL)
    return columns.sub(lambda found: found[1] + names_of(found[2]) + found[4], made)


if __name__ == "__main__":
    sys.path.insert(0, str(PAGE.parents[1] / "python" / "src"))
    PAGE.write_text(filled(PAGE.read_text(encoding="utf-8")), encoding="utf-8")
