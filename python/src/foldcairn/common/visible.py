"""Text that does nothing but be read: what a terminal, a page, a picture or a spreadsheet would take for more than letters is made
harmless. Tested, not proved."""

from __future__ import annotations

import re

import pandas as pd

# Control characters other than tab and line feed, and halves of characters, by which Python has the bytes of a file's name that are no text.
_CONTROLS = re.compile("[\x00-\x08\x0b-\x1f\x7f-\x9f\ud800-\udfff]")
# By these a spreadsheet takes a cell for a formula.
_FORMULA = ("=", "+", "-", "@", "\t", "\r")


def visible(text: str) -> str:
    """The text with a symbol in place of each control character, as ␛ for the one that begins an escape code: a terminal obeys none of
    it. Tabs and line feeds stay, and what has no symbol of its own is �."""
    return _CONTROLS.sub(_symbol, text)


def _symbol(found: re.Match[str]) -> str:
    code = ord(found[0])
    return chr(0x2400 + code) if code < 0x20 else "\u2421" if code == 0x7F else "\ufffd"


def csv(table: pd.DataFrame) -> str:
    """The table as CSV, without its index. A text that begins with =, +, -, @, a tab or a carriage return gets an apostrophe in front, so
    that a spreadsheet shows it and computes nothing; numbers stay as they are."""
    columns = [_cell(name) for name in table.columns]
    texts = table.select_dtypes(include=["object", "category"]).columns
    plain = table.assign(**{name: table[name].astype("object").map(_cell) for name in texts}) if len(texts) else table
    written: str = plain.set_axis(columns, axis="columns").to_csv(index=False)
    return visible(written)


def _cell(value: object) -> object:
    return f"'{value}" if isinstance(value, str) and value.startswith(_FORMULA) else value
