"""In which line of a TOML text a table, a row or a key is, for messages. Tested, not proved."""

from __future__ import annotations

import re
from dataclasses import dataclass, field

_HEADER = re.compile(r"\s*(\[\[?)\s*([^\[\]]+?)\s*\]\]?\s*(#.*)?$")
_KEY = re.compile(r"""\s*("[^"]*"|'[^']*'|[A-Za-z0-9_-]+)\s*(\.|=)""")
# A text in quotes, of one line or of several, and a comment: brackets in them are none.
_QUOTED = re.compile(r'"""(?:\\.|[^\\])*?"""|\'\'\'.*?\'\'\'|"(?:\\.|[^"\\\n])*"|\'[^\'\n]*\'|#[^\n]*', re.DOTALL)


@dataclass
class Places:
    """The lines of a text, counted from 1: of each table and row, and of the keys in it."""

    tables: dict[tuple[str, int], int] = field(default_factory=dict)
    keys: dict[tuple[str, int, str], int] = field(default_factory=dict)

    @classmethod
    def of(cls, text: str) -> Places:
        """The lines of a TOML text. Of a table that is written within a line, or of a key with dots, it has the first."""
        found, table, row, depth = cls(), "", 0, 0
        counts: dict[str, int] = {}
        plain = _QUOTED.sub(_blanked, text).split("\n")
        for number, (line, bare) in enumerate(zip(text.split("\n"), plain), 1):
            if depth == 0 and (header := _HEADER.match(bare)):
                table = _unquoted(_HEADER.match(line)[2] if _HEADER.match(line) else header[2])  # type: ignore[index]
                counts[table] = row = counts.get(table, 0) + 1
                found.tables[table, row] = number
                continue
            if depth == 0 and (one := _KEY.match(line)) and bare.strip():
                key = _unquoted(one[1])
                found.keys.setdefault((table, row, key), number)
                if not table:
                    found.tables.setdefault((key, 1), number)
            depth = max(0, depth + sum(map(bare.count, "[{")) - sum(map(bare.count, "]}")))
        return found

    def line(self, table: str, row: int = 1, key: str = "") -> int | None:
        """The line of a key, else of its row, else None."""
        return self.keys.get((table, row, key), self.tables.get((table, row), self.keys.get(("", 0, table))))


def _blanked(found: re.Match[str]) -> str:
    """Of a text in quotes letters in place of it, and its line ends; of a comment nothing."""
    whole = found[0]
    return "" if whole.startswith("#") else "\n".join("x" * len(part) for part in whole.split("\n"))


def _unquoted(word: str) -> str:
    return word.strip().strip("\"'")
