"""Pages whose Python is run, with what it prints below it.

`python3 python/tests/pages.py docs/PLANNING.md` writes what the blocks of a page print into the page, after a change of either;
look at the difference before you keep it. Files that they write, the pictures, go to docs/pictures/planning. The tests compare.
A block of Python is fenced as `python`; what it prints is in a block fenced as `text` right below it. The blocks of a page run in order and share their names.
"""

from __future__ import annotations

import contextlib
import io
import re
import sys
import warnings
from pathlib import Path

PICTURES = Path(__file__).resolve().parents[2] / "docs" / "pictures" / "planning"
_BLOCK = re.compile(r"^```python\n(.*?)^```\n(?:\n^```text\n.*?^```\n)?", re.DOTALL | re.MULTILINE)


def blocks(page: str) -> list[str]:
    """The code of each block of Python."""
    return [block[1] for block in _BLOCK.finditer(page)]


def run(path: Path, folder: Path) -> tuple[str, dict[str, object]]:
    """The page with what its blocks print, and the names that they make; the files that they write are in the folder. Warnings
    of scenarios are no part of it."""
    page = path.read_text(encoding="utf-8")
    names: dict[str, object] = {}

    def filled(block: re.Match[str]) -> str:
        code = "\n" * page.count("\n", 0, block.start(1)) + block[1]
        printed = io.StringIO()
        with contextlib.redirect_stdout(printed), warnings.catch_warnings():
            warnings.simplefilter("ignore")
            exec(compile(code, str(path), "exec"), names)
        shown = f"\n```text\n{printed.getvalue()}```\n" if printed.getvalue() else ""
        return f"```python\n{block[1]}```\n{shown}"

    with contextlib.chdir(folder):
        return _BLOCK.sub(filled, page), names


if __name__ == "__main__":
    for argument in sys.argv[1:]:
        page = Path(argument).resolve()
        page.write_text(run(page, PICTURES)[0], encoding="utf-8")
