"""The public path of `foldcairn.pages.report`, which says what each of these is. Tested, not proved."""

from __future__ import annotations

from .pages.report import as_json, compare, of_plan, shown, write
from .pages.saving import save
from .pages.titles import SHOWN, titles

__all__ = ["SHOWN", "as_json", "compare", "of_plan", "save", "shown", "titles", "write"]
