"""The public path of `foldcairn.pages.page`, which says what each of these is. Tested, not proved."""

from __future__ import annotations

from .pages.page import of_settings, text, write

__all__ = ["of_settings", "text", "write"]
