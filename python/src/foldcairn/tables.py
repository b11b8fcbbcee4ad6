"""The public path of `foldcairn.model.tables`, which says what each of these is. Tested, not proved."""

from __future__ import annotations

from .model.tables import positions, set_ratios

__all__ = ["positions", "set_ratios"]
