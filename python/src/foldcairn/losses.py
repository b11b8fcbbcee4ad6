"""The public path of `foldcairn.runs.losses`, which says what each of these is. Tested, not proved."""

from __future__ import annotations

from .runs.losses import Drawing, Outcome, TooManyLosses, bursts, coin, draw, read_table

__all__ = ["Drawing", "Outcome", "TooManyLosses", "bursts", "coin", "draw", "read_table"]
