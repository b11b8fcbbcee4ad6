"""The public path of `foldcairn.many.sweep`, which says what each of these is. Tested, not proved."""

from __future__ import annotations

from .many.sweep import SweepStopped, files, from_file, grid, summary, sweep

__all__ = ["SweepStopped", "files", "from_file", "grid", "summary", "sweep"]
