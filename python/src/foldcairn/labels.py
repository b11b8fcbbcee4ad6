"""The public path of `foldcairn.answers.labels`, which says what each of these is. Tested, not proved."""

from __future__ import annotations

from .answers.labels import named, scenario_of

__all__ = ["named", "scenario_of"]
