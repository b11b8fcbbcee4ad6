"""The public path of `foldcairn.many.counts`, which says what each of these is. Tested, not proved."""

from __future__ import annotations

from .many.counts import Counts, Sampled, of

__all__ = ["Counts", "Sampled", "of"]
