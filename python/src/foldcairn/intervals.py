"""The public path of `foldcairn.many.intervals`, which says what each of these is. Tested, not proved."""

from __future__ import annotations

from .many.intervals import adjusted, chance, means, of_mean, of_share, over_seeds, packets_to_show

__all__ = ["adjusted", "chance", "means", "of_mean", "of_share", "over_seeds", "packets_to_show"]
