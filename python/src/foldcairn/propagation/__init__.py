"""Reception ratios that are not known exactly: by positions, by surveys, or both, as a distribution of which each seed draws.

`LinkModel` is what plans use. Its parts stand alone: `curve` (ratio by signal to noise ratio), `path_loss` with `walls` and `presets`
(received power by distance), `survey` (what was measured), `fit` (exponent and deviation of what was measured) and `draws` (what a seed
draws for a pair). Tested, not proved.
"""

from __future__ import annotations

from .model import LinkModel
from .presets import PRESETS, Preset
from .settings import Losses
from .survey import Row

__all__ = ["PRESETS", "LinkModel", "Losses", "Preset", "Row"]
