"""Which settings are tried where there are more than can be: optuna proposes them, by what those before them gave. Tested, not proved."""

from __future__ import annotations

import warnings
from collections.abc import Callable, Sequence
from typing import Any

from .results import Seen
from .space import Setting, Space, key

# So many settings are tried at a time; which they are does not depend on how many processors there are.
BATCH = 16
# What a setting is worth that no run can meet.
_IMPOSSIBLE = -100.0
# After so many batches without a new setting no more is tried.
_TRIES = 4


def value(seen: Seen | None) -> float:
    """What is to be large: below 0 what a setting misses, from 1 to 2 by its life where it misses nothing."""
    if seen is None:
        return _IMPOSSIBLE
    life = seen.life.years
    return -seen.miss if not seen.is_good else 2.0 if life == float("inf") else 1 + life / (1 + life) if life >= 0 else 1.0


def propose(space: Space, most: int, look: Callable[[Sequence[Setting]], Sequence[Seen | None]]) -> None:
    """Lets at most so many settings be looked at, each once, some at a time; `look` says what is seen of them, None of those that no run can meet.
    They are the same each time (a tree-structured Parzen estimator; Bergstra et al., NIPS 2011). Raises `ModuleNotFoundError` where optuna is
    missing."""
    import optuna

    optuna.logging.set_verbosity(optuna.logging.WARNING)
    with warnings.catch_warnings():
        warnings.simplefilter("ignore")
        study = optuna.create_study(direction="maximize", sampler=optuna.samplers.TPESampler(seed=1, n_startup_trials=max(BATCH, most // 4)))
    known: dict[tuple[Any, ...], float] = {}
    without_new = 0
    while len(known) < most and without_new < _TRIES:
        asked = [_asked(study, space) for _ in range(min(BATCH, most - len(known)))]
        new = {key(setting): setting for _, setting in asked if setting is not None and key(setting) not in known}
        known.update(zip(new, map(value, look(list(new.values())))))
        for trial, setting in asked:
            study.tell(trial, _IMPOSSIBLE if setting is None else known[key(setting)])
        without_new = 0 if new else without_new + 1


def _asked(study: Any, space: Space) -> tuple[Any, Setting | None]:
    """A proposal, and the setting that it is; None where it is none."""
    trial = study.ask()
    places = {word: trial.suggest_categorical(word, list(range(len(several)))) for word, several in space.values.items()}
    return trial, space.plain({word: several[places[word]] for word, several in space.values.items()})
