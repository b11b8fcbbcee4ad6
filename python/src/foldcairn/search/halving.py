"""Successive halving: after each round of draws that part of the settings goes on that may still be the best, to twice as many draws.

(Jamieson and Talwalkar, AISTATS 2016, have it for one number that is to be large.) Here a setting has two: its battery life, which few draws
tell well, and what its requirements miss, which takes many. So one half of those that go on look good, and live longest; the other half miss
something, and would live longer than the best of those that look good: those that miss least. A setting that some requirement fails by the
interval of its draws goes on no more. Tested, not proved.
"""

from __future__ import annotations

import math
from collections.abc import Sequence
from dataclasses import dataclass

from ..requirements.judging import NOT_MET
from .results import Seen

# Which part of all settings goes on after the first round, and after each later one.
_PARTS = (1.0, 1 / 4, 1 / 8, 1 / 16)
# So few settings all go on.
LEAST = 12
# How many draws a setting has after the last round, and how many the first one makes together: where there are few settings each has more.
LAST_DRAWS = 8
_FIRST_DRAWS = 200


@dataclass(frozen=True)
class Round:
    """A round: for how many settings at most there are so many draws."""

    draws: int
    settings: int


def rounds(count: int) -> list[Round]:
    """The rounds for so many settings: each has twice as many draws as the one before it."""
    first = LAST_DRAWS
    while first > 1 and first * count > _FIRST_DRAWS:
        first //= 2
    found, draws = [], first
    for part in _PARTS:
        found.append(Round(draws, min(count, max(LEAST, math.ceil(part * count)))))
        draws *= 2
        if draws > LAST_DRAWS:
            break
    return found


def order(seen: Sequence[Seen]) -> list[int]:
    """The places of settings from the best to the worst: those that look good by their lives, then the others by what they miss."""

    def rank(place: int) -> tuple[float, ...]:
        one = seen[place]
        life, margin = (-math.inf if math.isnan(value) else value for value in (one.life.years, one.margin))
        return (0.0, -life, -margin, place) if one.is_good else (1.0, one.miss, -life, place)

    return sorted(range(len(seen)), key=rank)


def going_on(seen: Sequence[Seen], count: int) -> list[int]:
    """The places of the settings, at most so many, that go on, from the best to the worst."""
    ranked = [place for place in order(seen) if seen[place].verdict != NOT_MET]
    good = [place for place in ranked if seen[place].is_good]
    longest = seen[good[0]].life.years if good else -math.inf
    near = [place for place in ranked if not seen[place].is_good and not seen[place].life.years <= longest]
    half = max(count // 2, count - len(near))
    chosen = {*good[:half], *near[: count - min(half, len(good))]}
    return [place for place in ranked if place in chosen]
