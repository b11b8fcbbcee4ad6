"""Verdicts on requirements, by what was counted in each draw. Nothing here runs anything: what is judged may be planted.

A requirement is of some units: streams, nodes, or streams in each of several failures. It holds if it holds for each of them.

Several failures are cases: in each of them it has to hold, and one in which it is met needs no more draws.

- It is *met* if the interval of each unit lies on the right side. Each interval has the whole error of its look: all are wrong together
  only if the one unit that fails is (an intersection-union test; Berger, Technometrics 24, 1982).
- It is *not met* if the interval of some unit lies on the wrong side. For there are many that may do so by chance, the error is divided
  by their number (Bonferroni).
- Else it is *not decided*, and `needs` says how many draws it would take if they go on as they were.

The value is that of the worst unit, and the interval is that of the worst unit's true value. With a confidence of 95 % each of the two
verdicts is wrong in 2.5 % of all cases at most, over all looks together (`looks`). Fewer than 30 draws never show that a mean is met. Tested,
not proved.
"""

from __future__ import annotations

import math
from collections.abc import Mapping, Sequence
from dataclasses import dataclass

from . import limits, looks
from .limits import Ends, Spread

MET, NOT_MET, NOT_DECIDED, IMPOSSIBLE = "met", "not met", "not decided", "impossible"
# How many draws it takes at least to call a mean met: of so many that agree, at most 12 % of all are otherwise, with 95 %.
DRAWS_LEAST = 30
# More draws than that are never named.
_NEEDS_MOST = 10_000_000
# For shares that are quotients.
_LITTLE = 1e-12


@dataclass(frozen=True)
class Rule:
    """What is required of each unit.

    Parameters
    ----------
    wanted : float
        The value that is wanted: a share from 0 to 1, or a number.
    is_share : bool
        Whether the values are shares of packets.
    at_least : bool
        Whether the value has to be at least that, or at most.
    part : float, optional
        In which part of the draws, 0 to 1, all units have to hold; without it the mean over all draws counts.
    confidence : float
        That of the verdict, 0 to 1.
    most : int
        How many draws are allowed.
    own_networks : bool
        Whether each draw has a network of its own, not only losses (`limits`).
    """

    wanted: float
    is_share: bool = True
    at_least: bool = True
    part: float | None = None
    confidence: float = 0.95
    most: int = 100
    own_networks: bool = False

    def holds(self, value: float) -> bool:
        """Whether the value of a unit in a draw is as it is wanted.

        Parameters
        ----------
        value : float
            The value.

        Returns
        -------
        bool
            Whether it is at least, or at most, what is wanted.
        """
        return value >= self.wanted - _LITTLE if self.at_least else value <= self.wanted + _LITTLE

    @property
    def bound(self) -> float:
        """What the value of the verdict is compared with: what is wanted, or the part of the draws."""
        return self.wanted if self.part is None else self.part

    @property
    def is_upwards(self) -> bool:
        """Whether the value of the verdict has to be at least the bound, or at most."""
        return self.at_least or self.part is not None

    def is_reached_by(self, value: float) -> bool:
        """Whether the value of a verdict is as it is wanted.

        Parameters
        ----------
        value : float
            The mean of a unit, or the part of the draws in which all hold.

        Returns
        -------
        bool
            Whether it is on the right side of `bound`.
        """
        return value >= self.bound - _LITTLE if self.is_upwards else value <= self.bound + _LITTLE


@dataclass(frozen=True)
class Unit:
    """A stream, a node, or one of these in a failure, with what was measured of it.

    Parameters
    ----------
    name : str
        Its name.
    values : sequence of float or None
        Its value in each draw, None where it has none (as no packet was due).
    packets : sequence of int
        How many packets are behind each; pairs of a packet and several receivers are one.
    """

    name: str
    values: Sequence[float | None]
    packets: Sequence[int] = ()

    @property
    def known(self) -> list[float]:
        """The values that there are."""
        return [value for value in self.values if value is not None]


@dataclass(frozen=True)
class Judgement:
    """A verdict, and what it goes by.

    Attributes
    ----------
    verdict : str
        "met", "not met" or "not decided".
    value : float
        The value of the worst unit; NaN where there is none.
    low, high : float
        The ends of its interval.
    worst : str
        The name of that unit.
    draws, packets : int
        How many draws and packets are behind it.
    needs : int or None
        How many draws a decision takes: None where none could be named; where it is decided, those that it took.
    broken : tuple of str
        The units whose own interval lies on the wrong side.
    """

    verdict: str
    value: float
    low: float
    high: float
    worst: str
    draws: int
    packets: int
    needs: int | None
    broken: tuple[str, ...] = ()


def judge(rule: Rule, *cases: Sequence[Unit]) -> Judgement:
    """The verdict of the units of a case, or of several cases, as failures, in each of which the requirement has to hold.

    Parameters
    ----------
    rule : Rule
        What is required of each unit.
    *cases : sequence of Unit
        The units of each case, which have the same number of draws, from 1 to `rule.most`; other cases may have other numbers.

    Returns
    -------
    Judgement
        The verdict of all, with the numbers of the worst unit.

    Raises
    ------
    ValueError
        Where there is no unit or no draw, or the numbers of draws of a case differ.
    """
    return _judged(rule, _looked(rule, cases), cases)


def judgements(rule: Rule, *cases: Sequence[Unit]) -> list[Judgement]:
    """The verdict of each of several cases by itself, of which `judge` makes that of all: one that is "not met" here is so there, since the error
    of some unit on the wrong side is divided by the units of all cases. How many draws a decision takes is not worked out. Raises what `judge`
    raises."""
    return [_judged(rule, [look], [units], False) for look, units in zip(_looked(rule, cases), cases)]


def _judged(rule: Rule, looked: Sequence[_Look], cases: Sequence[Sequence[Unit]], with_needs: bool = True) -> Judgement:
    """The verdict of cases that were looked at, maybe with how many draws a decision takes."""
    verdict = _verdict([one.verdict for one in looked])
    worst = min(looked, key=lambda one: (not math.isnan(one.seen.value), one.seen.value * (1 if rule.is_upwards else -1)))
    fold = min if rule.is_upwards else max
    low, high = fold(one.low for one in looked), fold(one.high for one in looked)
    packets = sum(sum(unit.packets) for units in cases for unit in units)
    needs = worst.draws if verdict != NOT_DECIDED else _needs_of(rule, looked) if with_needs else None
    broken = tuple(name for one in looked for name in one.seen.broken(one.draws, one.error, one.shared))
    return Judgement(verdict, worst.seen.value, low, high, worst.seen.worst, worst.draws, packets, needs, broken)


def verdicts_of(rule: Rule, cases: Sequence[Sequence[Unit]]) -> list[str]:
    """The verdict of each case by itself: one that is met stays so, and needs no more draws. Raises what `judge` raises."""
    return [one.verdict for one in _looked(rule, cases)]


def is_decided(rule: Rule, *cases: Sequence[Unit]) -> bool:
    """Whether the verdict of `judge` is "met" or "not met". Raises what it raises."""
    return _verdict(verdicts_of(rule, cases)) != NOT_DECIDED


@dataclass(frozen=True)
class _Look:
    """What a look at a case says: what its units say, of how many draws, the interval, the verdict, the error of its ends, and by how many
    that is divided by which some unit may lie on the wrong side."""

    seen: _Part | _Means
    draws: int
    low: float
    high: float
    verdict: str
    error: float
    shared: int


def _looked(rule: Rule, cases: Sequence[Sequence[Unit]]) -> list[_Look]:
    seen = [_seen(rule, units) for units in cases]
    if not seen:
        raise ValueError("a verdict is of one case or more")
    shared, found = sum(one.count for one, _ in seen), []
    for one, draws in seen:
        error = (1 - rule.confidence) / 2 * looks.spent(draws, max(draws, rule.most))
        low, high = one.ends(draws, error, shared)
        found.append(_Look(one, draws, low, high, one.verdict(draws, low, high), error, shared))
    return found


def _seen(rule: Rule, units: Sequence[Unit]) -> tuple[_Part | _Means, int]:
    """What the units of a case say, and of how many draws."""
    draws = {len(unit.values) for unit in units}
    if len(draws) != 1 or draws == {0}:
        raise ValueError(f"verdicts are of one unit or more with the same number of draws, from 1 on; the numbers are {sorted(draws)}")
    count = draws.pop()
    return (_Part(rule, units, count) if rule.part is not None else _Means(rule, units, count)), count


def _verdict(verdicts: Sequence[str]) -> str:
    """The verdict of all cases together."""
    return NOT_MET if NOT_MET in verdicts else NOT_DECIDED if NOT_DECIDED in verdicts else MET


def _needs_of(rule: Rule, looked: Sequence[_Look]) -> int | None:
    """How many draws a decision takes: of a case that shows what is not wanted, or else of all that are not decided."""
    left = [one for one in looked if one.verdict == NOT_DECIDED]
    bad = [one for one in left if not rule.is_reached_by(one.seen.value)]
    needs = [_needs(rule, one) for one in bad or left]
    known = [count for count in needs if count is not None]
    return min(known, default=None) if bad else None if len(known) < len(needs) else max(known)


def _needs(rule: Rule, look: _Look) -> int | None:
    """How many draws decide a case if they go on as they were, by the least error that a last look has."""
    error = (1 - rule.confidence) / 2 * looks.LAST_LEAST

    def decided(count: int) -> bool:
        return look.seen.verdict(count, *look.seen.ends(count, error, look.shared)) != NOT_DECIDED

    low, high = look.draws, 2 * look.draws
    while not decided(high):
        low, high = high, 2 * high
        if low > _NEEDS_MOST:
            return None
    while high - low > 1:
        middle = (low + high) // 2
        low, high = (low, middle) if decided(middle) else (middle, high)
    return high


class _Part:
    """The part of the draws in which all units hold, which is one number."""

    count = 1

    def __init__(self, rule: Rule, units: Sequence[Unit], draws: int) -> None:
        self.rule, self.draws = rule, draws
        rows = list(zip(*(unit.values for unit in units)))
        self.hold = sum(all(value is None or rule.holds(value) for value in row) for row in rows)
        self.value = self.hold / draws
        self.fails = {unit.name: sum(not rule.holds(value) for value in unit.known) for unit in units}
        means = {unit.name: _mean(unit) * (1 if rule.at_least else -1) for unit in units}
        self.worst = min(self.fails, key=lambda name: (-self.fails[name], math.isnan(means[name]), means[name]))

    def ends(self, draws: int, error: float, shared: int) -> Ends:
        """The interval of so many draws, if they are as these."""
        hold = self.hold * draws / self.draws
        return limits.of_part(hold, draws, error)[0], limits.of_part(hold, draws, error / shared)[1]

    def verdict(self, _: int, low: float, high: float) -> str:
        """What the interval says."""
        part = self.rule.bound
        return MET if low >= part else NOT_MET if high < part else NOT_DECIDED

    def broken(self, draws: int, error: float, shared: int) -> list[str]:
        """Where the interval lies on the wrong side, the units that fail in more of the draws than may."""
        if self.verdict(draws, *self.ends(draws, error, shared)) != NOT_MET:
            return []
        most = (1 - self.rule.bound) * self.draws + _LITTLE * self.draws
        return [name for name, count in self.fails.items() if count > most] or [self.worst]


class _Means:
    """The means over the draws of all units, of which the worst counts."""

    def __init__(self, rule: Rule, units: Sequence[Unit], draws: int) -> None:
        self.rule = rule
        self.spreads: Mapping[str, Spread] = {unit.name: Spread.of(unit.known, sum(unit.packets)) for unit in units if unit.known}
        self.unknown = [unit.name for unit in units if not unit.known]
        self.draws = draws
        sign = 1 if rule.at_least else -1
        known = sorted(self.spreads, key=lambda name: sign * self.spreads[name].mean)
        self.worst = (self.unknown or known)[0]
        self.value = self.spreads[self.worst].mean if not self.unknown else math.nan

    @property
    def count(self) -> int:
        """How many numbers there are."""
        return len(self.spreads)

    def ends(self, draws: int, error: float, shared: int) -> Ends:
        """The interval of the worst unit's true value by so many draws, if they are as these: the end that has to be on the right side has
        its error, the other one has it for all units together."""
        if self.unknown:
            return 0.0, 1.0 if self.rule.is_share else math.inf
        met, failed = (0, 1) if self.rule.at_least else (1, 0)
        worst = min if self.rule.at_least else max
        inner = worst(self._of(spread, draws, error)[met] for spread in self.spreads.values())
        outer = worst(self._of(spread, draws, error / shared)[failed] for spread in self.spreads.values())
        return (inner, outer) if self.rule.at_least else (outer, inner)

    def broken(self, draws: int, error: float, shared: int) -> list[str]:
        """The units whose interval lies on the wrong side, the worst first."""
        ends = {name: self._of(spread, draws, error / shared) for name, spread in self.spreads.items()}
        sign = 1 if self.rule.at_least else -1
        named = [name for name, (low, high) in ends.items() if (high < self.rule.wanted if self.rule.at_least else low > self.rule.wanted)]
        return sorted(named, key=lambda name: sign * self.spreads[name].mean)

    def _of(self, spread: Spread, draws: int, error: float) -> Ends:
        scaled = spread.times(draws / self.draws)
        return limits.of_share(scaled, error, self.rule.own_networks) if self.rule.is_share else limits.of_mean(scaled, error)

    def verdict(self, draws: int, low: float, high: float) -> str:
        """What the interval says."""
        wanted = self.rule.wanted
        good, bad = (low >= wanted, high < wanted) if self.rule.at_least else (high <= wanted, low > wanted)
        return MET if good and draws >= DRAWS_LEAST else NOT_MET if bad else NOT_DECIDED


def _mean(unit: Unit) -> float:
    return Spread.of(unit.known).mean if unit.known else math.nan
