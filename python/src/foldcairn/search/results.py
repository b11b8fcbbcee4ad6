"""What draws, or verdicts, say of one setting: of each requirement its value, of the battery its life, and how far all are from what is wanted.

Tested, not proved.
"""

from __future__ import annotations

import math
from collections.abc import Sequence
from dataclasses import dataclass

import pandas as pd

from ..requirements.judging import IMPOSSIBLE, MET, NOT_DECIDED, NOT_MET, Judgement, Rule
from ..requirements.running import Asked

# What becomes of a setting; of one that got no more draws, since others look better, it is this.
OUTDONE = "outdone"
VERDICTS = (MET, NOT_DECIDED, OUTDONE, NOT_MET, IMPOSSIBLE)


@dataclass(frozen=True)
class Value:
    """What was seen of a requirement: its verdict, the `value` of the worst stream or node, in the unit of `wanted`, and its interval. A part of
    packets or of draws is a share, which has to be at least what is wanted, as years have to; seconds have to be at most that."""

    name: str
    verdict: str
    value: float
    low: float
    high: float
    wanted: float
    worst: str
    is_of_packets: bool
    at_least: bool
    is_part: bool

    @property
    def miss(self) -> float:
        """How much is missing, from 0 (nothing) to 1: of a part in parts, else as a part of what is wanted. Where nothing was due it is 1."""
        if math.isnan(self.value):
            return 1.0
        if self.is_part:
            return max(0.0, self.wanted - self.value)
        if self.at_least:
            return max(0.0, 1 - self.value / self.wanted)
        return max(0.0, 1 - self.wanted / self.value) if self.value > 0 else 0.0


def of_draws(asked: Asked, told: Judgement) -> Value:
    """The value of a requirement by some draws."""
    rule = asked.rule
    is_part, is_of_packets = rule.is_share or rule.part is not None, rule.is_share and rule.part is None
    return Value(
        asked.requirement.name, told.verdict, told.value, told.low, told.high, rule.bound, told.worst, is_of_packets, rule.is_upwards, is_part,
    )  # fmt: skip


def of_verdicts(asked: Sequence[Asked], table: pd.DataFrame) -> list[Value]:
    """The values of all requirements by the table of their verdicts, which has them in the same order."""
    return [
        of_draws(one, Judgement(row["verdict"], row["value"], row["low"], row["high"], row["worst"], row["draws"], row["packets"], None))
        for one, row in zip(asked, table.to_dict("records"))
    ]


@dataclass(frozen=True)
class Life:
    """The life of the battery that is empty first, in years, its interval and its node; not a number where no draw was made."""

    years: float = math.nan
    low: float = math.nan
    high: float = math.nan
    node: str = ""


# What of a life is asked: nothing but its value.
LIFE = Rule(0.0, is_share=False)


@dataclass(frozen=True)
class Seen:
    """What was seen of a setting: the values of its requirements, and its life."""

    values: Sequence[Value] = ()
    life: Life = Life()

    @property
    def miss(self) -> float:
        """How much all requirements miss together; 0 if each is as it is wanted."""
        return math.fsum(one.miss for one in self.values)

    @property
    def is_good(self) -> bool:
        """Whether each value is as it is wanted."""
        return self.miss == 0

    @property
    def verdict(self) -> str:
        """Of all requirements together: "met", "not met" or "not decided"."""
        told = [one.verdict for one in self.values]
        return NOT_MET if NOT_MET in told or IMPOSSIBLE in told else NOT_DECIDED if NOT_DECIDED in told or not told else MET

    @property
    def failing(self) -> Value | None:
        """The first requirement that is not met, else the first that its value misses, else the first that is not decided."""
        for wanted in ((NOT_MET, IMPOSSIBLE), (NOT_DECIDED,)):
            found = [one for one in self.values if one.verdict in wanted]
            missed = [one for one in found if one.miss > 0]
            if found and (missed or NOT_DECIDED not in wanted):
                return (missed or found)[0]
        return next((one for one in self.values if one.verdict == NOT_DECIDED), None)

    @property
    def tightest(self) -> Value | None:
        """The requirement of packets whose share is least above what is wanted."""
        shares = [one for one in self.values if one.is_of_packets and not math.isnan(one.value)]
        return min(shares, key=lambda one: one.value - one.wanted) if shares else None

    @property
    def margin(self) -> float:
        """By how much the share of the tightest requirement of packets is above what is wanted; not a number where there is none."""
        tightest = self.tightest
        return math.nan if tightest is None else tightest.value - tightest.wanted
