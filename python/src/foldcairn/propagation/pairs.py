"""The pairs of nodes whose ratios come from the path loss, with their mean signal to noise ratio and their shadowing. Tested, not proved."""

from __future__ import annotations

import math
from collections.abc import Sequence
from dataclasses import dataclass

import numpy
from numpy.typing import NDArray

from ..common.arguments import ArgumentError
from . import curve, fit, path_loss, walls
from .curve import Numbers
from .presets import PRESETS
from .settings import Losses
from .survey import Node, Pair, Sample, Survey

Places = NDArray[numpy.int64]


@dataclass(frozen=True)
class Positions:
    """The pairs from sender to receiver, by their places in the list of nodes, and for each the mean signal to noise ratio in dB and the
    deviation of shadowing in dB: of the part that both directions share, of the part of one direction, and of both together."""

    pairs: list[Pair]
    senders: Places
    receivers: Places
    snr_db: Numbers
    shared: Numbers
    own: Numbers
    fitted: fit.Fit | None = None
    unheard: int = 0

    @property
    def deviation_db(self) -> Numbers:
        """The deviation of both parts together."""
        return numpy.hypot(self.shared, self.own)


def positions(names: Sequence[Node], where: Numbers, losses: Losses, measured: Survey, height: float, noise_dbm: float) -> Positions:
    """The pairs of a network whose ratios come from the path loss. `where` has a row for each node: x, y and floor."""
    wanted, unheard = _wanted(names, losses, measured)
    if not wanted:
        none, empty = numpy.zeros(0, dtype=int), numpy.zeros(0)
        return Positions([], none, none, empty, empty, empty, None, len(unheard))
    number = {name: place for place, name in enumerate(names)}
    ends = numpy.array([(number[one], number[other]) for one, other in wanted])
    site = _Site(names, where, losses, height)
    single = {(number[one], number[other]): samples[0] for (one, other), samples in measured.links.items() if len(samples) == 1}
    powers = {ends: one.rssi for ends, one in single.items() if one.rssi is not None}
    silent = [(number[one], number[other]) for one, other in unheard]
    fitted = site.fitted(received_powers(single, silent, noise_dbm, losses.bits)) if losses.source == "both" and losses.fit else None
    exponent, deviation = _numbers(losses, fitted)
    mean = site.received(ends, exponent)
    shared, own = _shadowing(losses.correlation, deviation, len(ends))
    for place, (one, other) in enumerate(ends.tolist()):
        # Of what the other direction's RSSI says of the shadowing, this direction has the part that both share.
        if (rssi := powers.get((other, one))) is not None:
            mean[place] += losses.correlation * (rssi - mean[place])
            shared[place], own[place] = 0.0, deviation * math.sqrt(1 - losses.correlation**2)
    return Positions(wanted, ends[:, 0], ends[:, 1], mean - noise_dbm, shared, own, fitted, len(unheard))


def _wanted(names: Sequence[Node], losses: Losses, measured: Survey) -> tuple[list[Pair], list[Pair]]:
    """The pairs that come from the path loss, and those that are none because nothing was received in a survey that both took part in."""
    unknown = list(measured.unknown) if losses.unknown == "positions" else []
    if losses.source not in ("positions", "both"):
        return unknown, []
    senders, receivers = ({pair[end] for pair in measured.links} for end in (0, 1))
    found, unheard = [], []
    for one in names:
        for other in names:
            if one == other or (one, other) in measured.links:
                continue
            if (one, other) in measured.unknown:
                if losses.unknown == "positions":
                    found.append((one, other))
            elif losses.unheard == "none" and one in senders and other in receivers:
                unheard.append((one, other))
            else:
                found.append((one, other))
    return found, unheard


def _numbers(losses: Losses, fitted: fit.Fit | None) -> tuple[float, float]:
    """The exponent and the deviation in dB: as given, else as fitted, else as of the preset."""
    found = []
    for name, value, those in (
        ("exponent", losses.exponent, fitted and fitted.exponent),
        ("deviation_db", losses.deviation_db, fitted and fitted.deviation_db),
    ):
        number = value if value is not None else those if those is not None else getattr(losses.kind, name, None)
        if number is None:
            raise ArgumentError(
                f"ratios by positions need `{name}`, or a `preset` ({', '.join(PRESETS)}), or with from = \"both\" at least {fit.LEAST_LINKS} "
                f"measured links to fit it, {fit.LEAST_PARTIAL} of them with an RSSI or a ratio from 5 to 95 %; write deviation_db = 0 for links "
                "without shadowing"
            )
        found.append(float(number))
    return found[0], found[1]


def _shadowing(correlation: float, deviation: float, count: int) -> tuple[Numbers, Numbers]:
    """The deviations in dB of the part of shadowing that both directions share and of the part of one direction."""
    return numpy.full(count, deviation * math.sqrt(correlation)), numpy.full(count, deviation * math.sqrt(1 - correlation))


class _Site:
    """Where nodes are, and what is between them."""

    def __init__(self, names: Sequence[Node], where: Numbers, losses: Losses, height: float) -> None:
        self.names, self.where, self.losses, self.height = names, where, losses, height

    def between(self, ends: Places) -> tuple[Numbers, Numbers]:
        """The distance of pairs in metres, and what walls and floors between them take in dB."""
        one, other = self.where[ends[:, 0]], self.where[ends[:, 1]]
        floors = numpy.abs(one[:, 2] - other[:, 2])
        through = walls.loss_db(one, other, self.losses.plan)
        if floors.any():
            through = through + path_loss.floors_db(floors, *self.losses.floors())
        return path_loss.metres(one, other, self.height), through

    def received(self, ends: Places, exponent: float) -> Numbers:
        """The mean received power of pairs in dBm. Raises `ArgumentError` where a place is not known."""
        lost = ~numpy.isfinite(self.where[:, :2]).all(axis=1)
        for place in numpy.unique(ends):
            if lost[place]:
                raise ArgumentError(f"node {self.names[place]} has no place (x, y), and ratios of its links come from positions")
        distance, through = self.between(ends)
        losses = self.losses
        return path_loss.received_dbm(distance, exponent, losses.reference_db, losses.transmit_dbm, through)

    def fitted(self, powers: dict[tuple[int, int], tuple[float, float]]) -> fit.Fit | None:
        """The exponent and deviation that fit bounds of received powers in dBm; None where too few of them are of nodes with places."""
        lost = ~numpy.isfinite(self.where[:, :2]).all(axis=1)
        found = {pair: bounds for pair, bounds in powers.items() if not lost[list(pair)].any()}
        if len(found) < fit.LEAST_LINKS:
            return None
        distance, through = self.between(numpy.array(list(found)))
        weakest, strongest = numpy.array(list(found.values())).T
        if (weakest == strongest).sum() < fit.LEAST_PARTIAL or distance[weakest == strongest].max() <= 1:
            return None
        above = self.losses.transmit_dbm - self.losses.reference_db - through
        return fit.exponent(distance, above - strongest, self.losses.exponent, above - weakest)


def received_powers(
    single: dict[tuple[int, int], Sample], silent: list[tuple[int, int]], noise_dbm: float, bits: int
) -> dict[tuple[int, int], tuple[float, float]]:
    """Between which bounds the received power of pairs lies, in dBm. An RSSI is known. So is the power of a ratio from 5 to 95 %, by the curve;
    a lower one says only that it was less, and a higher one that it was more. What a silent pair receives is less than all RSSI."""
    low, high = fit.PARTIAL
    by_curve = noise_dbm + curve.snr_of_ratio([min(max(one.ratio, low), high) for one in single.values()], bits)
    weak, strong = (noise_dbm + curve.snr_of_ratio(fit.PARTIAL, bits)).tolist()
    found: dict[tuple[int, int], tuple[float, float]] = {}
    for (ends, one), power in zip(single.items(), by_curve.tolist()):
        if one.rssi is not None:
            found[ends] = one.rssi, one.rssi
        elif low <= one.ratio <= high:
            found[ends] = power, power
        else:
            found[ends] = (-math.inf, weak) if one.ratio < low else (strong, math.inf)
    least = min([one.rssi for one in single.values() if one.rssi is not None], default=weak)
    return found | {ends: (-math.inf, least) for ends in silent}
