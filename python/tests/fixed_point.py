"""All losses that the coins of a seed have, and those of them that change who receives, found by the first program alone.

`fixed_point` runs the first program, looks who transmitted to whom, writes the losses that count, and runs again until nothing
changes. So what the planner's program draws is compared with a second way that shares the coins alone.
"""

from __future__ import annotations

import itertools
from collections.abc import Iterator, Sequence
from dataclasses import dataclass, replace
from io import BytesIO
from typing import Any

import numpy
import pandas
from numpy.typing import NDArray

from foldcairn.model import lines
from foldcairn.model.events import Loss, millionths
from foldcairn.model.scenario import Link, Scenario
from foldcairn.runs import program as programs, results as runs
from foldcairn.runs.losses import TooManyLosses, beginning, coin, frame_of, keys_of, losses_of, pack, unpack

Array = NDArray[Any]

# For how many pairs of a transmission and a link losses are worked out at once: each takes some 200 bytes.
_PAIRS_AT_ONCE = 1 << 21


class _Ratios:
    """The ratios in force of some links, by their places in the list."""

    def __init__(self, scenario: Scenario, links: Sequence[Link]) -> None:
        place = {link: number for number, link in enumerate(links)}
        bounds = {number * lines.FRAMES_MOST: 1.0 for number in place.values()}
        for one in scenario.ratio_lines():
            bounds[place[one.sender, one.receiver] * lines.FRAMES_MOST + one.frame] = bound(one.prr)
        self.begins = numpy.array(sorted(bounds), numpy.int64)
        self.bounds = numpy.array([bounds[key] for key in sorted(bounds)], numpy.float64)

    def lost(self, seed: int, keys: Array, link: Array) -> Array:
        """Whether the coins of these keys, each of the link with that place, lose the packet."""
        at = numpy.searchsorted(self.begins, link * lines.FRAMES_MOST + (keys >> 26), "right") - 1
        lost: Array = coin(seed, keys) >= self.bounds[at]
        return lost


def bound(ratio: float) -> float:
    """Below it coins pass: the least multiple of 2^-53 that is no less than the ratio in millionths."""
    return -(-(millionths(ratio) << 53) // 1_000_000) / (1 << 53)


# What a log says.


@dataclass(frozen=True)
class _Log:
    """The transmissions of one log (`results.on_air`), by their starts, and when each radio was on, by `_tuned_key`."""

    sent: pandas.DataFrame
    tuned_key: Array
    tuned_end: Array

    def part(self, first: int, end: int) -> _Log:
        """The log with the transmissions from `first` on, before `end`."""
        return replace(self, sent=self.sent.iloc[first:end])

    def column(self, name: str) -> Array:
        """A column of the transmissions; of their packets the numbers by which equal ones are known."""
        values = self.sent[name]
        column: Array = (values.cat.codes if name == "packet" else values).to_numpy(numpy.int64)
        return column


def _tuned_key(rank: Array, node: Array, start: Array) -> Array:
    return ((rank * 256 + node) << 42) + start


def _read_log(output: bytes, profile: int) -> _Log:
    """The output of `log`, as far as losses depend on it."""
    sent, tuned = runs.on_air(BytesIO(output), profile)
    keys = _tuned_key(*(tuned[name].to_numpy() for name in ("rank", "node", "start_ticks")))
    order = numpy.argsort(keys)
    return _Log(sent, keys[order], tuned["end_ticks"].to_numpy()[order])


class _Links:
    """The links of a scenario by sender, with their reception ratios, and what the scenario loses by itself."""

    def __init__(self, scenario: Scenario) -> None:
        links = sorted(scenario.links)
        senders = numpy.array([sender for sender, _ in links], numpy.int64)
        self.receivers = numpy.array([receiver for _, receiver in links], numpy.int64)
        self.ratios = _Ratios(scenario, links)
        self.first = numpy.searchsorted(senders, numpy.arange(257))
        self.lost = numpy.sort(keys_of(scenario.losses))
        cuts: dict[int, int] = {}
        for cut in scenario.cuts:
            place, at = cut.frame * 256 + cut.node, cut.slot * 16 + cut.step
            cuts[place] = min(at, cuts.get(place, at))
        self.cut_places = numpy.array(sorted(cuts), numpy.int64)
        self.cut_from = numpy.array([cuts[place] for place in sorted(cuts)], numpy.int64)
        # Where captures are.
        self.captured = numpy.sort(_place_of(keys_of(Loss(x.frame, x.slot, x.step, x.sender, x.at) for x in scenario.captures)))

    def reach(self, senders: Array) -> tuple[Array, Array]:
        """For each link from each of the senders: the number of the sender in the list, and the number of the link."""
        counts = self.first[senders + 1] - self.first[senders]
        which = numpy.repeat(numpy.arange(len(senders)), counts)
        before = numpy.repeat(numpy.cumsum(counts) - counts, counts)
        return which, self.first[senders[which]] + numpy.arange(len(which)) - before

    def passes(self, keys: Array) -> Array:
        """Whether the scenario itself, by its losses and cuts, leaves these (frame, slot, step, sender, receiver) alone."""
        frame, slot, step, sender, receiver = unpack(keys)
        return ~(_among(keys, self.lost) | self._is_cut(frame, slot, step, sender) | self._is_cut(frame, slot, step, receiver))

    def _is_cut(self, frame: Array, slot: Array, step: Array, node: Array) -> Array:
        if not len(self.cut_places):
            return numpy.zeros(len(frame), bool)
        place = frame * 256 + node
        at = numpy.minimum(numpy.searchsorted(self.cut_places, place), len(self.cut_places) - 1)
        cut: Array = (self.cut_places[at] == place) & (self.cut_from[at] <= slot * 16 + step)
        return cut


def _place_of(keys: Array) -> Array:
    """Of each key of `pack` all but the sender."""
    place: Array = keys >> 16 << 8 | keys & 255
    return place


def _among(values: Array, ordered: Array) -> Array:
    """Whether each value is in the ordered array."""
    if not len(ordered):
        return numpy.zeros(len(values), bool)
    at = numpy.minimum(numpy.searchsorted(ordered, values), len(ordered) - 1)
    found: Array = ordered[at] == values
    return found


def _needed(log: _Log, links: _Links, seed: int) -> Array:
    """The losses that change who receives in this log, as ordered keys; worked out by batches of whole frames."""
    sender = log.column("node")
    pairs = numpy.cumsum(links.first[sender + 1] - links.first[sender])
    frames = numpy.flatnonzero(numpy.diff(log.column("frame"), prepend=-1))
    batches = frames[numpy.flatnonzero(numpy.diff(pairs[frames] // _PAIRS_AT_ONCE, prepend=-1))].tolist()
    bounds = itertools.pairwise([*batches, len(sender)])
    return numpy.concatenate([numpy.empty(0, numpy.int64), *(_needed_in(log.part(*bound), links, seed) for bound in bounds)])


def _needed_in(log: _Log, links: _Links, seed: int) -> Array:
    """The losses that change who receives in a part of a log that has whole frames, as ordered keys.

    A receiver is one that a link leads to, whose radio is on at the channel all the while, and that doesn't transmit. Where all
    packets that reach it in a step are equal, it receives as long as one link passes: so losses count where all links fail.
    Where they differ, as in contention slots, those count too whose packets differ from the one that is left.
    """
    sender, rank_of, frame, slot, step = (log.column(name) for name in ("node", "rank", "frame", "slot", "step"))
    which, link = links.reach(sender)
    receiver = links.receivers[link]
    rank, start = rank_of[which], log.column("start_ticks")[which]
    at = numpy.searchsorted(log.tuned_key, _tuned_key(rank, receiver, start), "right") - 1
    on = (at >= 0) & (log.tuned_key[at] >> 42 == rank * 256 + receiver) & (log.tuned_end[at] >= log.column("end_ticks")[which])
    which, link, receiver = which[on], link[on], receiver[on]
    step_of = ((rank_of * 4_096 + frame) * 64 + slot) * 16 + step
    place = step_of[which] * 256 + receiver
    keys = pack(frame[which], slot[which], step[which], sender[which], receiver)
    listens = ~_among(place, numpy.sort(step_of * 256 + sender)) & links.passes(keys)
    which, link, keys, place = which[listens], link[listens], keys[listens], place[listens]
    lost = links.ratios.lost(seed, keys, link)
    captured = _among(_place_of(keys), links.captured)
    return numpy.sort(keys[_changing(place, lost, log.column("packet")[which], captured)])


def _changing(place: Array, lost: Array, packet: Array, captured: Array) -> Array:
    """Which of the losses change what is received at their place, which is a step at a receiver.

    Where nothing is left, all do. Where equal packets are left, those of other packets do: they would have collided. Where
    packets that differ are left, none does, since these collide anyway; only where a capture line may save one, all do.
    """
    if not len(place):
        return lost
    order = numpy.argsort(place, kind="stable")
    starts = numpy.flatnonzero(numpy.diff(place[order], prepend=-1))
    sizes = numpy.diff(starts, append=len(place))
    gone = numpy.int64(-1)
    left = numpy.where(lost, gone, packet)[order]
    most = numpy.repeat(numpy.maximum.reduceat(left, starts), sizes)
    least = numpy.repeat(numpy.minimum.reduceat(numpy.where(left == gone, packet.max(), left), starts), sizes)
    counts = (most == gone) | ((least == most) & (packet[order] != most)) | captured[order]
    changing = numpy.empty(len(place), bool)
    changing[order] = lost[order] & counts
    return changing


def fixed_point(scenario: Scenario, seed: int) -> list[Loss]:
    """The losses that change who receives, by logs of the first program until none changes. What the bus reports is what it reports with
    those of `losses.draw`; lines may differ. Raises `TooManyLosses` and what `program.execute` raises."""
    drawn = numpy.empty(0, numpy.int64)
    for drawn in _draws(scenario.undrawn(), seed, drawn):
        pass
    return losses_of(drawn)


def _draws(scenario: Scenario, seed: int, drawn: Array) -> Iterator[Array]:
    """The losses as keys after each run, from those that are given: whatever these are, the last are the same."""
    links = _Links(scenario)
    used_up = len(scenario.rates) + len(scenario.script) + len(scenario.losses) + len(scenario.cuts) + len(scenario.captures)
    free = max(0, lines.SCRIPT_LINES_MOST - used_up)
    frames = scenario.frames
    while True:
        drawn = drawn[drawn >> 26 < frames]
        needed = _needed(_log(beginning(scenario, frames), drawn), links, seed)
        over = frame_of(needed[free]) if len(needed) > free else None
        # Up to the first difference all is final, and each run settles at least one step more: so this ends.
        if not numpy.array_equal(needed[:free], drawn):
            drawn = needed[:free]
            # What comes long after the lines are used up need not be run: it changes nothing before.
            frames = frames if over is None else min(frames, 2 * (over + 1))
        elif over is not None:
            raise TooManyLosses(over, free)
        elif frames == scenario.frames:
            yield drawn
            return
        else:
            frames = min(scenario.frames, 2 * frames)
        yield drawn


def _log(scenario: Scenario, drawn: Array) -> _Log:
    """The log of a run with these further losses."""
    text = scenario.text(warn=False) + "".join(loss.text() + "\n" for loss in losses_of(drawn))
    return _read_log(programs.execute(["log"], text), scenario.profile)


def every_loss(scenario: Scenario, seed: int, *, slots: int = 46, steps: int = lines.STEPS) -> list[Loss]:
    """All losses that the coins of the seed have, in slots and steps below these bounds, needed or not: for small networks.

    They are some `frames * slots * steps * links * (1 - ratio)` losses.
    """
    links = sorted({(one.sender, one.receiver) for one in scenario.ratio_lines()})
    if not links:
        return []
    senders, receivers = numpy.array(links, numpy.int64).T
    parts = numpy.indices((scenario.frames, slots, steps, len(links))).reshape(4, -1)
    keys = pack(parts[0], parts[1], parts[2], senders[parts[3]], receivers[parts[3]])
    return losses_of(keys[_Ratios(scenario, links).lost(seed, keys, parts[3])])
