"""What happens in a scenario after its start, in sentences: all that its script and its links have but the packets, which are the
workload's. Tested, not proved."""

from __future__ import annotations

from collections.abc import Iterable, Iterator

from ..model.events import Capture, Cut, Leave, Loss, Off, On, Stream
from ..model.scenario import Link, Scenario
from ..runs.results import TICKS_A_SECOND
from . import findings
from .power import script

# A sentence, and the second from which on it holds.
Told = tuple[float, str]

_LINKS_MOST = 6


def sentences(scenario: Scenario) -> list[str]:
    """A sentence for each time and kind of change, by their times: power, requests and ends of streams, changes of reception ratios and of
    clocks, and losses, cuts and captures that the scenario has."""
    told = [*_power(scenario), *_requests(scenario), *_ends(scenario), *_ratios(scenario), *_clocks(scenario), *_cuts(scenario), *_losses(scenario)]
    return [words for _, words in sorted(told, key=lambda one: one[0])]


def _power(scenario: Scenario) -> Iterator[Told]:
    happens: dict[tuple[int, str], list[int]] = {}
    for event in script(scenario):
        if isinstance(event, (On, Off)) and event.frame > 0:
            happens.setdefault((event.frame, "off" if isinstance(event, Off) else "on"), []).append(event.node)
    for (frame, word), nodes in happens.items():
        seconds = frame * scenario.frame_seconds
        yield seconds, f"At {seconds:,} s {findings.nodes(scenario, nodes)} {_is(nodes)} switched {word}."


def _is(several: Iterable[object]) -> str:
    return "is" if len(list(several)) == 1 else "are"


def _requests(scenario: Scenario) -> Iterator[Told]:
    """What streams request after the start: the first requests of all together, and each later one."""
    seen: set[tuple[int, int]] = set()
    first: list[int] = []
    later: dict[tuple[int, int], list[str]] = {}
    for event in script(scenario):
        if isinstance(event, Stream):
            key = (event.node, event.stream)
            if key in seen:
                later.setdefault((event.frame, event.interval), []).append(_stream(scenario, *key))
            else:
                first.append(event.frame * scenario.frame_seconds)
            seen.add(key)
    if first and first[-1] > 0:
        when = f"from {first[0]:,} to {first[-1]:,} s" if first[0] < first[-1] else f"at {first[0]:,} s"
        yield float(first[0]), f"{len(first)} stream{'s' * (len(first) > 1)} request{'s' * (len(first) == 1)} slots for the first time {when}."
    for (frame, interval), streams in later.items():
        seconds = frame * scenario.frame_seconds
        yield seconds, f"At {seconds:,} s {_listed(streams)} request{'s' * (len(streams) == 1)} a slot each {interval} s from now on."


def _stream(scenario: Scenario, node: int, stream: int) -> str:
    return f"stream {stream} of {findings.node(scenario, node)}"


def _ends(scenario: Scenario) -> Iterator[Told]:
    ended: dict[int, list[str]] = {}
    for event in script(scenario):
        if isinstance(event, Leave):
            ended.setdefault(event.frame, []).append(_stream(scenario, event.node, event.stream))
    for frame, streams in ended.items():
        seconds = frame * scenario.frame_seconds
        yield seconds, f"At {seconds:,} s {_listed(streams)} end{'s' * (len(streams) == 1)}, with what is queued."


def _ratios(scenario: Scenario) -> Iterator[Told]:
    """Changes of reception ratios, all of one frame together."""
    changes: dict[int, dict[Link, float]] = {}
    for (frame, sender, receiver), ratio in sorted(scenario.ratios.items()):
        if (sender, receiver) in scenario.links:
            changes.setdefault(frame, {})[sender, receiver] = ratio
    for frame, links in changes.items():
        seconds, low, high = frame * scenario.frame_seconds, min(links.values()), max(links.values())
        to = f"{_percent(low)}" if low == high else f"{100 * low:.3g} to {_percent(high)}"
        many = f"{len(links)} links change" if len(links) > 1 else "a link changes"
        yield seconds, f"From {seconds:,} s on the reception ratio{'s' * (len(links) > 1)} of {many} to {to}: {_listed(_changed(scenario, links))}."


def _changed(scenario: Scenario, links: dict[Link, float]) -> list[str]:
    """Links with their ratios, both directions of a pair together where they have the same."""
    told = []
    for (sender, receiver), ratio in links.items():
        both = links.get((receiver, sender)) == ratio
        if not both or sender < receiver:
            mark = "–" if both else "→"
            told.append(f"{scenario.name(sender)} {mark} {scenario.name(receiver)} {_percent(ratio)}")
    return told


def _percent(ratio: float) -> str:
    return f"{100 * ratio:.3g} %"


def _clocks(scenario: Scenario) -> Iterator[Told]:
    for rate in sorted(scenario.rates, key=lambda rate: rate.tick):
        if rate.tick > 0:
            seconds = rate.tick / TICKS_A_SECOND
            yield seconds, f"From {seconds:,.6g} s on the clock of {findings.node(scenario, rate.node)} gains {rate.ppm} ppm."


def _cuts(scenario: Scenario) -> Iterator[Told]:
    frames: dict[int, list[int]] = {}
    for cut in sorted(scenario.cuts):
        frames.setdefault(cut.node, []).append(cut.frame)
    for node, cuts in frames.items():
        yield _between(scenario, cuts, f"all links of {findings.node(scenario, node)} are cut to the end of the frame", len(set(cuts)), "frame")


def _losses(scenario: Scenario) -> Iterator[Told]:
    """Single losses, and receptions in spite of a collision, which are also what a draw writes."""
    by = f" (with those drawn by seed {scenario.seed})" if scenario.seed is not None else ""
    kinds: tuple[tuple[list[Loss] | list[Capture] | list[Cut], str], ...] = (
        (scenario.losses, f"single links lose what is sent{by}"), (scenario.captures, f"one of several unlike packets is received{by}"),
    )  # fmt: skip
    for events, words in kinds:
        if events:
            yield _between(scenario, [event.frame for event in events], words, len(events), "time")


def _between(scenario: Scenario, frames: list[int], words: str, count: int, unit: str) -> Told:
    """A sentence on what happens several times between two frames."""
    start, end = min(frames) * scenario.frame_seconds, (max(frames) + 1) * scenario.frame_seconds
    return start, f"Between {start:,} and {end:,} s {words}: {count:,} {unit}{'s' * (count > 1)}."


def _listed(words: list[str]) -> str:
    more = f" and {len(words) - _LINKS_MOST} more" if len(words) > _LINKS_MOST else ""
    return ", ".join(words[:_LINKS_MOST]) + more
