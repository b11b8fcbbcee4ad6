"""Requirements that no run can meet, by arithmetic alone. Tested, not proved.

Each bound is on the side of the plan: what is called impossible is so whatever is lost, and much that no run meets is not.

- A packet is handed over at the start of the first frame after its put, and a frame has one round at most, which starts 1 s after it. So
  it is received after the first data slot of that frame's round at the earliest.
- A host takes 32 streams. One that is always kept, by its packets or by keep-alive packets, never makes room.
- A round has 40 data slots, and a stream gets one each interval that it requests.
- No host opens a round in its first five frames.
"""

from __future__ import annotations

from typing import TYPE_CHECKING

import numpy as np

from ..common.limits import QUIET_FRAMES
from ..model import lines, moments
from ..model.events import Put
from ..model.scenario import Scenario
from ..plan import packets
from ..plan.model import Requirement, Stream
from ..runs.numbers import Numbers
from ..runs.results import ROUND_SECONDS, TICKS_A_SECOND
from . import measuring
from .cases import Case

if TYPE_CHECKING:
    from ..plan.plan import Plan

# Slots that a stream may get more than its interval says, at the ends of a run.
_MORE_SLOTS = 2
_LITTLE = 1e-9
_HOURS_A_YEAR = 24 * 365.25


def impossible(plan: Plan, requirement: Requirement, cases: list[Case], network: Scenario) -> str:
    """Why no run of the plan can meet a requirement in these cases, as a sentence; empty where arithmetic does not say so. The network is that
    of the plan without a seed."""
    if requirement.joined is not None:
        return _never_joined(plan, requirement)
    if requirement.outage is not None:
        return _no_backup(plan, cases)
    if requirement.years is not None:
        return _asleep_too_short(plan, requirement)
    streams = [stream for stream in plan.streams_of(requirement.streams, requirement.tag) if stream.source not in {case.failed for case in cases}]
    told = [_too_late(requirement, stream, cases[0], network) or _too_slow(requirement, stream, network) for stream in streams]
    return next(filter(None, told), "") or _too_many(plan, streams) or _too_many_slots(requirement, streams, network)


def _wanted(requirement: Requirement) -> float:
    return (requirement.share if requirement.share is not None else requirement.ratio) or 0.0


def earliest_seconds(profile: int) -> float:
    """How long after the start of its frame a packet is received at the earliest, in seconds."""
    return ROUND_SECONDS + 2 * lines.slot_ticks(profile) / TICKS_A_SECOND


def _too_late(requirement: Requirement, stream: Stream, case: Case, network: Scenario) -> str:
    """That too many packets have to wait for their frame longer than their deadline allows."""
    deadline = stream.deadline if requirement.deadline is None else requirement.deadline
    if requirement.share is None or deadline is None:
        return ""
    frame, round_seconds = network.frame_seconds, earliest_seconds(network.profile)
    if packets.varies(stream):
        # Its packets come at any time of a frame; what is so on average need not be so in each draw.
        part = min(1.0, max(0.0, (deadline - round_seconds) / frame))
        part = 1.0 if requirement.part is not None and part > 0 else part
    else:
        waits = _waits(stream, network, case.seconds, deadline)
        part = float(np.mean(waits + round_seconds <= deadline + _LITTLE)) if len(waits) else 1.0
    if part >= requirement.share - _LITTLE:
        return ""
    return (
        f"at most {100 * part:.3g} % of the packets of {stream.name} can be in time: a packet waits for its frame up to {frame} s, and for its slot "
        f"{round_seconds:.2f} s more; a deadline of {frame + round_seconds:.1f} s or more may hold, and {deadline:g} s may not"
    )


def _waits(stream: Stream, network: Scenario, start: float, deadline: float) -> Numbers:
    """How long each packet that counts waits for the start of a frame, in seconds."""
    source = network.id(stream.source)
    puts = [event for event in network.script if isinstance(event, Put) and (event.node, event.stream) == (source, stream.number or 0) and event.payload]
    times = np.array([network.put_seconds(event) for event in puts], dtype=np.float64)
    times = times[(times >= start) & (times + deadline <= network.seconds)]
    frames = np.array([moments.frame_from(time, network.frame_seconds) for time in times.tolist()], dtype=np.float64)
    return np.asarray(frames * network.frame_seconds - times, dtype=np.float64)


def _too_slow(requirement: Requirement, stream: Stream, network: Scenario) -> str:
    """That a stream requests fewer slots than it has packets."""
    if stream.every is None:
        return ""
    interval, run = packets.interval(stream), float(network.seconds)
    count, slots = run / stream.every, run / interval + _MORE_SLOTS
    if slots >= _wanted(requirement) * count:
        return ""
    return (
        f"{stream.name} has a packet every {stream.every:g} s and requests a slot every {interval} s, so at most {100 * slots / count:.3g} % of its packets "
        f"can be sent; request an interval of at most {max(1, int(stream.every / 1.15))} s"
    )


def _is_kept(stream: Stream, plan: Plan) -> bool:
    """Whether a host never takes it away for want of packets."""
    longest = lines.EMPTY_SLOTS * packets.interval(stream)
    often = min([value for value in (stream.every, packets.keep_alive(stream, plan.settings) or None) if value], default=None)
    return often is not None and often < longest


def _too_many(plan: Plan, streams: list[Stream]) -> str:
    """That more streams are there at a time than a host takes."""
    kept = [stream for stream in streams if _is_kept(stream, plan) and not isinstance(stream.start, str)]
    ends = plan.settings.hours * 3_600
    spans = [(float(stream.start), ends if stream.until is None else stream.until) for stream in kept]
    most = max((sum(start <= one < end for start, end in spans) for one, _ in spans), default=0)
    if most <= lines.STREAMS_OF_A_HOST:
        return ""
    more = most - lines.STREAMS_OF_A_HOST
    return (
        f"{most} streams are there at a time, and a host has room for {lines.STREAMS_OF_A_HOST}: the others are not accepted; take {more} of them out, or put "
        "the values of several sensors into one packet"
    )


def _too_many_slots(requirement: Requirement, streams: list[Stream], network: Scenario) -> str:
    """That more packets come than rounds have slots."""
    each = [network.frame_seconds / stream.every for stream in streams if stream.every is not None and stream.until is None]
    needed = sum(each) * _wanted(requirement)
    if needed <= lines.DATA_SLOTS:
        return ""
    return (
        f"its streams have {sum(each):.1f} packets a frame, and a round, at most one a frame, has {lines.DATA_SLOTS} slots; send more seldom, or several "
        "values in one packet"
    )


def _never_joined(plan: Plan, requirement: Requirement) -> str:
    """That a node is to be a member before any host opens a round."""
    frame = lines.frame_seconds(plan.settings.profile)
    first = QUIET_FRAMES * frame + ROUND_SECONDS
    hosts = {host.node for host in plan.hosts}
    begun = min(plan.nodes[node].on for node in hosts)
    early = [name for name in measuring.nodes_of(plan, requirement) if name not in hosts and plan.nodes[name].on <= begun]
    if not early or (requirement.joined or 0.0) >= first:
        return ""
    return f"no host opens a round in its first {QUIET_FRAMES} frames, so {early[0]} can be a member after {first:g} s at the earliest"


def _no_backup(plan: Plan, cases: list[Case]) -> str:
    """That the only host fails."""
    hosts = {host.node for host in plan.hosts}
    alone = [case.failed for case in cases if hosts == {case.failed}]
    return f"{alone[0]} is the only host, and nothing arrives once it has failed; give a second one by [[host]] with `rank = 1`" if alone else ""


def _asleep_too_short(plan: Plan, requirement: Requirement) -> str:
    """That what a node takes asleep is too much."""
    current = plan.battery.sleep_ma or 0.0
    for name in measuring.nodes_of(plan, requirement) if current > 0 else ():
        years = (plan.capacity_mah(name) or 0.0) / current / _HOURS_A_YEAR
        if years < (requirement.years or 0.0):
            return f"asleep alone, at {current:g} mA, the battery of {name} lasts {years:.2f} years"
    return ""
