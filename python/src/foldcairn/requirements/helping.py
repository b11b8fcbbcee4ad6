"""What would help first where a requirement is not met, or not decided: by what happened to packets or radios in one draw. Tested, not proved."""

from __future__ import annotations

import functools
from collections.abc import Callable
from dataclasses import dataclass, replace
from typing import TYPE_CHECKING, Any

import pandas as pd

from ..common import limits
from ..model import lines
from ..model.scenario import Scenario
from ..plan import packets
from ..plan.model import Requirement, Stream
from ..runs import numbers, results
from . import judging, membership
from .cases import Case
from .judging import Judgement, Rule, Unit

if TYPE_CHECKING:
    from ..plan.plan import Plan

# How many cases that break a requirement are named.
_NAMED_MOST = 5
# A stream gets its slots so many times as often as its packets come, so that a queue drains.
_SLACK = 1.15
# From which part of its time on with the radio on a node searches too much.
_SEARCHING = 0.2
_SENDS_MOST = 4
# After how many frames without a round a backup hosts, if nothing is lost (docs/BOUNDS.md).
_TAKEOVER = 1 + limits.SEARCH_FRAMES + limits.QUIET_FRAMES


@dataclass(frozen=True, eq=False)
class Wanted:
    """What help is asked for: a requirement with its rule and verdict, the case and the stream or node that is worst, and the draw of that case
    which is looked at."""

    requirement: Requirement
    rule: Rule
    judgement: Judgement
    worst: str
    draw: Looked

    @property
    def plan(self) -> Plan:
        """The plan of the requirement."""
        return self.draw.plan


# What is told of a stream, by how many of its packets.
_Told = Callable[[Wanted, Stream, int], str]


@dataclass(frozen=True, eq=False)
class Looked:
    """One draw of a plan in a case, which is looked at for what went wrong."""

    plan: Plan
    case: Case
    seed: int = 1

    @functools.cached_property
    def network(self) -> Scenario:
        """Its network."""
        return self.case.of(self.plan).network(self.seed)

    @functools.cached_property
    def fates(self) -> pd.DataFrame:
        """What became of its packets."""
        return results.fates(self.network, self.seed)


def broken(rule: Rule, by_case: dict[str, list[Unit]]) -> str:
    """The failures in which a requirement does not hold, as the start of a sentence: those with a unit whose mean, or whose part of the draws,
    is not what is wanted; empty where there is none."""
    values = {failed: judging.judge(replace(rule, most=len(units[0].values)), units).value for failed, units in by_case.items() if units}
    worst = {failed: value for failed, value in values.items() if not rule.is_reached_by(value)}
    named = sorted(worst, key=lambda failed: worst[failed] if rule.is_upwards else -worst[failed])
    more = f" and {len(named) - _NAMED_MOST} more" if len(named) > _NAMED_MOST else ""
    return f"it breaks without {', '.join(named[:_NAMED_MOST])}{more}; " if named else ""


def more_draws(asked: Wanted) -> str:
    """How many draws decide a requirement."""
    needs, rule = asked.judgement.needs, asked.rule
    if needs is None and rule.bound >= 1:
        return "no number of draws shows that all are in time: ask for 0.999 or less"
    if needs is None:
        return "it is too near to what is wanted to be decided by draws"
    also = ", or `in = 0.95` to ask of each network that is drawn instead of their mean" if rule.own_networks and rule.part is None and rule.is_share else ""
    return f"{needs:,} draws would decide it: `seeds = {needs}`{also}"


def help_for(asked: Wanted) -> str:
    """What would help first, as a sentence. Raises what `Plan.network` and `program.execute` raise."""
    if asked.requirement.joined is not None:
        return f"{asked.worst} receives the rounds of its host late: better links to it, or a relay near it"
    if asked.requirement.years is not None:
        return _to_last(asked)
    if asked.requirement.outage is not None:
        return _to_come_back(asked)
    return _to_arrive(asked, asked.plan.streams[asked.worst])


def _to_arrive(asked: Wanted, stream: Stream) -> str:
    """By what became of the packets of the worst stream that were not in time."""
    network, table, failed = asked.draw.network, asked.draw.fates, asked.draw.case.failed
    if failed in _first_host(asked.plan):
        return _to_come_back(asked)
    table = table[(table["source"] == network.id(stream.source)) & (table["stream"] == (stream.number or 0))]
    table = table[table["frame"] >= asked.draw.case.seconds / network.frame_seconds]
    became = table["became"].astype(str)
    sent, dropped = became == "sent", became == "dropped"
    before = table["frame"] < (table.loc[sent, "sent_frame"].min() if sent.any() else 0)
    waited = table["sent_frame"] - table["frame"]
    counts: dict[_Told, Any] = {
        _when_dropped: dropped.sum(), _when_early: (before & ~dropped).sum(),
        _when_late: (sent & ~before & (waited > _frames_allowed(asked, stream, network))).sum(), _when_never: (~sent & ~dropped & ~before).sum(),
    }  # fmt: skip
    # Where a packet arrived is not known here: what is left of those that are missing was sent, and did not reach its receivers.
    missing = round((1 - asked.judgement.value) * len(table)) if asked.rule.part is None else 0
    counts[_when_lost] = max((sent & (table["deliveries"] == 0)).sum(), missing - sum(counts.values()))
    worst = max(counts, key=lambda told: int(counts[told]))
    return (worst if counts[worst] else _when_lost)(asked, stream, int(counts[worst]))


def _frames_allowed(asked: Wanted, stream: Stream, network: Scenario) -> int:
    """How many frames a packet may wait and still be in time."""
    deadline = asked.requirement.deadline or stream.deadline
    return network.frames if deadline is None or asked.requirement.share is None else int(deadline // network.frame_seconds) - 1


def _first_host(plan: Plan) -> list[str]:
    """The node that hosts while none fails."""
    return [host.node for host in plan.hosts if host.rank == 0]


def _packets(count: int, stream: Stream) -> str:
    return f"{count} packet{'s' * (count > 1)} of {stream.name}"


def _when_dropped(_: Wanted, stream: Stream, count: int) -> str:
    return (
        f"{_packets(count, stream)} in a draw found no stream, or its queue of 16 full: request a shorter interval, or give it a `keep_alive` where its "
        "packets come seldom"
    )


def _when_early(asked: Wanted, stream: Stream, count: int) -> str:
    network = asked.draw.network
    joined = membership.joined_seconds(network, asked.draw.seed, 60.0)[network.id(stream.source)]
    seconds = joined + membership.GAP * network.frame_seconds
    late = not isinstance(stream.start, str) and stream.start < seconds
    advice = f"let it begin later, as `start = {seconds:.0f}`" if late else "let streams begin one after the other, or take a longer run by `hours`"
    return f"{_packets(count, stream)} in a draw came before its host had accepted it: {advice}"


def _when_late(_: Wanted, stream: Stream, count: int) -> str:
    interval = packets.interval(stream)
    better = max(1, int(min(interval / 2, (stream.every or 2 * interval) / _SLACK)))
    advice = f"request a shorter interval, `interval = {better}` in place of {interval}" if better < interval else "allow a longer deadline"
    return f"{_packets(count, stream)} in a draw waited too long for a slot: {advice}"


def _when_never(_: Wanted, stream: Stream, count: int) -> str:
    return f"{_packets(count, stream)} in a draw never got a slot: {stream.source} is no member of any host then; give it a second way, as by a relay"


def _when_lost(asked: Wanted, stream: Stream, _: int) -> str:
    sends = asked.plan.settings.sends
    more = f"`sends = {sends + 1}`, or " if sends < _SENDS_MOST else ""
    return f"packets of {stream.name} are sent and do not reach their receivers: {more}a relay, or better links, between {stream.source} and these"


def _to_last(asked: Wanted) -> str:
    network = asked.draw.network
    cost = numbers.cost(network, asked.draw.seed)
    place = cost.nodes.tolist().index(network.id(asked.worst))
    searching = float(cost.scanned_frames[place] * network.frame_seconds)
    on = searching + float(cost.window_seconds[place])
    part, of = 100 * on / network.seconds, asked.judgement.value / (asked.requirement.years or 1.0)
    told = f"the radio of {asked.worst} is on {part:.2g} % of the time, and some {part * of:.2g} % would do"
    if searching > _SEARCHING * on:
        return f"{told}; it searches for its host {100 * searching / on:.0f} % of that: better links to it"
    sends = "`sends = 1`, " if asked.plan.settings.sends > 1 else ""
    return f"{told}: {sends}longer intervals, or fewer streams"


def _to_come_back(asked: Wanted) -> str:
    if len(asked.plan.hosts) < 2:
        return "a second host: [[host]] with `rank = 1`"
    if asked.draw.case.failed not in _first_host(asked.plan):
        return f"what {asked.worst} sends goes by {asked.draw.case.failed}: give it a second way, as by a relay"
    frame = lines.frame_seconds(asked.plan.settings.profile)
    shorter = f"; with frames of {lines.frame_seconds(1)} s it is sooner, `profile = 1`" if asked.plan.settings.profile != 1 else ""
    return f"a backup takes over {_TAKEOVER} frames after the last round, {_TAKEOVER * frame} s, if nothing is lost: a backup amid the others{shorter}"
