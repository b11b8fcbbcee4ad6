"""How long things take at most in a network: the bounds of docs/BOUNDS.md, each with whether what it needs holds of the scenario.

The numbers are proved of the programs, by the functions of the crate `law_times` that the column `proof` names. Whether their
premises hold of a scenario is decided by the program's command `bounds` for first rounds, failovers, memberships and scanning, which
is proved, for every seed; an older program writes nothing of the last two. Of all else it is worked out here, from script, links,
losses and ratios, what is in the way. That is tested, not proved, so where nothing is found they are not checked. A premise on what
a run comes to, as that the host has accepted a stream, can't be told from the script, and then the answer is that it is not known.
`planning` has all answers in one place.
"""

from __future__ import annotations

from collections import Counter
from collections.abc import Iterable, Iterator
from dataclasses import dataclass
from functools import cached_property
from math import ceil

import networkx
import numpy as np
import pandas as pd
from numpy.typing import NDArray

from ..common import arguments
from ..common.limits import EMPTY_SLOTS, GREATEST_GAP, QUIET_FRAMES, SEARCH_FRAMES
from ..model import cautions, lines
from ..model.events import Leave, Put, Stream, millionths
from ..model.scenario import Scenario
from ..runs import program
from ..runs.results import Report
from . import power
from .answering import typed

# Of two hosts, from the round that falls out to the first of the other.
TAKEOVER_FRAMES = 1 + SEARCH_FRAMES + QUIET_FRAMES
# The rounds within which two contenders part, by the number of contention slots.
PARTING_ROUNDS = {1: 30, 2: 28, 3: 30, 4: 24}
# How many rounds with losses in a row cost a member no more than `GREATEST_GAP` frames each.
LOSSY_ROUNDS = 3
_QUEUES = (1, 2, 4)
_REJECTED = "the program rejects the text of this network, and so decides nothing of it"
_SHOWN_MOST = 4


def failover_frames(hosts: int) -> int:
    """The frames within which the last host that is on hosts, in a network of so many hosts, 1 to 4, whatever is lost."""
    return GREATEST_GAP + SEARCH_FRAMES * (arguments.whole("hosts", hosts, 1, 4) - 1) + QUIET_FRAMES


def latency_frames(queue: int, interval: int, seconds: int) -> int:
    """The frames within which the packet that is `queue`-th of those that wait in a stream is delivered, with a slot each `interval`
    seconds, and `seconds` a frame."""
    return ceil(queue * interval / seconds) + 2


def bounds(network: Scenario | Report, by: str = "network") -> pd.DataFrame:
    """How long things take at most, by proof, and what that needs.

    A bound that does not hold is still the number for networks in which it does: whatever is in the way may make it longer
    (docs/BOUNDS.md).

    Parameters
    ----------
    network : Scenario or results.Report
        The network, or a report of it: then it is what that needs of the run, where ratios by which nothing was drawn lose nothing.
    by : {"network", "stream"}
        What has a row: each bound, or each stream.

    Returns
    -------
    pandas.DataFrame
        A row for each bound.

        bound
            "first round", "membership", "scanning" (for each round with losses), "failover" (of the last host that is on, whatever is
            lost), "takeover" (of two hosts, from the round that falls out), "latency" or "contention"
        of
            the node, the nodes or the streams that it is of
        packets
            of latencies: the place of the packet among those of its stream that wait, 1 of the one that is sent next; 0 of other bounds.
            Streams of which the same holds share three rows, by the longest of their intervals
        frames
            the bound, and `seconds` in seconds: frames by plan, each of its whole length
        by_seconds
            when that is over at the latest by plan, from the start of the run, where the script says when it begins
        holds
            whether all that the bound needs holds of the scenario as written: "yes" where the program decides it for every seed, "no" where
            something is in the way, "not known" where part of what it needs can't be told from the scenario, or "not checked" where nothing
            was found in the way, and the program does not decide it
        premise
            what it needs; where that does not hold, what is in the way, and where that is not known, what can't be told
        proof
            the function of the crate `law_times` that proves it, of any scenario of which the premises hold

        With `by` = "stream" there is a row for each `source` and `stream` that asks for slots, with its `interval` in seconds, and each
        number of `packets`. First rounds, memberships, scanning and failovers alone are ever "yes". Of memberships and scanning that is so
        after the first round of that boot, for as long as `premise` says.

    Raises
    ------
    ArgumentError
        Where `by` is another word, or `network` is neither.
    program.ProgramError
        As `program.execute` does.
    """
    arguments.one_of("by", by, ("network", "stream"))
    if not isinstance(network, (Scenario, Report)):
        raise arguments.ArgumentError(
            f"`bounds` takes a network or the report of a run, and was given a {type(network).__name__}; write Scenario.read(..) of a text"
        )
    scenario = _as_run(network) if isinstance(network, Report) else network
    if by == "stream":
        return _by_stream(_Known(scenario))
    columns = ["bound", "of", "packets", "frames", "seconds", "by_seconds", "holds", "premise", "proof"]
    table = pd.DataFrame([_row(scenario, bound) for bound in of(scenario)], columns=columns)
    return typed(table.astype({"frames": "int64", "seconds": "float64", "by_seconds": "float64"}))


def _as_run(report: Report) -> Scenario:
    """The scenario of a report without ratios that no loss of the run was drawn by."""
    if report.origin.seed is not None or not report.scenario.is_to_be_drawn:
        return report.scenario
    made = report.scenario.copy()
    made.prr, made.ratios = {}, {}
    return made


@dataclass(frozen=True)
class Bound:
    """A row of `bounds`. It counts from the frame `begins` on, None where the script does not say; `wrong` is what is in the way, and
    `untold` what it needs and a script can't tell. The program decides it where `decided`."""

    bound: str
    of: str
    frames: int
    needs: str
    proof: str
    wrong: tuple[str, ...] = ()
    begins: int | None = None
    packets: int = 0
    untold: tuple[str, ...] = ()
    decided: bool = False

    @property
    def holds(self) -> str:
        """Whether all that it needs holds: "yes", "no", "not known" or "not checked"."""
        found = _holds(self.wrong, self.untold)
        return found if found != "not checked" or not self.decided else "yes"

    @property
    def premise(self) -> str:
        """What it needs, or what is in the way, or what can't be told."""
        return "; ".join(self.wrong or self.untold) or self.needs


def _holds(wrong: tuple[str, ...], untold: tuple[str, ...]) -> str:
    return "no" if wrong else "not known" if untold else "not checked"


def of(scenario: Scenario) -> list[Bound]:
    """The rows of `bounds`."""
    known = _Known(scenario)
    return [one for rows in (_first_rounds, _membership, _scanning, _failover, _takeover, _latency, _contention) for one in rows(known)]


def _row(scenario: Scenario, bound: Bound) -> tuple[object, ...]:
    seconds = scenario.frame_seconds
    by = float("nan") if bound.begins is None else float((bound.begins + bound.frames) * seconds)
    return (
        bound.bound, bound.of, bound.packets, bound.frames, float(bound.frames * seconds), by, bound.holds, bound.premise, bound.proof,
    )  # fmt: skip


@dataclass(frozen=True)
class _Boot:
    """A time with power: from frame `on` on, before frame `off`, which is the end of the run where no line ends it."""

    node: int
    on: int
    off: int


@dataclass(frozen=True)
class _Decided:
    """A line of the program's `bounds`, of a node: counted from that frame on, None where there is none. `reason` is the premise that
    fails, empty where the bound holds, and `event` the word of the line that breaks it, where one does, and its first three numbers."""

    bound: str
    node: int
    frame: int | None
    reason: str = ""
    event: tuple[str, int, int, int] | None = None

    @classmethod
    def read(cls, written: str, text: list[str]) -> _Decided:
        """That of a line of the report of a text with these lines."""
        word, bound, node, *rest = written.split()
        reason = next((place for place, one in enumerate(rest) if not one.isdigit()), len(rest))
        frame = int(rest[0]) if reason else None
        if word == "holds":
            return cls(bound, int(node), frame)
        event = None
        for number in rest[reason + 1 :]:
            name, *numbers = text[int(number) - 1].split()
            event = (name, int(numbers[0]), int(numbers[1]), int(numbers[2]) if len(numbers) > 2 else 0)
        return cls(bound, int(node), frame, rest[reason], event)


class _Known:
    """What the premises ask of a scenario."""

    def __init__(self, scenario: Scenario) -> None:
        self.scenario = scenario
        self.boots = [_Boot(node, on, off) for node, _, on, off in power.frames_with_power(scenario)]

    def boots_of(self, node: int) -> list[_Boot]:
        """The boots of a node."""
        return [boot for boot in self.boots if boot.node == node]

    @cached_property
    def decided(self) -> list[_Decided]:
        """What the program decides of this network, by frame; nothing of a text that it rejects, and else something of each host."""
        text = self.scenario.network_text(warn=False)
        try:
            written = program.execute(["bounds"], text).decode()
        except program.Refused:
            return []
        read = [_Decided.read(line, text.splitlines()) for line in written.splitlines()]
        return sorted(read, key=lambda one: -1 if one.frame is None else one.frame)

    def broken(self, one: _Decided, frames: int) -> tuple[str, ...]:
        """What breaks a bound of so many frames."""
        if one.reason == "rounds":
            return (f"the run ends before {self.when((one.frame or 0) + frames)}",)
        if one.event is not None and one.event[0] == "on" and one.event[2] != one.node:
            return (f"another host is switched on in {self.when(one.event[1])}",)
        if one.event is not None:
            return (f"{self.named([one.event[2]])} is switched off in {self.when(one.event[1])}",)
        return (f"{self.named([one.node])} is on in no frame",) if one.reason else ()

    def joining(self, bound: str) -> Iterator[tuple[int | None, list[_Decided]]]:
        """What the program decides of each bound of that name on a node, by the boot of the host that it is counted from, None where
        there is none: what is open first, and each with its nodes in order."""
        ones = [one for one in self.decided if one.bound == bound]
        for frame in dict.fromkeys(one.frame for one in ones):
            of_boot = [one for one in ones if one.frame == frame]
            for group in ([one for one in of_boot if one.reason], [one for one in of_boot if not one.reason]):
                if group:
                    yield frame, group

    def kept_out(self, ones: list[_Decided]) -> tuple[str, ...]:
        """What breaks bounds on nodes after one boot of the host, each once with its nodes."""
        nodes: dict[str, set[int]] = {}
        for one in ones:
            nodes.setdefault(self._broken_of(one), set()).add(one.node)
        return tuple(says.format(nodes=self.named(of), are=_are(of), have=_have(of)) for says, of in nodes.items() if says)

    def _broken_of(self, one: _Decided) -> str:
        """What breaks a bound on a node, with fields for the nodes of which the same is said."""
        begun = one.frame or 0
        first = begun + QUIET_FRAMES
        if one.reason == "power":
            if one.event is not None and one.event[0] == "off" and one.event[1] > begun:
                return _plain(f"{self.named([one.event[2]])} is switched off in {self.when(one.event[1])}")
            if one.event is not None and one.event[0] == "on":
                return f"{{nodes}} {{are}} on from before, and not switched on from {self.when(begun)} to {self.when(first)}"
            return f"{{nodes}} {{have}} no power from then to {self.when(first)} on"
        link = f", from node {self.scenario.name(one.event[2])} to node {self.scenario.name(one.event[3])}" if one.event else ""
        return {
            "": "",
            "boots": _plain(f"{self.named([self.host or 0])} is on in no frame"),
            "rounds": f"the run ends before {self.when(first + 1)}",
            "loss": f"packets may be lost in {self.when(first)}, by a line `{one.event[0] if one.event else 'lose'}`",
            "ratio": _plain(f"packets may be lost in {self.when(first)}, by a ratio{link}"),
            "reach": "{nodes} {are} out of reach of the host",
        }[one.reason]

    @cached_property
    def steady(self) -> set[int]:
        """The nodes that are on from their only boot to the end of the run."""
        counts = Counter(boot.node for boot in self.boots)
        return {boot.node for boot in self.boots if counts[boot.node] == 1 and boot.off == self.scenario.frames > boot.on}

    def when(self, frame: int) -> str:
        """A frame, in words."""
        return f"frame {frame} ({frame * self.scenario.frame_seconds:,} s)"

    def named(self, nodes: Iterable[int]) -> str:
        """Nodes in words, cut where there are many."""
        listed = sorted(nodes)
        names = ", ".join(self.scenario.name(node) for node in listed[:_SHOWN_MOST])
        rest = f" and {len(listed) - _SHOWN_MOST} more" if len(listed) > _SHOWN_MOST else ""
        return f"{'node' if len(listed) == 1 else 'nodes'} {names}{rest}"

    @cached_property
    def lossy(self) -> NDArray[np.bool_]:
        """Of each frame whether something is lost in it, by a line or by a ratio that is still to be drawn by."""
        found = np.zeros(self.scenario.frames + 1, bool)
        found[[*(loss.frame for loss in self.scenario.losses), *(cut.frame for cut in self.scenario.cuts)]] = True
        if self.scenario.is_to_be_drawn:
            low: set[tuple[int, int]] = set()
            changes = self.scenario.ratio_lines()
            for one, end in zip(changes, [*(line.frame for line in changes[1:]), self.scenario.frames]):
                (low.discard if millionths(one.prr) == 1_000_000 else low.add)((one.sender, one.receiver))
                found[one.frame : end] |= bool(low)
        return found[:-1]

    def first_loss(self, frame: int) -> int | None:
        """The first frame from this one on in which something may be lost."""
        found = np.flatnonzero(self.lossy[frame:])
        return frame + int(found[0]) if len(found) else None

    def unreached(self, source: int, among: Iterable[int]) -> set[int]:
        """The nodes to which no chain of 12 links leads from the source, along these nodes."""
        inside = {source, *among}
        graph = networkx.DiGraph([link for link in self.scenario.links if inside >= set(link)])
        graph.add_node(source)
        return inside - set(networkx.single_source_shortest_path_length(graph, source, cutoff=lines.STEPS))

    @cached_property
    def host(self) -> int | None:
        """The host of rank 0."""
        return self.scenario.hosts.get(0)

    @cached_property
    def start(self) -> _Boot | None:
        """The first boot of the host of rank 0."""
        boots = self.boots_of(self.host) if self.host is not None else []
        return boots[0] if boots else None

    def kept(self, boot: _Boot, last: int) -> tuple[str, ...]:
        """What is in the way of a node that is to stay on up to that frame."""
        if boot.off <= last and boot.off < self.scenario.frames:
            return (f"{self.named([boot.node])} is switched off in {self.when(boot.off)}",)
        return (f"the run ends before {self.when(last)}",) if last >= self.scenario.frames else ()


# When the network runs.


def _first_rounds(known: _Known) -> Iterator[Bound]:
    needs = "the host stays on; whatever is lost"
    if known.host is None or known.start is None:
        yield Bound("first round", "the host of rank 0", QUIET_FRAMES, needs, "first_round_frames", (_no_host(known),))
        return
    if not known.decided:
        yield Bound("first round", known.named([known.host]), QUIET_FRAMES, needs, "first_round_frames", (_REJECTED,))
    for one in (one for one in known.decided if one.bound == "first"):
        wrong = known.broken(one, QUIET_FRAMES)
        yield Bound("first round", known.named([one.node]), QUIET_FRAMES, needs, "first_round_frames", wrong, one.frame, decided=True)


def _membership(known: _Known) -> Iterator[Bound]:
    """When nodes are members, and for how long."""
    if known.start is None:
        return
    if any(one.bound == "joined" for one in known.decided):
        yield from _members_decided(known)
        return
    begun = known.start.on
    first = begun + QUIET_FRAMES
    ends = min((frame for frame in (known.first_loss(first), _first_leave(known, first)) if frame is not None), default=None)
    needs = f"nothing is lost and nobody is switched off, which holds {_until(known, ends)}: so long all stay members"
    yield Bound("membership", "all nodes", QUIET_FRAMES + 1, needs, "members_stay", tuple(_in_the_way_of_members(known)), begun)


def _members_decided(known: _Known) -> Iterator[Bound]:
    """When nodes are members, and for how long, by the program."""
    for begun, ones in known.joining("joined"):
        first = (begun or 0) + QUIET_FRAMES
        ends = min((frame for frame in (known.first_loss(first), _first_leave(known, first)) if frame is not None), default=None)
        needs = f"nothing is lost and nobody is switched off, which holds {_until(known, ends)}: so long they stay members"
        yield Bound("membership", _of(known, ones), QUIET_FRAMES + 1, needs, "members_stay", known.kept_out(ones), begun, decided=True)


def _of(known: _Known, ones: list[_Decided]) -> str:
    """The nodes of lines, in words."""
    return "all nodes" if len(ones) == len(known.scenario.nodes) - 1 else known.named(one.node for one in ones)


def _until(known: _Known, ends: int | None) -> str:
    return "to the end of the run" if ends is None else f"up to {known.when(ends)}"


def _in_the_way_of_members(known: _Known) -> Iterator[str]:
    """What is in the way of all nodes being members after the first round of the host of rank 0."""
    if known.start is None:
        yield _no_host(known)
        return
    begun, others = known.start.on, set(known.scenario.nodes) - {known.start.node}
    first = begun + QUIET_FRAMES
    yield from known.kept(known.start, first)
    up = {boot.node for boot in known.boots if begun <= boot.on <= first < boot.off}
    if late := others - up:
        yield f"{known.named(late)} {_have(late)} no power from then to {known.when(first)} on"
    if far := known.unreached(known.start.node, up) & up:
        yield f"{known.named(far)} {_are(far)} out of reach of the host"
    if known.first_loss(first) == first:
        yield f"packets may be lost in {known.when(first)}"


def _first_leave(known: _Known, first: int) -> int | None:
    """The first frame after that one in which a node is switched off."""
    return min((boot.off for boot in known.boots if first < boot.off < known.scenario.frames), default=None)


def _no_host(known: _Known) -> str:
    return "no node hosts" if known.host is None else f"{known.named([known.host])}, the host of rank 0, is never switched on"


def _plain(says: str) -> str:
    """The words as they are, where fields are filled in: names of nodes may have braces."""
    return says.replace("{", "{{").replace("}", "}}")


def _have(nodes: set[int]) -> str:
    return "has" if len(nodes) == 1 else "have"


def _are(nodes: set[int]) -> str:
    return "is" if len(nodes) == 1 else "are"


def _scanning(known: _Known) -> Iterator[Bound]:
    """What a round with losses costs a member."""
    if known.start is not None and any(one.bound == "scanning" for one in known.decided):
        yield from _scanning_decided(known)
        return
    # A node is no member before its host has had a round.
    begun = known.start.on + QUIET_FRAMES if known.start else 0
    ends = _lossy_row(known, begun)
    wrong = list(_in_the_way_of_members(known))
    if (leaves := _first_leave(known, begun)) is not None:
        wrong.append(f"{known.named({boot.node for boot in known.boots if boot.off == leaves})} is switched off in {known.when(leaves)}")
    if ends is not None:
        wrong.append(f"more than three rounds in a row may lose packets, as up to {known.when(ends)}")
    needs = "all are members after the first round and stay on, and no more than three rounds with losses follow one another"
    yield Bound("scanning", "a member, for each round with losses", GREATEST_GAP, needs, "lossy_round_frames", tuple(wrong))


def _scanning_decided(known: _Known) -> Iterator[Bound]:
    """What a round with losses costs nodes that are members, by the program."""
    for begun, ones in known.joining("scanning"):
        first = (begun or 0) + QUIET_FRAMES
        ends = min((frame for frame in (_lossy_row(known, first + 1), _first_leave(known, first)) if frame is not None), default=None)
        needs = (
            f"from {known.when(first + 1)} on nobody is switched off, and no more than three rounds with losses follow one another, "
            f"which holds {_until(known, ends)}"
        )
        of = "a member" if (nodes := _of(known, ones)) == "all nodes" else nodes
        of += ", for each round with losses"
        yield Bound("scanning", of, GREATEST_GAP, needs, "lossy_round_frames", known.kept_out(ones), decided=True)


def _lossy_row(known: _Known, begun: int) -> int | None:
    """The first frame from this one on with which more than three rounds in a row may lose packets."""
    frames = (begun + np.flatnonzero(known.lossy[begun:])).tolist()
    row = 1
    for earlier, later in zip(frames, frames[1:]):
        row = row + 1 if later - earlier <= GREATEST_GAP else 1
        if row > LOSSY_ROUNDS:
            return int(later)
    return None


# When a host fails.


def _failover(known: _Known) -> Iterator[Bound]:
    count = len(known.scenario.hosts)
    if count < 2:
        return
    frames = failover_frames(count)
    needs = "the other hosts stay off, and this one on; whatever is lost"
    # A host that is off when the last other one goes off, or beside which one is still on, is not the last that is on.
    alone = [
        one for one in known.decided
        if one.bound == "failover" and one.frame is not None
        and not (one.reason == "power" and (one.event is None or one.event[1] <= one.frame))
    ]  # fmt: skip
    for one in alone:
        wrong = known.broken(one, frames)
        yield Bound("failover", known.named([one.node]), frames, needs, "failover_frames", wrong, one.frame, decided=True)
    if not alone:
        none = "no line leaves one host alone: it is what a failure of the others would take"
        told = (none if known.decided else _REJECTED,)
        yield Bound("failover", "the last host that is on", frames, needs, "failover_frames", told)


def _takeover(known: _Known) -> Iterator[Bound]:
    if len(known.scenario.hosts) != 2:
        return
    second = known.scenario.hosts[1]
    needs = "of two hosts that of rank 0 stays off, and all others hold one round of it and stay on; whatever is lost then"
    failures = [boot for boot in known.boots if boot.node == known.host and boot.off < known.scenario.frames]
    if not failures:
        told = (f"no line switches {known.named([known.host or 0])} off: it is what a failure would take",)
        yield Bound("takeover", known.named([second]), TAKEOVER_FRAMES, needs, "takeover_frames", told)
    for boot in failures:
        wrong = _in_the_way_of_takeover(known, boot, second)
        # The round that falls out is at most GREATEST_GAP - 1 frames after the failure.
        yield Bound("takeover", known.named([second]), TAKEOVER_FRAMES, needs, "takeover_frames", wrong, boot.off + GREATEST_GAP - 1)


def _in_the_way_of_takeover(known: _Known, failed: _Boot, second: int) -> tuple[str, ...]:
    first, last = failed.on + QUIET_FRAMES, failed.off + GREATEST_GAP - 1 + TAKEOVER_FRAMES
    wrong = []
    if again := [boot.on for boot in known.boots_of(failed.node) if failed.off <= boot.on <= last]:
        wrong.append(f"{known.named([failed.node])} is switched on again in {known.when(again[0])}")
    others = set(known.scenario.nodes) - {failed.node}
    up = {boot.node for boot in known.boots if failed.on <= boot.on <= first < failed.off and boot.off > last}
    if lacking := others - up:
        wrong.append(f"{known.named(lacking)} {_are(lacking)} not on from the start of the host to {known.when(last)}")
    if last >= known.scenario.frames:
        wrong.append(f"the run ends before {known.when(last)}")
    lost = known.first_loss(min(first, known.scenario.frames))
    if lost is not None and lost < failed.off:
        wrong.append(f"packets may be lost before, as in {known.when(lost)}, and then not all need hold one round")
    if far := (known.unreached(failed.node, up) | known.unreached(second, up)) & up:
        wrong.append(f"{known.named(far)} {_are(far)} out of reach of a host")
    return tuple(wrong)


# How late packets are.


@dataclass(frozen=True)
class _Asked:
    """A stream with its interval, what is in the way of its latencies, and what of their premises a script can't tell."""

    source: int
    stream: int
    interval: int
    wrong: tuple[str, ...]
    untold: tuple[str, ...]

    @property
    def premise(self) -> str:
        """What is in the way, or what can't be told."""
        return "; ".join(self.wrong or self.untold)


_AGREED = (
    "nothing is in the way, and once host and node have agreed on the stream, the last of so many packets that wait is delivered by then; when "
    "they have, a scenario does not tell"
)


def _asked(known: _Known) -> list[_Asked]:
    """All streams that ask for slots, each by its last interval."""
    intervals: dict[tuple[int, int], list[Stream]] = {}
    for event in power.script(known.scenario):
        if isinstance(event, Stream):
            intervals.setdefault((event.node, event.stream), []).append(event)
    shared = _in_the_way_of_all(known, [event.interval for events in intervals.values() for event in events])
    others = {boot.node: boot.off for boot in known.boots if boot.node in _backups(known) and boot.off < known.scenario.frames}
    untold = (*(f"whether {known.named([node])} serves until it is switched off in {known.when(off)}" for node, off in others.items()), _AGREED)
    return [
        _Asked(*key, events[-1].interval, (*shared, *_in_the_way_of(known, key, events)), untold) for key, events in sorted(intervals.items())
    ]


def _backups(known: _Known) -> set[int]:
    """The hosts of other ranks than 0."""
    return {node for rank, node in known.scenario.hosts.items() if rank > 0}


def _in_the_way_of_all(known: _Known, intervals: Iterable[int]) -> list[str]:
    seconds = known.scenario.frame_seconds
    wrong = []
    if fast := [interval for interval in intervals if interval < seconds]:
        wrong.append(f"a stream asks for an interval of {min(fast)} s, below a frame of {seconds} s")
    if known.start is None:
        wrong.append("the host of rank 0 is never switched on")
    elif known.start.off < known.scenario.frames:
        wrong.append(f"the host, {known.named([known.start.node])}, is switched off in {known.when(known.start.off)}")
    elif far := known.unreached(known.start.node, known.steady) & known.steady:
        wrong.append(f"{known.named(far)} {_are(far)} out of reach of the host{_without(known)}")
    most, _ = cautions.most_asked(known.scenario)
    if most > lines.STREAMS_OF_A_HOST:
        wrong.append(f"{most} streams are requested at a time, and a host has room for {lines.STREAMS_OF_A_HOST}")
    lost = known.first_loss(0)
    if lost is not None:
        wrong.append(f"packets may be lost, as in {known.when(lost)}")
    if cautions.may_contend_for_ever(known.scenario):
        wrong.append("nodes ask at once that need not part, and a stream counts once it is accepted")
    return wrong


def _in_the_way_of(known: _Known, key: tuple[int, int], events: list[Stream]) -> Iterator[str]:
    node, stream = key
    scenario, interval = known.scenario, events[-1].interval
    if node not in known.steady:
        yield f"{known.named([node])} is not on from its start to the end of the run"
    if len(events) > 1 or any(isinstance(one, Leave) and (one.node, one.stream) == key for one in scenario.script):
        yield "the stream is asked for anew, or left"
    put = sorted(one.frame for one in scenario.script if isinstance(one, Put) and (one.node, one.stream) == key)
    pause = max((later - earlier for earlier, later in zip(put, put[1:])), default=0) * scenario.frame_seconds
    if pause > EMPTY_SLOTS * interval:
        yield f"{pause:,} s lie between two packets, and a host takes a stream away whose slots stay empty {EMPTY_SLOTS} times in a row"
    if node in known.steady and (far := known.unreached(node, known.steady) & known.steady):
        yield f"{known.named(far)} {_are(far)} out of reach of {known.named([node])}{_without(known)}"


def _without(known: _Known) -> str:
    """Whose power does not last, so that others may lie behind them."""
    gone = {boot.node for boot in known.boots} - known.steady
    return f" without {known.named(gone)}, which {_are(gone)} switched off" if gone else ""


def _latency(known: _Known) -> Iterator[Bound]:
    """The latencies of streams that lack the same, by the longest interval of them."""
    alike: dict[tuple[str, ...], list[_Asked]] = {}
    for one in _asked(known):
        alike.setdefault(one.wrong, []).append(one)
    for wrong, streams in alike.items():
        names = ", ".join(f"{known.scenario.name(one.source)}.{one.stream}" for one in streams[:_SHOWN_MOST])
        rest = f" and {len(streams) - _SHOWN_MOST} more" if len(streams) > _SHOWN_MOST else ""
        longest = max(one.interval for one in streams)
        of = f"streams {names}{rest}, intervals up to {longest} s" if len(streams) > 1 else f"stream {names}, interval {longest} s"
        for queue in _QUEUES:
            frames = latency_frames(queue, longest, known.scenario.frame_seconds)
            yield Bound("latency", of, frames, _AGREED, "latency_frames", wrong, packets=queue, untold=streams[0].untold)


def _by_stream(known: _Known) -> pd.DataFrame:
    seconds = known.scenario.frame_seconds
    rows = [
        (one.source, one.stream, one.interval, queue, frames, float(frames * seconds), _holds(one.wrong, one.untold), one.premise)
        for one in _asked(known)
        for queue in _QUEUES
        for frames in [latency_frames(queue, one.interval, seconds)]
    ]
    columns = ["source", "stream", "interval", "packets", "frames", "seconds", "holds", "premise"]
    types = {**dict.fromkeys(columns[:5], "int64"), "seconds": "float64"}
    return typed(pd.DataFrame(rows, columns=columns).astype(types))


# Contention.


def _contention(known: _Known) -> Iterator[Bound]:
    """Within how many frames one of two contenders requests alone, or is acknowledged, of the nodes that are no hosts and ask for
    slots."""
    scenario = known.scenario
    rounds, apart = PARTING_ROUNDS[scenario.contention_slots], 48 if scenario.contention_slots == 3 else 16
    asking = sorted({event.node for event in scenario.script if isinstance(event, Stream)} - {known.host})
    wrong = []
    if len(asking) > 2:
        wrong.append(f"{len(asking)} nodes ask for slots, and more than two that ask at once need not part")
    if len(asking) < 2:
        wrong.append("fewer than two nodes ask for slots, so none contends")
    if len(asking) == 2 and asking[0] % apart == asking[1] % apart:
        wrong.append(f"the ids of {known.named(asking)} are equal modulo {apart}: they may contend for ever")
    if len(asking) == 2:
        wrong += _in_the_way_of_contenders(known, asking)
    needs = f"two nodes have a request due in each of {rounds} rounds, with nothing lost; a round is at most {GREATEST_GAP} frames later"
    of = known.named(asking) if asking else "two nodes"
    untold = f"nothing is in the way of what it needs, that {needs}; whether they have, a scenario does not tell"
    yield Bound("contention", of, rounds * GREATEST_GAP, needs, "parting_rounds", tuple(wrong), untold=(untold,))


def _in_the_way_of_contenders(known: _Known, asking: Iterable[int]) -> Iterator[str]:
    """What keeps two nodes from asking, or from being heard."""
    if known.start is None:
        yield _no_host(known)
        return
    on = {boot.node for boot in known.boots if boot.off > boot.on}
    putting = {event.node for event in known.scenario.script if isinstance(event, Put)}
    for node in asking:
        if node not in on:
            yield f"{known.named([node])} is never switched on"
        elif known.start.node in known.unreached(node, on) or node in known.unreached(known.start.node, on):
            yield f"{known.named([node])} and the host are out of reach of each other"
        if node not in putting:
            yield f"{known.named([node])} has no packet, and so no request is due"
    if (lost := known.first_loss(min(known.start.on + QUIET_FRAMES, known.scenario.frames))) is not None:
        yield f"packets may be lost, as in {known.when(lost)}"
