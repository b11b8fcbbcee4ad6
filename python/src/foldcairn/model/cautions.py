"""What the program accepts without a word though it is hardly what was meant, worked out from the scenario alone.

Nothing here says what a run does: each caution names lines of the scenario and the rule that makes them suspicious. Tested,
not proved.
"""

from __future__ import annotations

import math
from collections import Counter, defaultdict
from collections.abc import Iterable, Iterator
from itertools import combinations
from operator import attrgetter
from typing import TYPE_CHECKING

from ..common import limits
from . import doubts, lines
from .events import Leave, Off, On, Put, ScriptLine, Stream

if TYPE_CHECKING:
    import networkx

    from .scenario import Scenario

# The first round of a host that is on from frame 0 on is in this frame, and rounds are at most so many frames apart.
_FIRST_ROUND = limits.QUIET_FRAMES
_GAP_MOST = limits.GREATEST_GAP
# A node has searched for a host for so many frames before the next rank serves: for the first host, and for its own rank.
_TAKEOVER_FRAMES = limits.SEARCH_FRAMES + limits.QUIET_FRAMES
# A stream whose packets come every so many seconds asks for a slot that much more often, so that its queue drains.
_SLACK = 1.15
_SLACK_LEAST = 1.10
_PUTS_LEAST = 4
_SHOWN_MOST = 8
_AT_ONCE_LEAST = 3


def of(scenario: Scenario, *, long: bool = False) -> list[str]:
    """The cautions of a scenario, in sentences; with `long` for a command that keeps no log, and takes longer runs."""
    script = sorted(scenario.script, key=attrgetter("frame"))
    found = _Streams(scenario, script)
    return [
        *scenario.remarks,
        *_too_large(scenario, long),
        *doubts.of_frames(scenario),
        *_no_host(scenario),
        *_never_on(scenario),
        *_out_of_reach(scenario),
        *_two_hosts(scenario, script),
        *found.puts_without_stream(),
        *_losses_without_link(scenario),
        *found.too_many_streams(),
        *found.too_many_owners(),
        *found.contend_for_ever(),
        *found.contend_at_once(),
        *found.taken_away(),
        *found.no_slack(),
    ]


def most_asked(scenario: Scenario) -> tuple[int, float]:
    """How many streams are requested at a time at most, and how many data slots a frame they come to at most."""
    found = _Streams(scenario, sorted(scenario.script, key=attrgetter("frame")))
    return int(found.most_streams), found.most_slots


def may_contend_for_ever(scenario: Scenario) -> bool:
    """Whether nodes ask for streams at once that need not part, by the cautions on contention."""
    found = _Streams(scenario, sorted(scenario.script, key=attrgetter("frame")))
    return bool([*found.contend_for_ever(), *found.contend_at_once()])


def _nodes(scenario: Scenario, nodes: Iterable[int]) -> str:
    """Nodes by their names: "node 7", or "nodes 7, 8"."""
    named = [scenario.name(node) for node in nodes]
    return f"{'node' if len(named) == 1 else 'nodes'} {_several(named)}"


def _with_id(scenario: Scenario, node: int) -> str:
    """A node where its id matters: "7", or "pump (7)"."""
    return f"{scenario.labels[node]} ({node})" if node in scenario.labels else str(node)


def horizon(scenario: Scenario) -> str | None:
    """What to know of a run that is too long for a log, in a sentence; None of others."""
    nodes, frames, seconds = len(scenario.nodes), scenario.frames, scenario.frame_seconds
    if nodes > lines.NODES_MOST or nodes * frames <= lines.NODE_FRAMES_MOST:
        return None
    most = lines.NODE_FRAMES_MOST // nodes
    return (
        f"`run` and `log` without a seed take at most {lines.NODE_FRAMES_MOST:,} nodes times frames, which with {nodes} nodes are {most:,} frames, or "
        f"{most * seconds / 60:.0f} minutes, and this network has {frames:,} ({frames * seconds / 60:.0f} minutes); for all of it take "
        "`results.outcome`, which has the deliveries, drops and costs, and the answers of `planning` that need no more; of a network with reception "
        "ratios `results.log(network, seed)` has the log"
    )


def _too_large(scenario: Scenario, long: bool) -> Iterator[str]:
    """What the program rejects, so that it is known before the run."""
    nodes = len(scenario.nodes)
    if nodes > lines.NODES_MOST:
        yield f"`run` rejects this: it has {nodes} nodes, and at most {lines.NODES_MOST} are run; take some out, or plan in parts"
    elif not long and (words := horizon(scenario)):
        yield words
    if (count := len(scenario.ratio_lines())) > lines.RATIO_LINES_MOST:
        yield (
            f"`outcome` rejects this: it has {count:,} ratios, and at most {lines.RATIO_LINES_MOST:,} are read; let them change less often, "
            "or shorten the run"
        )
    if (count := scenario.script_lines()) > lines.LONG_SCRIPT_LINES_MOST:
        yield (
            f"`outcome` rejects this: it has {count:,} lines of its script, and at most {lines.LONG_SCRIPT_LINES_MOST:,} are read; put fewer "
            "packets, or shorten the run"
        )
    elif not long and count > lines.SCRIPT_LINES_MOST:
        yield (
            f"`run` and `log` without a seed take at most {lines.SCRIPT_LINES_MOST:,} lines of a script, and this network has {count:,}; for all of it "
            "take `results.outcome`, which has the deliveries, drops and costs, and the answers of `planning` that need no more; of a network with "
            "reception ratios `results.log(network, seed)` has the log"
        )
    if nodes == 1:
        yield "`run` rejects this: a scenario has at least 2 nodes"


def _no_host(scenario: Scenario) -> Iterator[str]:
    if not scenario.hosts and scenario.nodes:
        yield "`run` rejects this: no node hosts; say which one by `host(0, id)`, or by a column `host` with the rank in the table of nodes"
    lacking = [rank for rank in range(max(scenario.hosts, default=0)) if rank not in scenario.hosts]
    if lacking:
        ranks = f"rank{'s' * (len(lacking) > 1)} {_several(lacking)}"
        yield (
            f"`run` rejects this: there are hosts of rank {_several(sorted(scenario.hosts))}, and none of {ranks}; ranks go from 0, the first choice, "
            "up to 3 without a gap"
        )


def _out_of_reach(scenario: Scenario) -> Iterator[str]:
    """Nodes that no host reaches, for want of links or steps."""
    import networkx

    if not scenario.hosts or len(scenario.nodes) < 2:
        return
    graph = scenario.graph()
    # At its best time each link counts.
    for one in scenario.ratio_lines():
        data = graph.edges[one.sender, one.receiver]
        data["prr"] = max(data["prr"], one.prr)
    graph.remove_edges_from([(one, other) for one, other, ratio in graph.edges(data="prr") if ratio == 0])
    yield from _alone(scenario, graph)
    alone = [node for node in sorted(graph) if not graph.in_degree(node) or not graph.out_degree(node)]
    for _, _, data in graph.edges(data=True):
        # A lost packet comes again two steps later.
        data["steps"] = 1 + 2 * (1 / data["prr"] - 1)
    hosts = sorted(set(scenario.hosts.values()))
    near = networkx.multi_source_dijkstra_path_length(graph, hosts, weight=None)
    steps = networkx.multi_source_dijkstra_path_length(graph, hosts, weight="steps")
    far = [node for node in sorted(graph) if node not in alone and near.get(node, lines.STEPS + 1) > lines.STEPS]
    if far:
        yield f"{_nodes(scenario, far)} {_is(far)} reached by no host within {lines.STEPS} hops, so {_it(far)} can't join"
    tight = [node for node in sorted(graph) if node not in alone and node not in far and steps[node] > lines.STEPS]
    if tight:
        worst = max(tight, key=lambda node: float(steps[node]))
        yield (
            f"the links to {_nodes(scenario, tight)} lose so much that a flood needs more than its {lines.STEPS} steps to get there: with "
            f"these ratios it takes some {steps[worst]:.0f} steps to node {scenario.name(worst)}, {near[worst]} hops away"
        )


def _alone(scenario: Scenario, graph: networkx.DiGraph) -> Iterator[str]:
    """Nodes that have no links, or links in one direction alone."""
    none = [node for node in sorted(graph) if not graph.in_degree(node) and not graph.out_degree(node)]
    unreached = [node for node in sorted(graph) if not graph.in_degree(node) and graph.out_degree(node)]
    unheard = [node for node in sorted(graph) if graph.in_degree(node) and not graph.out_degree(node)]
    if none:
        yield f"{_nodes(scenario, none)} {_has(none)} no link to or from any other node, so {_it(none)} can't take part"
    for nodes, lacks, there in ((unreached, "to", "from"), (unheard, "from", "to")):
        if nodes:
            yield (
                f"{_nodes(scenario, nodes)} {_has(nodes)} links {there} other nodes and none {lacks} {'it' if len(nodes) == 1 else 'them'}, so "
                f"{_it(nodes)} can't take part: a link is one direction, and `pair`, or a column `both` in the table of links, gives both"
            )


def _has(nodes: list[int]) -> str:
    return "has" if len(nodes) == 1 else "have"


def _is(nodes: list[int]) -> str:
    return "is" if len(nodes) == 1 else "are"


def _it(nodes: list[int]) -> str:
    return "it" if len(nodes) == 1 else "they"


def _two_hosts(scenario: Scenario, script: list[ScriptLine]) -> Iterator[str]:
    """A host that gets power back after another one has taken over: nothing brings the two networks together again."""
    ranks = {node: rank for rank, node in scenario.hosts.items()}
    off: dict[int, int] = {}
    for event in script:
        if isinstance(event, Off) and event.node in ranks:
            off.setdefault(event.node, event.frame)
        elif isinstance(event, On) and event.node in off:
            away, backups = event.frame - off.pop(event.node), [node for node, rank in ranks.items() if rank > ranks[event.node]]
            if away > _TAKEOVER_FRAMES and backups and event.node not in off:
                yield (
                    f"node {scenario.name(event.node)} hosts again some {5 * scenario.frame_seconds} s after "
                    f"{event.frame * scenario.frame_seconds:,} s, when its power comes back; by then {_nodes(scenario, backups[:1])} may "
                    "have taken over, and two hosts serve at once, each for nodes that receive nothing of the other: `return` of the "
                    "program (`results.returns`) runs the rule by which a backup host goes back (docs/RETURN.md)"
                )


def _several(names: Iterable[object]) -> str:
    """A list of names, cut where it is long."""
    shown = [str(name) for name in names]
    rest = f" and {len(shown) - _SHOWN_MOST} more" if len(shown) > _SHOWN_MOST else ""
    return ", ".join(shown[:_SHOWN_MOST]) + rest


def _never_on(scenario: Scenario) -> Iterator[str]:
    never = sorted(scenario.nodes.keys() - {event.node for event in scenario.script if isinstance(event, On)})
    if never:
        yield f"{_nodes(scenario, never)} {_is(never)} never switched on"


def _losses_without_link(scenario: Scenario) -> Iterator[str]:
    lost = {(event.sender, event.receiver) for event in scenario.losses} - scenario.links
    captured = {(event.sender, event.at) for event in scenario.captures} - scenario.links
    for what, links in (("losses", lost), ("captures", captured)):
        if links:
            named = _several(f"{scenario.name(u)} to {scenario.name(v)}" for u, v in sorted(links))
            yield f"{what} are given on links that the scenario doesn't have: {named}"


class _Streams:
    """The streams of a scenario: from when on each asks, and when its packets come."""

    def __init__(self, scenario: Scenario, script: list[ScriptLine]) -> None:
        self.scenario = scenario
        # When they come, in seconds.
        self.puts: dict[tuple[int, int], list[float]] = defaultdict(list)
        self.intervals: dict[tuple[int, int], int] = {}
        self.due: dict[int, int] = {}
        self.without: Counter[tuple[int, int]] = Counter()
        self.first: dict[tuple[int, int], int] = {}
        self.most_streams = self.most_slots = 0.0
        self.restarts = self._walk(script)

    def _walk(self, script: list[ScriptLine]) -> bool:
        """Goes through the script once; whether a node that hosts is switched off in it."""
        on: set[int] = set()
        requested: dict[tuple[int, int], int] = {}
        hosts, restarts = set(self.scenario.hosts.values()), False
        for event in script:
            match event:
                case On(node=node):
                    on.add(node)
                case Off(node=node):
                    restarts |= node in hosts and node in on
                    on.discard(node)
                    requested = {key: interval for key, interval in requested.items() if key[0] != node}
                case Stream(node=node, stream=stream, interval=interval) if node in on:
                    requested[node, stream] = self.intervals[node, stream] = interval
                    self.first.setdefault((node, stream), max(event.frame, _FIRST_ROUND))
                    self._measure(requested)
                case Leave(node=node, stream=stream):
                    requested.pop((node, stream), None)
                case Put(frame=frame, node=node, stream=stream, payload=payload):
                    if not payload and (node, stream) in self.scenario.keep_alive and (node, stream) not in requested:
                        continue
                    if (node, stream) in requested:
                        self.puts[node, stream].append(self.scenario.put_seconds(event))
                        self.due.setdefault(node, max(frame, _FIRST_ROUND))
                    else:
                        self.without[node, stream] += 1
        return restarts

    def _measure(self, requested: dict[tuple[int, int], int]) -> None:
        self.most_streams = max(self.most_streams, len(requested))
        slots = sum(self.scenario.frame_seconds / interval for interval in requested.values())
        self.most_slots = max(self.most_slots, slots)

    def _name(self, node: int, stream: int) -> str:
        return f"stream {stream} of node {self.scenario.name(node)}"

    def puts_without_stream(self) -> Iterator[str]:
        if self.without:
            which = _several(f"{count} of {self._name(*key)}" for key, count in sorted(self.without.items()))
            yield (
                f"packets are put at a node that is off, or into a stream that isn't requested by then, and are dropped: {which}"
            )

    def too_many_streams(self) -> Iterator[str]:
        if self.most_streams > lines.STREAMS_OF_A_HOST:
            yield (
                f"{self.most_streams:.0f} streams are requested at a time, and a host has room for {lines.STREAMS_OF_A_HOST}: "
                "the others are not accepted"
            )

    def too_many_owners(self) -> Iterator[str]:
        if self.most_slots > lines.DATA_SLOTS:
            yield (
                f"the requested intervals come to {self.most_slots:.1f} slots a frame, and a round, at most one a frame, has "
                f"{lines.DATA_SLOTS}: streams get fewer slots than they ask for"
            )

    def contend_for_ever(self) -> Iterator[str]:
        # That two such nodes tie again after each collision is proved of the rules, for slots without losses and captures and
        # nodes with the same neighbours (docs/GUARANTEES.md, "Where nothing is lost"). Other ids part two nodes, and not always more
        # (docs/BOUNDS.md, "Contention").
        slots = self.scenario.contention_slots
        period = math.lcm(16, slots)
        together = [
            (one, other)
            for one, other in combinations(sorted(self.due), 2)
            if one % period == other % period
            and (self.restarts or abs(self.due[one] - self.due[other]) < _GAP_MOST)
            and not {one, other} & {self.scenario.hosts.get(0)}
        ]
        if together:
            pairs = _several(f"{_with_id(self.scenario, one)} and {_with_id(self.scenario, other)}" for one, other in together)
            parting = "`contend 3` or another id" if slots != 3 else "another id"
            yield (
                f"the ids of nodes {pairs} are equal modulo {period}: where they "
                f"ask for streams at the same time, with {slots} contention slot{'s' * (slots > 1)}, their requests collide each "
                f"time until a loss parts them; let their streams start in rounds of their own ({parting} parts two nodes, but not always more)"
            )

    def contend_at_once(self) -> Iterator[str]:
        # A request is due with the first packet. Nodes ask in slot `(id + tries) mod slots`, so those of one rest share a slot.
        slots = self.scenario.contention_slots
        groups: dict[tuple[int, int], list[int]] = defaultdict(list)
        for node, frame in sorted(self.due.items()):
            if node != self.scenario.hosts.get(0):
                groups[frame // _GAP_MOST if frame > _FIRST_ROUND else 0, node % slots].append(node)
        largest: list[int] = max(groups.values(), key=len, default=[])
        if len(largest) >= _AT_ONCE_LEAST:
            most = max(groups, key=lambda key: len(groups[key]))
            frame = min(self.due[node] for node in groups[most])
            yield (
                f"{len(largest)} nodes ask for their streams in one contention slot, in the round at some "
                f"{frame * self.scenario.frame_seconds} s ({_nodes(self.scenario, largest)}): their requests collide, and some may wait for "
                "minutes or for ever; let their streams start in rounds of their own, or fewer wait at once, and look at a run"
            )

    def taken_away(self) -> Iterator[str]:
        """Sporadic streams, which their host takes away between two packets."""
        found = []
        for (node, stream), times in sorted(self.puts.items()):
            limit = lines.EMPTY_SLOTS * max(self.intervals[node, stream], 1)
            pauses = [later - one for one, later in zip(times, times[1:])]
            if max(pauses, default=0) > limit:
                found.append(f"{self._name(node, stream)} after {limit} s (its pauses are up to {max(pauses):,.0f} s)")
        if found:
            yield (
                f"a host takes a stream away whose slots stay empty {lines.EMPTY_SLOTS} times in a row, and the next packet has to ask for it anew, "
                "which can take minutes where requests collide: "
                f"{_several(found)}; `stream(.., keep_alive=seconds)` keeps it by packets of no bytes"
            )

    def no_slack(self) -> Iterator[str]:
        tight = []
        for (node, stream), times in sorted(self.puts.items()):
            if len(times) < _PUTS_LEAST or times[-1] == times[0]:
                continue
            spacing = (times[-1] - times[0]) / (len(times) - 1)
            # Puts of a text are known to a frame, so it may be that much longer.
            longest = spacing + self.scenario.frame_seconds / (len(times) - 1)
            interval = self.intervals[node, stream]
            if interval > longest / _SLACK_LEAST:
                better = max(1, int(spacing / _SLACK))
                advice = f"{better}" if better < interval else "two streams"
                tight.append(f"{self._name(node, stream)} (every {spacing:.1f} s, interval {interval}: {advice})")
        if tight:
            yield (
                "streams get slots hardly faster than their packets come, so what queued while they waited for their host never "
                f"drains; ask for an interval about 15 % shorter: {_several(tight)}"
            )
