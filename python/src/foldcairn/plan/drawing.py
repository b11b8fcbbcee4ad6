"""Networks of a plan: what each seed draws, or the means. Tested, not proved."""

from __future__ import annotations

import copy
from collections.abc import Iterator, Sequence
from dataclasses import dataclass, field, replace
from typing import TYPE_CHECKING, Any

from ..model import lines, moments
from ..model.events import Off, On, Put, Rate, ScriptLine, millionths
from ..model.scenario import Scenario
from . import chance, checks, demands, happening, packets
from .errors import PlanError
from .happening import Cut
from .model import Event, Node, Stream
from .network import PlanNetwork, checksum
from .words import ALL, HOSTS, Pair
from .ratios import Ratios

if TYPE_CHECKING:
    from .plan import Plan

# The ratios of each link by the frames from which on they hold.
Drawn = dict[Pair, list[tuple[int, float]]]

# How far floors are apart on a map, as a part of the height of the plan.
_APART = 1.15
# A link that passes all, in millionths, as texts have ratios.
_WHOLE = 1_000_000
# Of how many seeds the ratios are kept: networks with other events take them again.
_SEEDS_MOST = 8


@dataclass
class Drawer:
    """Makes the networks of one plan. What no seed changes is made once: change the plan, and make another one.

    nodes    those that the network has: all that are no candidates, in the order of their ids
    frames   the length of a run
    """

    plan: Plan
    nodes: dict[str, Node] = field(init=False)
    frames: int = field(init=False)
    _ratios: Ratios = field(init=False, repr=False)
    _puts: dict[tuple[str, int, int], list[Put]] = field(default_factory=dict, repr=False)
    _drawn: dict[int | None, Drawn] = field(default_factory=dict, repr=False)

    def __post_init__(self) -> None:
        checks.check(self.plan)
        ours = [node for node in self.plan.nodes.values() if not node.candidate]
        self.nodes = {node.name: node for node in sorted(ours, key=lambda node: node.id or 0)}
        self.frames = frames(self.plan)
        self._check()
        self._ratios = Ratios.of(self.plan, list(self.nodes))

    def _check(self) -> None:
        """Raises `PlanError` where no network can be made of the plan."""
        called = str(self.plan.path or "the plan")
        used = [(host.node, host.where) for host in self.plan.hosts] + [(stream.source, stream.where) for stream in self.plan.streams.values()]
        for name, where in used:
            if name not in self.nodes:
                raise PlanError(where, f"{name} is a candidate and no node yet; take `candidate` away to have it in the network")
        if not 2 <= len(self.nodes) <= lines.NODES_MOST:
            raise PlanError(called, f"it has {len(self.nodes)} nodes that are no candidates, and a network has from 2 to {lines.NODES_MOST}")
        if not self.plan.hosts:
            raise PlanError(called, "no node is a host: write [[host]] with `node` and `rank = 0`")

    def with_events(self, events: Sequence[Event]) -> Drawer:
        """What makes the networks of this plan with these events: what no event changes is not made again. Raises `PlanError` where an event does
        not fit the plan."""
        made = copy.copy(self)
        made.plan = replace(self.plan, events=list(events))
        for event in events:
            demands.check_event(made.plan, event)
        return made

    def _ratios_of(self, seed: int | None, frame: int) -> Drawn:
        """The ratios of a seed, or their means."""
        found = self._drawn.get(seed)
        if found is None:
            if len(self._drawn) >= _SEEDS_MOST:
                self._drawn.clear()
            found = self._drawn[seed] = self._ratios.draw(seed, frame, self.frames)
        return found

    def network(self, seed: int | None = None) -> Scenario:
        """The network with what this seed draws: ratios, times of sporadic packets, phases, times of events, and ids where the plan says so; or
        with the means of all that."""
        plan, frame = self.plan, lines.frame_seconds(self.plan.settings.profile)
        ids = self._ids(seed)
        ratios = self._ratios_of(seed, frame)
        happened = happening.happenings(plan, ratios, frame, self.frames, seed)
        kind: type[Scenario] = Scenario if seed is not None else PlanNetwork
        made = kind(self.frames, plan.settings.sends, plan.settings.profile, plan.settings.contend, told=True)
        made.nodes = {ids[name]: node.offset for name, node in self.nodes.items()}
        made.rates = [Rate(ids[name], 0, node.clock) for name, node in self.nodes.items() if node.clock]
        made.hosts = {host.rank: ids[host.node] for host in plan.hosts}
        made.labels = {ids[name]: name for name in self.nodes}
        made.places = self._places(ids)
        self._link(made, ids, ratios, happened)
        off = {name: self._off(name, happened.cuts.get(name, [])) for name in self.nodes}
        made.script = [line for name in self.nodes for line in self._power(ids[name], off[name])]
        for stream in plan.streams.values():
            self._stream(made, stream, ids[stream.source], off[stream.source], seed)
        made.receivers = self._receivers(ids)
        made.remarks = list(plan.remarks)
        self._check_size(made)
        if isinstance(made, PlanNetwork):
            made.drawer, made.made = self, checksum(made)
        return made

    def _ids(self, seed: int | None) -> dict[str, int]:
        given = {name: node.id or 0 for name, node in self.nodes.items()}
        if seed is None or not self.plan.settings.vary_ids:
            return given
        return dict(zip(given, chance.ids(list(given.values()), seed)))

    def _places(self, ids: dict[str, int]) -> dict[int, tuple[float, float]]:
        """Where nodes are on a map: where there are several floors, each is above the one below it."""
        placed = {name: (node.x, node.y, node.floor) for name, node in self.nodes.items() if node.x is not None and node.y is not None}
        heights = [y for _, y, _ in placed.values() if y is not None]
        extent = self.plan.floor.extent
        apart = _APART * ((extent[3] - extent[1]) if extent else max(heights, default=0.0) - min(heights, default=0.0))
        least = min((floor for _, _, floor in placed.values()), default=0)
        return {ids[name]: (x, y + (floor - least) * apart) for name, (x, y, floor) in placed.items() if x is not None and y is not None}

    def _link(self, made: Scenario, ids: dict[str, int], ratios: Drawn, happened: happening.Happenings) -> None:
        """Gives the network its links and their ratios over time."""
        for pair, base in ratios.items():
            link, caps = (ids[pair[0]], ids[pair[1]]), happened.caps.get(pair)
            found = happening.pieces(base, caps or (), self.frames) if caps or len(base) > 1 else base
            made.links.add(link)
            if millionths(found[0][1]) < _WHOLE:
                made.prr[link] = found[0][1]
            for at, ratio in found[1:]:
                made.ratios[at, link[0], link[1]] = ratio

    def _off(self, name: str, cuts: list[Cut]) -> list[Cut]:
        """When a node has no power: before it is switched on, and by events."""
        first = moments.frame_from(self.nodes[name].on, lines.frame_seconds(self.plan.settings.profile))
        return happening.merged([*([Cut(0, first)] if first else []), *cuts])

    def _power(self, node: int, off: list[Cut]) -> Iterator[ScriptLine]:
        if not off or off[0].first > 0:
            yield On(0, node, 0.0)
        for one in off:
            if one.first > 0:
                yield Off(one.first, node)
            if one.end < self.frames:
                yield On(one.end, node)

    def _stream(self, made: Scenario, stream: Stream, node: int, off: list[Cut], seed: int | None) -> None:
        """Adds the requests and the packets of a stream."""
        settings, frame = self.plan.settings, lines.frame_seconds(self.plan.settings.profile)
        start = chance.start(stream, seed)
        first = moments.frame_from(start, frame)
        made.script.extend(packets.requests(stream, node, first, off, self.frames))
        kept = packets.keep_alive(stream, settings)
        if kept:
            made.keep_alive.add((node, stream.number or 0))
            made.script.extend(packets.alive(stream, node, first, kept, settings.profile, self.frames))
        made.script.extend(self._puts_of(stream, node, start, seed))

    def _puts_of(self, stream: Stream, node: int, start: float, seed: int | None) -> list[Put]:
        """The packets of a stream; those that no seed changes are made once for each id of its node."""
        key = (stream.name, node, -1 if seed is None else 0)
        if not packets.varies(stream) and key in self._puts:
            return self._puts[key]
        end = self.frames * float(lines.frame_seconds(self.plan.settings.profile))
        when = packets.times(stream, start, end if stream.until is None else min(end, stream.until), seed)
        found = packets.puts(stream, node, when, self.plan.settings.profile, self.frames)
        if not packets.varies(stream):
            self._puts[key] = found
        return found

    def _receivers(self, ids: dict[str, int]) -> Any:
        """For whom packets are meant, in the forms of `foldcairn.receivers`."""
        streams = list(self.plan.streams.values())
        words = {one.to if isinstance(one.to, str) else None for one in streams}
        if len(words) == 1 and (word := words.pop()) in (ALL, HOSTS):
            return word
        return {(ids[one.source], one.number or 0): self._whom(one, ids) for one in streams} or None

    def _whom(self, stream: Stream, ids: dict[str, int]) -> Any:
        if isinstance(stream.to, str):
            return stream.to if stream.to in (ALL, HOSTS) else [ids[stream.to]]
        return sorted(ids[name] for name in stream.to)

    def _check_size(self, made: Scenario) -> None:
        """Raises `PlanError` where no run takes so many lines."""
        count = len(made.script) + len(made.rates)
        if count > lines.LONG_SCRIPT_LINES_MOST:
            hours = self.plan.settings.hours
            raise PlanError(
                str(self.plan.path or "the plan"), f"its packets and events are {count:,} lines of a script in {hours:g} hours, and a run has at most "
                f"{lines.LONG_SCRIPT_LINES_MOST:,}: write `hours = {int(100 * hours * lines.LONG_SCRIPT_LINES_MOST / count) / 100:g}` or less in [plan]"
            )  # fmt: skip
        if (ratios := len(made.prr) + len(made.ratios)) > lines.RATIO_LINES_MOST:
            raise PlanError(
                str(self.plan.path or "the plan"), f"its links have {ratios:,} ratios over time, and a run has at most {lines.RATIO_LINES_MOST:,}: take fewer "
                "samples, or let `[losses] least` leave weak links out"
            )  # fmt: skip


def frames(plan: Plan) -> int:
    """The length of a run in frames."""
    return moments.frame_of(plan.settings.hours * 3_600, lines.frame_seconds(plan.settings.profile))
