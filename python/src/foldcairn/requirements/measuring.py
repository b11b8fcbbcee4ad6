"""What is measured of the draws of a plan, for each of its requirements: of each stream the packets that came, of each node its battery's life
or when it was a member. Tested, not proved.

A draw of a plan is its network with what the seed draws, and the losses that the same seed draws by its ratios. A requirement of shares
counts packets whose deadline lies in the run, and after a failure those that are put from then on.
"""

from __future__ import annotations

import contextlib
import functools
import warnings
from collections.abc import Iterator, Mapping, Sequence
from dataclasses import dataclass, field, replace
from typing import TYPE_CHECKING

import numpy as np

from ..answers import arrivals
from ..model.receivers import ALL, HOSTS
from ..model.scenario import Scenario, ScenarioWarning
from ..plan.model import Requirement, Stream
from ..plan.words import BATTERY
from ..runs.numbers import Numbers, Places
from . import counting, membership
from .cases import Case
from .counting import Came

if TYPE_CHECKING:
    from ..plan.drawing import Drawer
    from ..plan.plan import Plan

# For the sums of floats.
_LITTLE = 1e-9
# A packet that has no deadline and is put so many frames before the end may still wait then.
_WAITING_FRAMES = 12
# Of each unit its value in a draw, or None, and of how many packets it is.
Values = dict[str, "tuple[float | None, int]"]


@dataclass(frozen=True)
class Task:
    """What is measured of each draw: the plan in a case, for the requirements with these places. `key` names all that draws depend on, and `base`
    what of the plan is the same in all cases."""

    plan: Plan
    case: Case
    places: tuple[int, ...]
    key: str = ""
    base: str = ""

    @property
    def requirements(self) -> list[Requirement]:
        """The requirements with these places."""
        return [self.plan.requirements[place] for place in self.places]


def measure(task: Task, seeds: Sequence[int]) -> list[list[Values]]:
    """What is measured of the draw of each seed: for each requirement the values of its units. In the process of a worker. Raises what
    `Plan.network` and `program.execute` raise."""
    return [draw.values() for draw in drawn(task, seeds)]


def drawn(task: Task, seeds: Sequence[int], whole: bool = False) -> Iterator[Draw]:
    """The draws of these seeds; `whole` ones keep what came of all streams. Raises what `Plan.network` raises."""
    with quiet():
        drawer = _drawer(task)
        for seed in seeds:
            yield Draw(task, drawer.network(seed), seed, whole)


# What makes the networks of the plans that came last, by what their cases have in common: a worker gets each of them many times.
_DRAWERS: dict[str, Drawer] = {}
_DRAWERS_MOST = 64


def _drawer(task: Task) -> Drawer:
    """What makes the networks of a task."""
    if not task.base:
        return task.case.of(task.plan).drawer()
    key = f"{task.base} {task.case.relay}"
    found = _DRAWERS.get(key)
    if found is None:
        if len(_DRAWERS) >= _DRAWERS_MOST:
            _DRAWERS.clear()
        found = _DRAWERS[key] = replace(task.case, failed="").of(task.plan).drawer()
    return found.with_events([*task.plan.events, task.case.event]) if task.case.failed else found


@contextlib.contextmanager
def quiet() -> Iterator[None]:
    """Without the warnings of scenarios: no log is made of a draw, so it may be longer than one."""
    with warnings.catch_warnings():
        warnings.simplefilter("ignore", ScenarioWarning)
        yield


@dataclass(frozen=True, eq=False)
class Counted:
    """The packets of a stream that count: when each was `put`, at how many receivers in time it is to be (`several`), and of each delivery in
    time which packet it is `of`."""

    put: Numbers
    of: Places
    several: int

    @property
    def share(self) -> float | None:
        """The part of them that came; None where there is none."""
        return float(len(self.of) / (len(self.put) * self.several)) if len(self.put) else None


@dataclass(frozen=True, eq=False)
class Draw:
    """One draw of a case. A `whole` one keeps what came of all streams, also of those that no requirement is about."""

    task: Task
    network: Scenario
    seed: int
    whole: bool = False
    ids: Mapping[str, int] = field(init=False)

    def __post_init__(self) -> None:
        object.__setattr__(self, "ids", {name: node for node, name in self.network.labels.items()})

    @functools.cached_property
    def plan(self) -> Plan:
        """The plan in this case."""
        return self.task.case.of(self.task.plan)

    def values(self) -> list[Values]:
        """The values of all requirements, in their order."""
        return [self._of(requirement) for requirement in self.task.requirements]

    def _of(self, requirement: Requirement) -> Values:
        if requirement.joined is not None:
            return {name: (seconds, 0) for name, seconds in self._named(requirement, self._joined(requirement.joined)).items()}
        if requirement.years is not None:
            return {name: (years, 0) for name, years in self._named(requirement, self._years).items()}
        if requirement.outage is not None:
            return self.outages(requirement)
        return {name: (counted.share, len(counted.put)) for name, counted in self.counted(requirement).items()}

    # Streams.

    @functools.cached_property
    def came(self) -> Came:
        """What came of this draw, at the receivers of all requirements."""
        wanted: set[int] = set()
        hosts = set(self.network.hosts.values())
        for requirement in [*(one for one in self.task.requirements if one.joined is None and one.years is None), *([None] if self.whole else [])]:
            for stream, receivers in self.units(requirement):
                # That a host hosted its own packet is seen by any delivery.
                wanted |= receivers if receivers is not None else set(self.network.nodes) if self.ids[stream.source] in hosts else hosts
        return counting.came(self.network, self.seed, nodes=wanted)

    def units(self, requirement: Requirement | None) -> list[tuple[Stream, frozenset[int] | None]]:
        """The streams that a requirement is about, or all of them, with the nodes that their packets are meant for, or None for whichever host
        serves; without those that the failed node sends, or that are meant for it alone."""
        streams = self.plan.streams_of(requirement.streams, requirement.tag) if requirement is not None else list(self.plan.streams.values())
        found = [(stream, self.receivers(stream, requirement)) for stream in streams if stream.source != self.task.case.failed]
        return [(stream, receivers) for stream, receivers in found if receivers is None or receivers]

    def receivers(self, stream: Stream, requirement: Requirement | None = None) -> frozenset[int] | None:
        """The nodes that packets are meant for, or None for whichever host serves; without the source and what failed."""
        to = stream.to if requirement is None or requirement.to is None else requirement.to
        if to == HOSTS:
            return None
        names = self.ids if to == ALL else [to] if isinstance(to, str) else to
        return frozenset(self.ids[name] for name in names if name in self.ids and name not in (stream.source, self.task.case.failed))

    def _arrived(self, requirement: Requirement | None) -> list[tuple[Stream, frozenset[int] | None, arrivals.Came]]:
        """The units with what came of each."""
        units = [((self.ids[stream.source], stream.number or 0), stream, receivers) for stream, receivers in self.units(requirement)]
        found = self.came.by_stream({key: receivers for key, _, receivers in units})
        return [(stream, receivers, found[key]) for key, stream, receivers in units]

    def counted(self, requirement: Requirement) -> dict[str, Counted]:
        """By stream the packets that count, and which came in time, or at all."""
        found = {}
        for stream, receivers, ours in self._arrived(requirement):
            deadline = self._deadline(requirement, stream)
            due = (ours.put <= self.latest(deadline)) & (ours.put >= self.task.case.seconds)
            arrived = due[ours.of]
            if deadline is not None:
                arrived &= ours.seconds - ours.put[ours.of] <= deadline + _LITTLE
            places = np.cumsum(due) - 1
            found[stream.name] = Counted(ours.put[due], places[ours.of[arrived]], 1 if receivers is None else len(receivers))
        return found

    def latest(self, deadline: float | None) -> float:
        """Up to when packets with a deadline, or without one, are put that count."""
        return float(self.network.seconds) - (_WAITING_FRAMES * self.network.frame_seconds if deadline is None else deadline) + _LITTLE

    @staticmethod
    def _deadline(requirement: Requirement, stream: Stream) -> float | None:
        """How late a packet may be, or None where it only has to arrive."""
        return None if requirement.share is None else stream.deadline if requirement.deadline is None else requirement.deadline

    def outages(self, requirement: Requirement | None) -> Values:
        """By stream how long nothing arrived after the failure, from it or from the first packet that was put then, to the first delivery; at several
        receivers the longest."""
        return {stream.name: (self._outage(ours, receivers), 0) for stream, receivers, ours in self._arrived(requirement)}

    def _outage(self, ours: arrivals.Came, receivers: frozenset[int] | None) -> float | None:
        failure = self.task.case.seconds
        put = ours.put[ours.put >= failure]
        if not len(put):
            return None
        start = max(failure, float(put.min()))
        after = ours.seconds >= start
        firsts = [_first(ours.seconds[after & (ours.at == node)], self.network) for node in receivers or ()]
        return max(firsts, default=_first(ours.seconds[after], self.network)) - start

    # Nodes.

    def _named(self, requirement: Requirement, values: Mapping[int, float]) -> dict[str, float]:
        """The values of the nodes that a requirement is about."""
        return {name: values[self.ids[name]] for name in nodes_of(self.plan, requirement) if name != self.task.case.failed}

    def _joined(self, wanted: float) -> dict[int, float]:
        if self.task.case.failed:
            return membership.back_seconds(self.network, self.seed, wanted, self.task.case.seconds)
        return membership.joined_seconds(self.network, self.seed, wanted)

    @functools.cached_property
    def _years(self) -> dict[int, float]:
        """How many years the battery of each node lasts."""
        capacities = {self.ids[name]: self.plan.capacity_mah(name) for name in self.ids}
        battery = self.plan.battery
        currents = {name: getattr(battery, name) for name in ("receive_ma", "transmit_ma", "sleep_ma")}
        words = {name: value for name, value in currents.items() if value is not None}
        return membership.years(self.network, self.seed, self.came.cost, capacities, words)


def nodes_of(plan: Plan, requirement: Requirement) -> list[str]:
    """The nodes that a requirement is about: for the years of batteries those that have one."""
    given = requirement.nodes
    if given is None:
        given = BATTERY if requirement.years is not None else ALL
    there = [name for name, node in plan.nodes.items() if not node.candidate]
    if isinstance(given, list):
        chosen = given
    else:
        chosen = there if given in (ALL, BATTERY) else [given] if given in plan.nodes else plan.tagged(given)
    if requirement.years is None:
        return [name for name in chosen if name in there]
    return [name for name in chosen if name in there and not plan.nodes[name].is_on_mains]


def _first(seconds: Numbers, network: Scenario) -> float:
    """The first of some times, or the end of the run."""
    return float(seconds.min()) if len(seconds) else float(network.seconds)
