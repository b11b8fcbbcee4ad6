"""In which cases a requirement is judged: as planned, each failure that it names, or with a relay. Tested, not proved."""

from __future__ import annotations

import math
from dataclasses import dataclass, replace
from typing import TYPE_CHECKING

from ..plan.demands import ANY_HOST, ANY_NODE, AS_PLANNED, failing
from ..plan.errors import PlanError
from ..plan.model import Event, Requirement

if TYPE_CHECKING:
    from ..plan.plan import Plan


@dataclass(frozen=True, order=True)
class Case:
    """A plan as it is, or with a node that fails, or with a node at a candidate.

    failed     the node that fails, or an empty text
    seconds    when it fails: packets count that are put from then on, also where no node fails
    duration   for how long, in seconds; for good where it is infinite
    relay      the candidate that is a node, or an empty text
    """

    failed: str = ""
    seconds: float = 0.0
    duration: float = math.inf
    relay: str = ""

    def of(self, plan: Plan) -> Plan:
        """The plan in this case."""
        made = plan.with_relays(self.relay) if self.relay else plan
        return replace(made, events=[*made.events, self.event]) if self.failed else made

    @property
    def event(self) -> Event:
        """The failure."""
        return Event(node=self.failed, at=self.seconds, off=True, duration=None if math.isinf(self.duration) else self.duration)


def of(plan: Plan, requirement: Requirement) -> list[Case]:
    """The cases of a requirement, one or more; a failure without a time is after a third of the run. Raises `PlanError` where a candidate is
    to fail."""
    if requirement.when == AS_PLANNED:
        return [Case()]
    at = plan.settings.hours * 3_600 / 3 if requirement.at is None else requirement.at
    if requirement.when == ANY_NODE:
        names = [name for name, node in plan.nodes.items() if not node.candidate]
    elif requirement.when == ANY_HOST:
        names = [host.node for host in sorted(plan.hosts, key=lambda host: host.rank)]
    else:
        names = [failing(requirement.when)]
        if plan.nodes[names[0]].candidate:
            raise PlanError(requirement.where, f"`when` names {names[0]}, which is a candidate and no node yet, so it can't fail")
    return [Case(name, at) for name in names]


def is_of_several(requirement: Requirement) -> bool:
    """Whether there is a case for each of several nodes."""
    return requirement.when in (ANY_NODE, ANY_HOST)
