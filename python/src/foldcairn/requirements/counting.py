"""What came of one draw, by the program's `outcome`: a view of `answers.arrivals`, and what radios cost. Tested, not proved."""

from __future__ import annotations

from collections.abc import Collection, Mapping
from dataclasses import dataclass, field

from ..answers import arrivals
from ..answers.arrivals import Arrivals
from ..model.receivers import HOSTS, Meant
from ..model.scenario import Scenario
from ..runs import numbers
from ..runs.numbers import Cost

# For whom the packets of some streams are meant: nodes, or None for whichever host serves.
Whom = Mapping[tuple[int, int], "frozenset[int] | None"]


@dataclass(frozen=True, eq=False)
class Came:
    """What was put and what arrived in a draw (`run`), at the nodes that were asked about, and what radios `cost`."""

    run: Arrivals
    cost: Cost
    _kept: dict[tuple[object, ...], dict[tuple[int, int], arrivals.Came]] = field(default_factory=dict, repr=False)

    def by_stream(self, whom: Whom) -> dict[tuple[int, int], arrivals.Came]:
        """What came of these streams; several requirements ask for the same."""
        asked = tuple(whom.items())
        if asked not in self._kept:
            meant = Meant(self.run.scenario, {stream: HOSTS if nodes is None else nodes for stream, nodes in whom.items()})
            self._kept[asked] = self.run.by_stream(meant)
        return self._kept[asked]


def came(scenario: Scenario, seed: int, *, nodes: Collection[int] | None = None, timeout: float | None = None) -> Came:
    """What came of the draw of a seed: its losses are drawn from the ratios of the scenario. Of deliveries at other nodes than these
    nothing is kept. Raises what `numbers.outcome` and `arrivals.of_draw` raise."""
    outcome = numbers.outcome(scenario, seed, nodes=nodes, timeout=timeout)
    return Came(arrivals.of_draw(scenario, outcome), outcome.cost)
