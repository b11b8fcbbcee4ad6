"""The network of a plan at its means, which knows what each seed draws: so what samples, compares or sweeps it varies all that is by chance.

Tested, not proved.
"""

from __future__ import annotations

import hashlib
from collections.abc import Callable
from dataclasses import dataclass, field, fields
from typing import TYPE_CHECKING, Any

from ..model.scenario import Scenario

if TYPE_CHECKING:
    from .drawing import Drawer

# What of a plan no draw depends on, so that other values make no kept result void.
_NOT_DRAWN = frozenset({"search"})


@dataclass(repr=False)
class PlanNetwork(Scenario):
    """A network with the means of a plan. Once it is changed it is a network as any other, whose seeds draw the losses alone.

    drawer   what makes the networks of seeds, or None
    made     its text as the plan has it, by its checksum
    """

    drawer: Drawer | None = field(default=None, compare=False, repr=False)
    made: str = field(default="", compare=False, repr=False)

    def by_seed(self) -> Callable[[int], Scenario] | None:
        """What gives the network of a seed; None where this one was changed."""
        return self.drawer.network if self.drawer is not None and self.made == checksum(self) else None

    def varied_by(self) -> str:
        """The plan, by its checksum."""
        if self.drawer is None or self.by_seed() is None:
            return ""
        plan: Any = self.drawer.plan
        return _of_text(repr([getattr(plan, one.name) for one in fields(plan) if one.compare and one.name not in _NOT_DRAWN]))


def checksum(network: Scenario) -> str:
    """The checksum of a network's text, and of what the text has not."""
    return _of_text(network.network_text(warn=False) + repr(network.receivers))


def _of_text(text: str) -> str:
    return hashlib.sha256(text.encode("utf-8", "surrogateescape")).hexdigest()
