"""The check that something is a network, where it enters. Tested, not proved."""

from __future__ import annotations

from typing import TypeVar

from ..common import arguments
from .scenario import Scenario

AnyScenario = TypeVar("AnyScenario", bound=Scenario)


def network(name: str, value: AnyScenario) -> AnyScenario:
    """The network that is given, whose losses are to be drawn: of one whose losses were drawn it is that without them
    (`Scenario.undrawn`), so the scenario of a log answers as its network does, and of a plan its network. Raises `ArgumentError` where it is no `Scenario`."""
    if not isinstance(value, Scenario) and callable(getattr(value, "network", None)):
        # A plan.
        value = value.network()
    if not isinstance(value, Scenario):
        raise arguments.ArgumentError(f"`{name}` is {arguments.kind(value)}, and has to be a Scenario; write Scenario.read(..) of a text")
    return value.undrawn()
