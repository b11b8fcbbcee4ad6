"""The public path of `foldcairn.model.scenario`, which says what each of these is. Tested, not proved."""

from __future__ import annotations

from .model.scenario import (
    Capture, Cut, Leave, Loss, Off, On, Put, Rate, Ratio, Scenario, ScenarioError, ScenarioWarning, ScriptLine, Stream, grid, line,
    random_geometric, star,
)

__all__ = [
    "Capture", "Cut", "Leave", "Loss", "Off", "On", "Put", "Rate", "Ratio", "Scenario", "ScenarioError", "ScenarioWarning", "ScriptLine",
    "Stream", "grid", "line", "random_geometric", "star",
]  # fmt: skip
