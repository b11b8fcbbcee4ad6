"""The public path of `foldcairn.runs.results`, which says what each of these is. Tested, not proved."""

from __future__ import annotations

from .runs.results import (
    DeadlineReport, FATES, FATE_TYPES, FloodReport, Log, Origin, PACKET, ROUND_SECONDS, Report, ReturnReport, TICKS_A_SECOND, bus, check,
    deadlines, fates, flood, log, on_air, outcome, read_log, returns, run, slot_seconds, times,
)

__all__ = [
    "DeadlineReport", "FATES", "FATE_TYPES", "FloodReport", "Log", "Origin", "PACKET", "ROUND_SECONDS", "Report", "ReturnReport",
    "TICKS_A_SECOND", "bus", "check", "deadlines", "fates", "flood", "log", "on_air", "outcome", "read_log", "returns", "run",
    "slot_seconds", "times",
]  # fmt: skip
