"""The public path of `foldcairn.model.events`, which says what each of these is. Tested, not proved."""

from __future__ import annotations

from .model.events import Capture, Cut, Leave, Loss, Off, On, Put, Rate, Ratio, ScriptLine, Stream, millionths

__all__ = ["Capture", "Cut", "Leave", "Loss", "Off", "On", "Put", "Rate", "Ratio", "ScriptLine", "Stream", "millionths"]
