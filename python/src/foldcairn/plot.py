"""The public path of `foldcairn.draw.plot`, which says what each of these is. Tested, not proved."""

from __future__ import annotations

from .draw.plot import delivery, energy, failures, hops, latency, outages, places, relays, save, search, timeline, topology

__all__ = ["delivery", "energy", "failures", "hops", "latency", "outages", "places", "relays", "save", "search", "timeline", "topology"]
