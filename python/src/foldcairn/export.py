"""The public path of `foldcairn.pages.export`, which says what each of these is. Tested, not proved."""

from __future__ import annotations

from .pages.export import FIRST_CHANNEL, dissector, pcap, trace

__all__ = ["FIRST_CHANNEL", "dissector", "pcap", "trace"]
