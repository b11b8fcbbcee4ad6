"""The words of plan files that stand for several nodes, for kinds of batteries, and for what is drawn. Tested, not proved."""

from __future__ import annotations

# Words that stand in place of names of nodes, so no node has one of them for its name.
ALL, HOSTS, BATTERY, MAINS, DRAWN, OTHERS = "all", "hosts", "battery", "mains", "drawn", "others"
RESERVED = (ALL, HOSTS, BATTERY, MAINS, DRAWN, OTHERS)
# Usual batteries in mAh at the voltage of a radio, some 3 V: two alkaline AA cells in series have the charge of one, a single one half the
# energy. A D cell is of lithium thionyl chloride, 3.6 V, as field instruments have it.
CAPACITIES = {BATTERY: 2_600.0, "2xAA": 2_600.0, "1xAA": 1_300.0, "D": 19_000.0}
POWERS = (MAINS, *CAPACITIES)
# Pairs of names: the sender and the receiver of a link.
Pair = tuple[str, str]
