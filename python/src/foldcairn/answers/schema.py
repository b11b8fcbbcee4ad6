"""The columns of the tables of answers by their names: their types, and what means the same in each table. Each is said once.

A column that is not here is a real number (float64); one that ends in `_seconds` is in seconds. What a column means in a table of its
own is said by the docstring of the function that gives it. Tested, not proved.
"""

from __future__ import annotations

from dataclasses import dataclass
from typing import Literal

# An id of a node, another whole number (both int64), yes or no (bool), and words or lists.
Type = Literal["node", "whole", "truth", "words", "real"]


@dataclass(frozen=True)
class Column:
    """A column of answers: its name and type, and what it means where no docstring says it. `everywhere`: it means this in each table,
    whatever a docstring says of several columns at once."""

    name: str
    type: Type
    meaning: str = ""
    everywhere: bool = False


_LISTED = (
    # What tells rows apart.
    Column("source", "node", "the node that put the packets", True),
    Column("stream", "whole", "the stream of it, 0 to 3", True),
    Column("node", "node", "the node", True),
    Column("host", "node", "the node that hosts", True),
    Column("rank", "whole", "the rank of the host: 0 is the first choice", True),
    Column("boot", "whole", "which boot of the node", True),
    Column("host_boot", "whole", "which boot of the host", True),
    Column("other_host", "node", "the other host"),
    Column("other_rank", "whole", "its rank"),
    Column("other_host_boot", "whole", "which boot of it"),
    Column("from_host", "node"),
    Column("to_host", "node"),
    Column("sender", "node"),
    Column("origin", "node"),
    # Of a link, as in `importance`.
    Column("one", "node"),
    Column("other", "node"),
    Column("nodes", "words"),
    Column("frame", "whole", "the frame of the round"),
    Column("slot", "whole", "the slot of the round"),
    Column("number", "whole"),
    Column("payload", "words"),
    # Where packets went.
    Column("put", "whole"),
    Column("puts", "whole", "the packets that were put"),
    Column("sent", "whole"),
    Column("sent_while_on", "whole"),
    Column("keep_alive", "truth"),
    Column("sent_frame", "whole"),
    Column("sent_slot", "whole"),
    Column("host_delivered", "truth"),
    Column("cleared_frame", "whole"),
    Column("deliveries", "whole", "how many deliveries there were"),
    Column("fate", "words"),
    Column("delivered", "whole", "packets that at least one node delivered"),
    Column("delivered by none", "whole", "packets that were sent and delivered by none"),
    Column("queued", "whole", "packets that wait at the end of the run"),
    Column("lost with its node", "whole", "packets that waited when the power of their node went off"),
    Column("withdrawn", "whole", "packets that waited when their stream was left"),
    Column("dropped: node off", "whole", "packets that were put while their node was off"),
    Column("dropped: no stream", "whole", "packets that were put without a requested stream"),
    Column("dropped: full queue", "whole", "packets that were put while 16 others waited"),
    # Times.
    Column("min_seconds", "real", "the shortest time"),
    Column("median_seconds", "real", "half of the deliveries took no longer"),
    Column("p90_seconds", "real", "90 % of the deliveries took no longer"),
    Column("p99_seconds", "real", "99 % of the deliveries took no longer"),
    Column("max_seconds", "real", "the longest time"),
    Column("start_seconds", "real", "when it began, in seconds"),
    Column("end_seconds", "real", "when it ended, in seconds"),
    Column("seconds", "real", "how long it was"),
    Column("outage_seconds", "real", "how long it was, in seconds"),
    # Rounds, joins and contention.
    Column("rounds", "whole"),
    Column("gap", "whole"),
    Column("hosts", "whole"),
    Column("joined", "whole"),
    Column("streams", "whole"),
    Column("accepted", "whole"),
    Column("start", "words"),
    Column("slots", "whole"),
    Column("data_slots", "whole"),
    Column("contention_slots", "whole"),
    Column("packets", "whole"),
    Column("requests", "whole"),
    Column("used", "whole", "those of the slots in which a request was sent"),
    Column("collided", "whole"),
    Column("acknowledgements", "whole"),
    # Outages.
    Column("ended", "truth"),
    Column("cause", "words"),
    Column("joined_again", "truth", "whether a round followed, and not the end of the run or of the power"),
    # The radio.
    Column("empty data", "real", "the window of a data slot in which none was sent"),
    Column("on", "real", "all of them"),
    Column("reaches_target", "words"),
    # Bounds.
    Column("bound", "words"),
    Column("of", "words"),
    Column("frames", "whole"),
    Column("interval", "whole"),
    Column("holds", "words"),
    Column("premise", "words"),
    Column("proof", "words"),
)
COLUMNS = {one.name: one for one in _LISTED}

# Ids and counts, which are int64 in each table; of a column of yes and no with such a name the type stays.
WHOLE = frozenset(one.name for one in _LISTED if one.type in ("node", "whole"))
# The columns and indices that have ids of nodes.
IDS = frozenset(one.name for one in _LISTED if one.type == "node")
MEANINGS = {one.name: one.meaning for one in _LISTED if one.meaning}
EVERYWHERE = frozenset(one.name for one in _LISTED if one.everywhere)
