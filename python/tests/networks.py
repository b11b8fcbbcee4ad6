"""Three networks whose runs are worked out by hand from the rules of docs/internals/RUN.md, with the numbers of them.

All clocks keep true time, so every time is exact. Profile 1: frames of 4 s, a round one second into its frame, slots of
33 ms, transmissions 1 ms into their slots. A host searches in frames 0 to 4 and opens its first round in frame 5, at 21 s.
"""

from __future__ import annotations

from functools import cache

from foldcairn.runs import results

SECOND = 64_000_000
# The whole of a window; and of one in which the node transmits twice, the last time in step k, with a packet of n bytes.
CLOSE = 2_096_000


def step(length: int) -> int:
    """Ticks from step to step with a packet of this length: 2,048 a byte and 8 more, and the turnaround."""
    return (length + 8) * 2_048 + 12_288


def window(last_step: int, length: int) -> int:
    """Ticks of a window in which the node transmits twice, the second time in `last_step`."""
    return 64_000 + (last_step + 1) * step(length) - 12_288


@cache
def log_of(text: str) -> results.Log:
    """The log of one of the texts below: run once for all tests, and kept with what has been worked out of it."""
    return results.log(text)


# Node 3 is two hops from the host, node 1, and has one packet. It asks in frame 5 and sends in slot 1 of frame 9, which has
# four data slots: a slot every 4 s for the 16 s from round to round.
LINE = """\
frames 12
sends 2
node 1 0
node 2 0
node 3 0
host 0 1
pair 1 2
pair 2 3
on 0 1
on 0 2
on 0 3
stream 0 3 0 4
put 0 3 0 aa
"""

# Nodes 2 and 3 both ask in frame 5, and the host receives neither. Node 2 asks again in frame 9, node 3 skips that round and asks
# in frame 13. Each has its slots from the round after.
CONTENDERS = """\
sends 2
node 1 0
node 2 0
node 3 0
host 0 1
pair 1 2
pair 1 3
frames 18
on 0 1
on 0 2
on 0 3
stream 0 2 0 4
stream 0 3 0 4
put 0 2 0 aa
put 0 3 0 bb
"""

# Node 1 hosts until it goes off at the start of frame 6. The round of frame 9 takes place without it. Node 2 searches until
# frame 26, hosts from frame 27 on, and gets a second packet of node 3 in frame 31.
FAILOVER = """\
sends 2
node 1 0
node 2 0
node 3 0
host 0 1
host 1 2
pair 1 2
pair 1 3
pair 2 3
frames 32
on 0 1
on 0 2
on 0 3
stream 0 3 0 4
put 0 3 0 aa
off 6 1
put 20 3 0 bb
"""
