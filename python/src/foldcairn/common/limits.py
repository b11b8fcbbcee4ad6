"""The numbers that the rules and the texts fix, as the sources of the programs have them. Written by tools/limits.py. Tested, not proved."""

# The most frames from one round of a host to its next.
GREATEST_GAP = 4
# The frames for which a node scans its own rank, without the rank's host, before it hosts it.
QUIET_FRAMES = 5
# The frames for which a node scans any rank, without the rank's host, before it goes on to the next.
SEARCH_FRAMES = 12
# The steps of a flood.
FLOOD_STEPS = 12
# The most data slots of a round.
DATA_SLOTS = 40
# The greatest id of a node. Ids begin at 1.
GREATEST_ID = 200
# The most boots of a node, and so the greatest boot number. Boots are counted from 1.
MOST_BOOTS = 200
# The most nodes of a network.
MOST_NODES = 64
# The most frames of a scenario.
MOST_FRAMES = 4_096
# The most hosts of a network, and so the most ranks. Ranks are counted from 0.
MOST_RANKS = 4
# The most script lines of a scenario: its rates, losses, cuts and captures are counted too.
MOST_SCRIPT_LINES = 20_000
# The most by which a clock runs fast or slow, in parts per million.
DRIFT_BOUND = 20
# The most bytes that are read: an input of one byte more is too long.
INPUT_LIMIT = 4_194_304
# The most nodes times frames of a scenario that is run with a log: 64 nodes have 256 frames.
RUN_NODE_FRAMES = 16_384
# The most nodes times frames of a network: 64 nodes over all 4,096 frames.
BUS_NODE_FRAMES = 262_144
# The most script lines of a network: its rates, losses, cuts and captures are counted too. One that is run with a log has `MOST_SCRIPT_LINES` at most.
BUS_SCRIPT_LINES = 262_144
# The ratio of a link that always passes, in millionths: the greatest there is.
GREATEST_RATIO = 1_000_000
# The most lines with ratios.
MOST_RATIO_LINES = 100_000
# How many packets may wait, and how many sequence numbers there are.
QUEUE_LENGTH = 16
# The data slots in a row without a word after which an entry goes.
EMPTY_SLOTS = 16
