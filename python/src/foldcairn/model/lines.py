"""The lines of a scenario, of a flood and of a deadline text, with the range of each number, as docs/SCENARIO.md has them.

The other modules look up names and ranges here, so that each is written once. Tested, not proved.
"""

from __future__ import annotations

from dataclasses import dataclass
from functools import cache

from ..common import limits

FRAMES_MOST = limits.MOST_FRAMES
NODES_MOST = limits.MOST_NODES
NODE_FRAMES_MOST = limits.RUN_NODE_FRAMES
# The same for `outcome`, which keeps no log: 64 nodes over all frames.
LONG_NODE_FRAMES_MOST = limits.BUS_NODE_FRAMES
# The commands that read a network text: a scenario, and ratios below a line `ratios`.
NETWORK_COMMANDS = frozenset({"bounds", "draw", "fates", "outcome", "sample"})
# Those of the first program that read one where a seed comes after their word.
SEEDED_COMMANDS = frozenset({"run", "log"})
SCRIPT_LINES_MOST = limits.MOST_SCRIPT_LINES
# The same for network texts.
LONG_SCRIPT_LINES_MOST = limits.BUS_SCRIPT_LINES
RATIO_LINES_MOST = limits.MOST_RATIO_LINES
# The greatest seed that the programs take.
SEED_MOST = 9_999_999_999_999
# How many seeds one call of this package takes.
SEEDS_MOST = 1_000_000
BOOTS_MOST = limits.MOST_BOOTS
TEXT_BYTES_MOST = limits.INPUT_LIMIT
DIGITS_MOST = 13
STREAMS_OF_A_HOST = 32
# A host takes a stream away whose slots stayed empty so many times in a row.
EMPTY_SLOTS = limits.EMPTY_SLOTS
DATA_SLOTS = limits.DATA_SLOTS
STEPS = limits.FLOOD_STEPS
PROFILES = (1, 2)

# The lines that count as script lines, of which a text has at most SCRIPT_LINES_MOST, and a network text LONG_SCRIPT_LINES_MOST.
SCRIPT_WORDS = frozenset({"rate", "on", "off", "stream", "leave", "put", "lose", "cut", "capture"})


@dataclass(frozen=True)
class Field:
    """One value of a line: its name, its range (both ends included), its unit, and what kind of value it is.

    `kind` is "number", "id" (of a node that a line above gives), "new id", "signed", "payload" or "packet" (of a log). The range
    of a payload and of a packet is that of its bytes.
    """

    name: str
    low: int
    high: int
    unit: str = ""
    kind: str = "number"
    # What to do where a value is above the range, as the end of a sentence.
    advice: str = ""

    @property
    def is_bytes(self) -> bool:
        """Whether it is written as two hexadecimal digits a byte."""
        return self.kind in ("payload", "packet")

    def range_in_words(self) -> str:
        """Its name and range: "the drift, is from -20 to 20 ppm"."""
        unit = f" {self.unit}" if self.unit else ""
        if self.is_bytes and not self.low:
            return f"the {self.name}, is at most {self.high:,}{unit}"
        return f"the {self.name}, is from {self.low:,} to {self.high:,}{unit}"


@dataclass(frozen=True)
class Context:
    """What the ranges of a line depend on: the profile, whether there is a `contend` line, and the frames (None: not given)."""

    profile: int = 1
    contend: bool = False
    frames: int | None = None


def frame_seconds(profile: int) -> int:
    """The length of a frame in seconds: 4 in profile 1, 5 in profile 2."""
    return 4 if profile == 1 else 5


def frame_ticks(profile: int) -> int:
    """The length of a frame in ticks of 1/64 µs."""
    return frame_seconds(profile) * 64_000_000


def slot_ticks(profile: int) -> int:
    """The length of a slot in ticks of 1/64 µs: 33 ms in profile 1, 56 ms in profile 2."""
    return 2_112_000 if profile == 1 else 3_584_000


def window_ticks(profile: int) -> int:
    """For how long a radio is on in a slot at most, in ticks of 1/64 µs: 32.75 ms in profile 1, 55.75 ms in profile 2."""
    return slot_ticks(profile) - 16_000


def payload_most(profile: int) -> int:
    """The longest payload in bytes: 32 in profile 1, 96 in profile 2."""
    return 32 if profile == 1 else 96


_FRAMES = "; frames are no seconds: a frame has 4 s, in profile 2 5 s"
# Packets may come less often than the slots of their stream.
_INTERVAL = "; ask for 120, and put the packets as seldom as they come, as `every` does"


def _id(name: str) -> Field:
    return Field(name, 1, limits.GREATEST_ID, kind="id")


def _scenario_fields(context: Context) -> dict[str, tuple[Field, ...]]:
    frame = Field("frame", 0, (context.frames or FRAMES_MOST) - 1)
    slot = Field("slot", 0, 45 if context.contend else 42)
    step = Field("step", 0, STEPS - 1)
    stream = Field("stream", 0, 3)
    node = _id("id of the node")
    sender, receiver = _id("id of the sender"), _id("id of the receiver")
    return {
        "profile": (Field("profile", 1, 2),),
        "contend": (Field("number of contention slots", 1, 4),),
        "frames": (Field("number of frames", 1, FRAMES_MOST, advice=_FRAMES),),
        "sends": (Field("number of transmissions of a node in one flood", 1, 4),),
        "node": (Field("id of the node", 1, limits.GREATEST_ID, kind="new id"), Field("clock offset", 0, 256_000, "ticks of 1/64 µs")),
        "rate": (
            node,
            Field("tick", 0, FRAMES_MOST * frame_ticks(context.profile), "ticks of 1/64 µs"),
            Field("drift", -20, 20, "ppm", kind="signed"),
        ),
        "host": (Field("rank", 0, 3), node),
        "link": (sender, receiver),
        "pair": (_id("id of one node"), _id("id of the other node")),
        "on": (frame, node),
        "off": (frame, node),
        "stream": (frame, node, stream, Field("interval", 1, 120, "seconds", advice=_INTERVAL)),
        "leave": (frame, node, stream),
        "put": (frame, node, stream, Field("payload", 0, payload_most(context.profile), "bytes", kind="payload")),
        "lose": (frame, slot, step, sender, receiver),
        "cut": (frame, slot, step, node),
        "capture": (frame, slot, step, receiver, sender),
    }


def _network_fields(context: Context) -> dict[str, tuple[Field, ...]]:
    """The lines of a scenario, and those below a line `ratios`."""
    scenario = _scenario_fields(context)
    frame, (sender, receiver) = scenario["on"][0], scenario["link"]
    return scenario | {"ratio": (frame, sender, receiver, Field("ratio", 0, limits.GREATEST_RATIO, "millionths"))}


def _flood_fields(_: Context) -> dict[str, tuple[Field, ...]]:
    scenario = _scenario_fields(Context())
    kept = {word: scenario[word] for word in ("sends", "node", "rate", "link", "pair")}
    return kept | {"lose": scenario["lose"][2:], "start": (_id("id of the initiator"),)}


def _deadline_fields(_: Context) -> dict[str, tuple[Field, ...]]:
    return {
        "slots": (Field("number of slots", 1, DATA_SLOTS),),
        "frames": (Field("number of frames", 1, 1_024),),
        "stream": (
            Field("id of the node", 1, limits.GREATEST_ID),
            Field("stream", 0, 3),
            Field("start", 0, 1_023, "frames"),
            Field("period", 1, 64, "frames"),
            Field("deadline", 1, 64, "frames"),
        ),
    }


def _log_fields(_: Context) -> dict[str, tuple[Field, ...]]:
    """The lines of a recorded log. That the end is above the start is no range of either."""
    last = 10**DIGITS_MOST - 1
    rank, node = Field("rank", 0, 3), _id("id of the node")
    times = Field("start", 0, last, "ticks of 1/64 µs"), Field("end", 0, last, "ticks of 1/64 µs")
    packet = Field("packet", 3, 125, "bytes", kind="packet")
    return {
        "sent": (rank, node, *times, packet),
        "heard": (rank, node, _id("id of the sender"), *times, packet),
        "tuned": (rank, node, *times),
    }


@cache
def fields(command: str, context: Context = Context()) -> dict[str, tuple[Field, ...]]:
    """The fields of each line that `command` reads, by the first word of the line.

    `command` is "run", "log", "bus" or another that reads a scenario, one of `NETWORK_COMMANDS`, "flood" or "deadlines"; or
    "check", for the lines below a line `log`.
    """
    if command in NETWORK_COMMANDS:
        return _network_fields(context)
    if command == "flood":
        return _flood_fields(context)
    if command == "deadlines":
        return _deadline_fields(context)
    if command == "check":
        return _log_fields(context)
    return _scenario_fields(context)


def number_fault(word: str, signed: bool = False) -> str | None:
    """Why a word is no number of a text, or None where it is one.

    A number is `0`, or a digit 1 to 9 and more digits, at most 13 in all; a signed one may have a `-` before a digit 1 to 9.
    """
    digits = word.removeprefix("-") if signed else word
    if signed and word == "-0":
        return "0 has no sign"
    if not digits.isascii() or not digits.isdigit():
        if digits[:1] in ("-", "+"):
            return "it has a sign"
        if digits.replace(".", "", 1).isdigit():
            return "it is no whole number"
        return "it has a character that is no digit" if digits else "it has no digits"
    if len(digits) > DIGITS_MOST:
        return f"it has more than {DIGITS_MOST} digits"
    if digits != "0" and digits.startswith("0"):
        return "it begins with a zero"
    return None


def bytes_fault(word: str, kind: str = "payload") -> str | None:
    """Why a word is no payload of a text (two hexadecimal digits a byte, or `-` for none), or no packet of a log (without the
    `-`), or None where it is one."""
    if word == "-" and kind == "payload":
        return None
    if any(digit not in "0123456789abcdefABCDEF" for digit in word):
        return f"a {kind} has hexadecimal digits only, without 0x"
    if len(word) % 2:
        return f"a {kind} has two hexadecimal digits for each byte, and this one has an odd number of them"
    return None
