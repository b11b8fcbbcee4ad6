#!/usr/bin/env python3
"""Prints the stamps of a run by their definition, from its log: tests/stamps.py SCENARIO LOG.

LOG is what the program writes by `log` of that scenario. What is printed must be what it writes by `times`: a line for each data
packet that was initiated, by frame, rank and slot (docs/TIMES.md). The rules are those of docs/internals/RUN.md and PACKETS.md,
written apart from the program. For tests/worked.sh; only Python's standard library is used."""

import collections
import pathlib
import sys

PROFILES = {1: {"frame": 256_000_000, "slot": 2_112_000}, 2: {"frame": 320_000_000, "slot": 3_584_000}}
LEAD, GUARD, BYTE, TURN = 64_000_000, 64_000, 2_048, 12_288
DATA, SCHEDULES, GREATEST_GAP = 2, (1, 4), 4

Heard = collections.namedtuple("Heard", "end packet")
Sent = collections.namedtuple("Sent", "rank node start packet")


class Clock:
    """A clock by its offset and its rates: from each tick on it gains so many parts per million."""

    def __init__(self, offset):
        self.offset = offset
        self.rates = [(0, 0)]

    def reading(self, tick):
        gained = 0
        ends = [start for start, _ in self.rates[1:]] + [tick]
        for (start, rate), end in zip(self.rates, ends, strict=True):
            gained += rate * max(0, min(end, tick) - start)
        return self.offset + tick + gained // 1_000_000


class Scenario:
    """What of a scenario stamps depend on: its profile, its hosts by rank, and its clocks by node."""

    def __init__(self, text):
        self.hosts, self.clocks, profile = {}, {}, 1
        for line in text.splitlines():
            match line.split():
                case ["profile", number]:
                    profile = int(number)
                case ["node", node, offset]:
                    self.clocks[int(node)] = Clock(int(offset))
                case ["host", rank, node]:
                    self.hosts[int(rank)] = int(node)
                case ["rate", node, tick, rate]:
                    self.clocks[int(node)].rates.append((int(tick), int(rate)))
        self.frame, self.slot = PROFILES[profile]["frame"], PROFILES[profile]["slot"]


def read_log(scenario, text):
    """The data packets that were initiated, and the schedules that were received, by node, rank and frame."""
    sent, heard = [], collections.defaultdict(list)
    for line in text.splitlines():
        match line.split():
            case ["sent", rank, node, start, _, spelled]:
                packet = bytes.fromhex(spelled)
                if packet[0] == DATA and packet[2] == 0:
                    sent.append(Sent(int(rank), int(node), int(start), packet))
            case ["heard", rank, node, _, start, end, spelled]:
                packet = bytes.fromhex(spelled)
                if packet[0] in SCHEDULES:
                    heard[int(node), int(rank), int(start) // scenario.frame].append(Heard(int(end), packet))
    return sent, heard


def reference(scenario, heard, sent):
    """The schedule by which the sender goes, and how many frames later its packet is: the first schedule of the frame of the packet that
    ended before it, or the first one of the latest frame before that which says by its gap that the next round is in that frame."""
    frame = sent.start // scenario.frame
    found = [one for one in heard[sent.node, sent.rank, frame] if one.end < sent.start]
    if found:
        return min(found), 0
    for gap in range(1, GREATEST_GAP + 1):
        found = [one for one in heard[sent.node, sent.rank, frame - gap] if one.packet[3] % 16 == gap]
        if found:
            return min(found), gap
    sys.exit(f"stamps.py: node {sent.node} sends at {sent.start} without a schedule to go by")


def zero(scenario, clock, heard):
    """When the round of a schedule began by the clock of its receiver: it knows when the reception ended, and takes off the time on the
    air, the steps of the relays, the slots before and the guard time."""
    on_air = (len(heard.packet) + 8) * BYTE
    _, slot, counter = heard.packet[:3]
    return clock.reading(heard.end) - on_air - counter * (on_air + TURN) - slot * scenario.slot - GUARD


def tick(scenario, heard, sent):
    """When a packet was initiated, in the time of the host of its rank."""
    clock = scenario.clocks[sent.node]
    if scenario.hosts[sent.rank] == sent.node:
        return clock.reading(sent.start)
    schedule, gap = reference(scenario, heard, sent)
    begun = zero(scenario, clock, schedule) + gap * scenario.frame
    return sent.start // scenario.frame * scenario.frame + LEAD + clock.reading(sent.start) - begun


def stamps(scenario, log):
    """The fields of each stamp, in order."""
    sent, heard = read_log(scenario, log)
    for one in sent:
        packet = one.packet
        number = int.from_bytes(packet[6:8], "big")
        yield one.start // scenario.frame, one.rank, packet[1], packet[3], packet[5], number, tick(scenario, heard, one)


def main():
    if len(sys.argv) != 3:
        sys.exit("usage: tests/stamps.py SCENARIO LOG")
    text, log = (pathlib.Path(name).read_text() for name in sys.argv[1:])
    for fields in sorted(stamps(Scenario(text), log)):
        print("stamp", *fields)


if __name__ == "__main__":
    main()
