#!/usr/bin/env python3
"""Whether a node on QEMU's Cortex-M4 does what it did in a log: each node of each scenario by itself, told what the log says that it
received and what the script asks of it.

Usage: tests/firmware.py FIRMWARE few | all. The lines `sent`, `tuned`, `deliver` and `drop` of the node have to be those of the log of the
stored program. `few` are ten scenarios, and `all` are all examples and worked ones. The instructions of each event are counted, and the
memory that the node takes. The last line is 'N nodes, M differences', and the status is 0 where M is 0. Tested, not proved.
"""

from __future__ import annotations

import concurrent.futures
import dataclasses
import pathlib
import struct
import subprocess
import sys
import tempfile

TOP = pathlib.Path(__file__).resolve().parent.parent
PROGRAM = TOP / "bin/foldcairn-x86_64-linux"
FEW = [
    "examples/backup-host-takes-over", "examples/energy-of-a-night", "examples/full-queue", "examples/host-restarts",
    "examples/two-contention-slots", "examples/two-contenders-one-captured", "examples/twelve-hops-from-the-host",
    "tests/worked/contention-slots-named-in-schedules", "tests/worked/profile-2-slow-sender", "tests/worked/streams-that-are-wished-again",
]
FOLDERS = ["examples", "tests/worked"]
# What docs/DEVICES.md says of a node at most, in bytes and instructions.
MOST = {"node": 1_192, "heap": 6_656, "later": 0, "stack": 2_420}
MOST_INSTRUCTIONS = 5_480
ADDRESS = 0x2020_0000
ROOM = 0x1F_0000
SECONDS = 600


@dataclasses.dataclass
class Run:
    """A scenario with its log, by lines of words."""

    name: str
    scenario: list[list[str]]
    log: list[list[str]]

    @classmethod
    def of(cls, name: str) -> Run:
        """The scenario of that name, which is run by the stored program."""
        text = (TOP / f"{name}.scenario").read_bytes()
        log = subprocess.run([PROGRAM, "log"], input=text, capture_output=True, check=True).stdout
        lines = [line.split() for line in text.decode().splitlines()]
        return cls(name, [line for line in lines if line and not line[0].startswith("#")], [line.split() for line in log.decode().splitlines()])

    def values(self, word: str) -> list[list[str]]:
        """What the scenario's lines of this word have after it."""
        return [line[1:] for line in self.scenario if line[0] == word]

    def nodes(self) -> list[int]:
        """All nodes."""
        return [int(line[0]) for line in self.values("node")]

    def due(self, node: int) -> list[str]:
        """The log's lines of what the node did, sorted."""
        place = {"sent": 2, "tuned": 2, "drop": 2, "deliver": 4}
        return sorted(" ".join(line) for line in self.log if line[0] in place and int(line[place[line[0]]]) == node)


def payload(word: str) -> bytes:
    """The bytes of a payload, with their number."""
    data = b"" if word == "-" else bytes.fromhex(word)
    return bytes([len(data)]) + data


def act(line: list[str]) -> bytes:
    """A line of the script as the firmware reads it."""
    match line:
        case ["on", *_]:
            return b"\0"
        case ["off", *_]:
            return b"\1"
        case ["stream", _, _, stream, interval]:
            return bytes([2, int(stream), int(interval)])
        case ["leave", _, _, stream]:
            return bytes([3, int(stream)])
        case ["put", _, _, stream, word]:
            return bytes([4, int(stream)]) + payload(word)
    raise ValueError(line)


def events(run: Run, node: int) -> bytes:
    """The settings of a node and what happens to it, in the form of examples/firmware/src/bin/replay.rs."""
    profile = int((run.values("profile") or [["1"]])[0][0])
    contend = int((run.values("contend") or [["0"]])[0][0])
    frame = 256_000_000 if profile == 1 else 320_000_000
    frames, sends = int(run.values("frames")[0][0]), int(run.values("sends")[0][0])
    offset = next(int(line[1]) for line in run.values("node") if int(line[0]) == node)
    hosts = [int(line[1]) for line in sorted(run.values("host"), key=lambda line: int(line[0]))]
    rates = [(int(line[1]), int(line[2])) for line in run.values("rate") if int(line[0]) == node]
    # At one tick script lines come before receptions, and these by their senders.
    found: list[tuple[tuple[int, int, int], bytes]] = []
    for line in run.scenario:
        if line[0] in ("on", "off", "stream", "leave", "put") and int(line[2]) == node:
            found.append(((int(line[1]) * frame, 0, 0), act(line)))
    for line in run.log:
        if line[0] == "heard" and int(line[2]) == node:
            found.append(((int(line[5]), 1, int(line[3])), b"\5" + payload(line[6])))
    found.sort(key=lambda event: event[0])
    head = bytes([255 if profile == 1 else contend, node, sends]) + struct.pack("<QQ", offset, frames * frame)
    head += bytes([len(hosts), *hosts, len(rates)]) + b"".join(struct.pack("<Qb", *rate) for rate in rates)
    whole = head + b"".join(struct.pack("<Q", key[0]) + data for key, data in found)
    if len(whole) > ROOM:
        raise ValueError(f"{run.name}: {len(whole)} bytes of events for node {node}")
    return struct.pack("<I", len(whole)) + whole


def played(firmware: str, data: bytes) -> list[str]:
    """The lines that the board writes."""
    with tempfile.NamedTemporaryFile() as file:
        file.write(data)
        file.flush()
        words = ["qemu-system-arm", "-M", "mps2-an386", "-cpu", "cortex-m4", "-nographic", "-semihosting-config", "enable=on,target=native"]
        # One nanosecond for each instruction, so that the board's timer counts them.
        words += ["-icount", "shift=0"]
        words += ["-device", f"loader,file={file.name},addr={ADDRESS:#x},force-raw=on", "-kernel", firmware]
        done = subprocess.run(words, capture_output=True, text=True, timeout=SECONDS, stdin=subprocess.DEVNULL)
    if done.returncode:
        return [f"status {done.returncode}", *done.stderr.splitlines()[-3:]]
    return done.stdout.splitlines()


def tried(firmware: str, run: Run, node: int) -> tuple[bool, list[str]]:
    """Whether the node did what the log says, and the words of the line on what it took."""
    lines = played(firmware, events(run, node))
    given = sorted(line for line in lines if not line.startswith("#"))
    due = run.due(node)
    if given != due:
        print(f"DIFFERS: node {node} of {run.name}: {len(due)} lines are due, {len(given)} came")
        for line in [*(f"  due: {line}" for line in due if line not in given), *(f"  came: {line}" for line in given if line not in due)][:6]:
            print(line)
    return given == due, next((line.split() for line in lines if line.startswith("#")), [])


def main() -> int:
    """Tries all nodes, two at once."""
    firmware, which = sys.argv[1], sys.argv[2]
    everything = [f"{folder}/{file.stem}" for folder in FOLDERS for file in sorted((TOP / folder).glob("*.scenario"))]
    runs = [Run.of(name) for name in (FEW if which == "few" else everything)]
    jobs = [(run, node) for run in runs for node in run.nodes()]
    with concurrent.futures.ThreadPoolExecutor(2) as pool:
        answers = list(pool.map(lambda job: tried(firmware, *job), jobs))
    taken = [words for _, words in answers if words]
    if not taken:
        print(f"{len(jobs)} nodes, {len(jobs)} differences")
        return 1
    most = {name: max(int(words[words.index(name) + 1]) for words in taken) for name in MOST}
    lines = sum(len(run.due(node)) for run, node in jobs)
    print(f"{lines} lines; at most {most['node']} bytes a node, {most['heap']} of heap, {most['later']} more later, {most['stack']} of stack")
    kinds = ("power on", "alarm", "reception", "end of a transmission")
    instructions = [max(int(words[place - len(kinds)]) for words in taken) for place in range(len(kinds))]
    print("instructions at most: " + ", ".join(f"{kind} {count}" for kind, count in zip(kinds, instructions)))
    over = [name for name, limit in MOST.items() if most[name] > limit] + ["instructions"] * (max(instructions) > MOST_INSTRUCTIONS)
    if over:
        print(f"more than docs/DEVICES.md says: {', '.join(over)}")
    wrong = sum(not right for right, _ in answers)
    print(f"{len(jobs)} nodes, {wrong} differences")
    return int(wrong > 0 or bool(over))


if __name__ == "__main__":
    sys.exit(main())
