"""What the script of a scenario says of each `put` line: its boot, whether its packet counts, why it was dropped, and what emptied its queue.

`arrivals` adds what the lines of a run say. Tested, not proved.
"""

from __future__ import annotations

from collections import Counter
from collections.abc import Iterable
from dataclasses import dataclass, field
from functools import cached_property

import numpy as np
import pandas as pd
from numpy.typing import NDArray

from ..common.limits import QUEUE_LENGTH
from ..model import moments
from ..model.events import Leave, Off, On, Put, Stream
from ..model.scenario import Scenario
from .power import script

OFF, NO_STREAM, FULL_QUEUE = "node off", "no stream", "full queue"
LOST, WITHDRAWN = "lost with its node", "withdrawn"


def counts(scenario: Scenario, put: Put) -> bool:
    """Whether a packet is counted by answers: all are but those that keep a stream alive (`Scenario.stream(.., keep_alive=..)`)."""
    return bool(put.payload) or (put.node, put.stream) not in scenario.keep_alive


@dataclass
class _Queue:
    """One stream of one boot of a node, as far as the script tells."""

    # Which filling of a queue it is, counted over all queues: puts of one filling share their queue.
    filling: int
    requested: bool = False
    # The puts that no line has emptied from the queue so far.
    waiting: list[int] = field(default_factory=list)


@dataclass
class Puts:
    """The put lines, row by row; `filling` tells which of them share a queue, and is 0 for a sure drop."""

    rows: list[Put] = field(default_factory=list)
    boot: list[int] = field(default_factory=list)
    # Why it was dropped, as far as the script alone says it, and what emptied its queue first after the put, and when.
    dropped: list[str] = field(default_factory=list)
    cleared: list[str] = field(default_factory=list)
    cleared_frame: list[int] = field(default_factory=list)
    filling: list[int] = field(default_factory=list)
    fillings: int = 0
    # The frame, node and stream of each time that a queue was emptied.
    emptied: set[tuple[int, int, int]] = field(default_factory=set)

    def next_filling(self) -> int:
        """A filling that no queue had before."""
        self.fillings += 1
        return self.fillings

    @cached_property
    def columns(self) -> dict[str, NDArray[np.int64]]:
        """By `frame`, `source`, `stream` and `boot` those of each put line."""
        told = [(put.frame, put.node, put.stream) for put in self.rows]
        frame, source, stream = np.array(told, dtype=np.int64).reshape(-1, 3).T
        return {"frame": frame, "source": source, "stream": stream, "boot": np.array(self.boot, dtype=np.int64)}

    def table(self) -> pd.DataFrame:
        """A row for each put line: `frame`, `source`, `stream` and `boot`."""
        return pd.DataFrame(self.columns)

    @cached_property
    def _has_payload(self) -> NDArray[np.bool_]:
        return np.array([put.payload != b"" for put in self.rows], dtype=bool)

    def counted(self, scenario: Scenario) -> NDArray[np.bool_]:
        """Which packets count, as `counts` has it of each."""
        alive = [4 * node + stream for node, stream in scenario.keep_alive]
        found: NDArray[np.bool_] = self._has_payload | ~np.isin(4 * self.columns["source"] + self.columns["stream"], alive)
        return found

    def put_seconds(self, scenario: Scenario) -> NDArray[np.float64]:
        """When each packet was put, in seconds, as `Scenario.put_seconds` has it of each."""
        frame = self.columns["frame"]
        starts = frame * float(scenario.frame_seconds)
        given = np.array([start if put.seconds is None else put.seconds for put, start in zip(self.rows, starts.tolist())], dtype=np.float64)
        found: NDArray[np.float64] = np.where(moments.frames_from(given, scenario.frame_seconds) == frame, given, starts)
        return found

    def queued(self) -> NDArray[np.bool_]:
        """Which packets were not dropped, as far as it is known."""
        return np.array([why == "" for why in self.dropped], dtype=bool)

    def numbers(self) -> NDArray[np.int64]:
        """The number that each packet got in its stream and boot; -1 where it was dropped."""
        source, boot, stream = (self.columns[name] for name in ("source", "boot", "stream"))
        group, rows = (source * 256 + boot) * 4 + stream, np.flatnonzero(self.queued())
        order = rows[np.argsort(group[rows], kind="stable")]
        # Where the packets of a stream and boot begin, among those that were queued.
        begins = np.flatnonzero(np.diff(group[order], prepend=-1))
        found = np.full(len(group), -1, dtype=np.int64)
        found[order] = np.arange(len(order)) - np.repeat(begins, np.diff(begins, append=len(order)))
        return found


def of_script(scenario: Scenario) -> Puts:
    """The put lines of a scenario, with what its script says of each."""
    ordered = script(scenario)
    told = Puts(rows=[line for line in ordered if isinstance(line, Put)])
    count = len(told.rows)
    told.cleared, told.cleared_frame = [""] * count, [-1] * count
    boot: Counter[int] = Counter()
    queues: dict[int, dict[int, _Queue]] = {}
    for line in ordered:
        streams = queues.get(line.node)
        # Most lines are puts.
        if isinstance(line, Put):
            _put(told, streams[line.stream] if streams is not None else None, boot[line.node])
        elif isinstance(line, On) and streams is None:
            boot[line.node] += 1
            queues[line.node] = {stream: _Queue(told.next_filling()) for stream in range(4)}
        elif isinstance(line, Off) and streams is not None:
            for stream, queue in queues.pop(line.node).items():
                _clear(told, queue, LOST, (line.frame, line.node, stream))
        elif isinstance(line, Stream) and streams is not None:
            streams[line.stream].requested = True
        elif isinstance(line, Leave) and streams is not None:
            streams[line.stream].requested = False
            _clear(told, streams[line.stream], WITHDRAWN, (line.frame, line.node, line.stream))
    return told


def _clear(told: Puts, queue: _Queue, why: str, where: tuple[int, int, int]) -> None:
    """A queue is emptied, in this frame and of this node and stream."""
    for row in queue.waiting:
        told.cleared[row], told.cleared_frame[row] = why, where[0]
    queue.waiting.clear()
    queue.filling = told.next_filling()
    told.emptied.add(where)


def _put(told: Puts, queue: _Queue | None, boot: int) -> None:
    """The next put goes to this queue, or to none."""
    dropped, filling = OFF if queue is None else NO_STREAM, 0
    if queue is not None and queue.requested:
        queue.waiting.append(len(told.dropped))
        dropped, filling = "", queue.filling
    told.boot.append(0 if queue is None else boot)
    told.dropped.append(dropped)
    told.filling.append(filling)


def drop_by_full_queues(told: Puts, drops: Iterable[tuple[int, ...]]) -> None:
    """Finds which puts met a full queue.

    Each drop is a frame, a node and a stream. Of the puts of one frame that share a queue those that come last are dropped;
    a queue that was emptied within the frame takes exactly 16; what is left of the drops is of the first queue.
    """
    left = Counter(drops)
    shared: dict[tuple[int, int, int], dict[int, list[int]]] = {}
    for row, (put, dropped) in enumerate(zip(told.rows, told.dropped)):
        key = (put.frame, put.node, put.stream)
        if dropped:
            left[key] -= 1
        elif key in left or key in told.emptied:
            # Of others nothing was dropped, and they are most.
            shared.setdefault(key, {}).setdefault(told.filling[row], []).append(row)
    for key, groups in shared.items():
        for place, rows in reversed(list(enumerate(groups.values()))):
            full = max(0, len(rows) - QUEUE_LENGTH) if place else left[key]
            left[key] -= full
            for row in rows[len(rows) - full :]:
                told.dropped[row] = FULL_QUEUE
                told.cleared[row] = ""
