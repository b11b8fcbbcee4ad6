"""What the program's `sample` says of many seeds, as tables (docs/RATIOS.md). Tested, not proved."""

from __future__ import annotations

from collections.abc import Sequence
from dataclasses import dataclass
from io import BytesIO
from pathlib import Path

import numpy as np
import pandas as pd

from ..common import arguments
from ..model import lines
from ..model.scenario import Scenario
from ..runs import columns, program as programs
from ..runs.losses import Drawing

_LINES = {
    "seed": dict.fromkeys(["seed"], "int64"),
    "puts": dict.fromkeys(["source", "stream", "put", "dropped", "sent", "waiting", "cleared"], "int64"),
    "hosted": dict.fromkeys(["source", "stream", "node", "count"], "int64"),
    "latency": dict.fromkeys(["source", "stream", "node", "frames", "count"], "int64"),
    "host": dict.fromkeys(["source", "stream", "node", "frames", "count"], "int64"),
    "cost": dict.fromkeys(["node", "transmit_ticks", "window_ticks", "scanned_frames"], "int64"),
}


@dataclass(frozen=True, repr=False, eq=False)
class Counts:
    """What is counted of each of some seeds.

    Attributes
    ----------
    scenario : Scenario
        The network.
    seeds : tuple of int
        The seeds, in their order.
    puts : pandas.DataFrame
        A row for each `seed`, `source` and `stream` with a `put` line: how many packets were `put`, and of these `dropped`, `sent`, `waiting` (at
        the end) and `cleared` (their queue was emptied).
    hosted : pandas.DataFrame
        A row for each `seed`, `source`, `stream` and `node`: `count` packets of the stream were sent in rounds that the node hosts.
    latencies : pandas.DataFrame
        A row for each `seed`, `source`, `stream`, `node` and `frames`: `count` packets of the stream were delivered at the node in the
        `frames`-th frame after that of their put.
    hosts : pandas.DataFrame
        The same for those alone that were sent in rounds that the node hosts.
    cost : pandas.DataFrame
        A row for each `seed` and `node`: `transmit_ticks`, `window_ticks` (planned for the windows of its rounds), both of 1/64 µs, and
        `scanned_frames`, at whose start it searched for a host.
    """

    scenario: Scenario
    seeds: tuple[int, ...]
    puts: pd.DataFrame
    hosted: pd.DataFrame
    latencies: pd.DataFrame
    hosts: pd.DataFrame
    cost: pd.DataFrame

    def __repr__(self) -> str:
        return f"<Counts: {len(self.scenario.nodes)} nodes, {self.scenario.seconds} s, {len(self.seeds):,} seeds>"


@dataclass(frozen=True)
class Sampled(Drawing):
    """A network and a seed of which the counts of `sample` are asked, for `sweep.sweep`.

    `planning.summary` and `sweep.summary` take them. No lines of losses are drawn and no log is run, so runs may be as long as those of
    `results.outcome`.

    Parameters
    ----------
    scenario : Scenario
        The network.
    seed : int
        The seed of the losses, 0 to 9,999,999,999,999.
    """

    def result(self) -> Counts:
        """What is measured of it by a sweep.

        Returns
        -------
        Counts
            The counts of the seed.

        Raises
        ------
        program.ProgramError
            As `of` does, which raises others too.
        """
        return of(self.scenario, self.seed, 1)


def of(scenario: Scenario, first: int, count: int, *, program: Path | None = None, timeout: float | None = None) -> Counts:
    """The counts of some seeds, by one run of the program's `sample`.

    Its losses are drawn from the reception ratios of the scenario as the bus runs. A scenario without ratios, or whose losses are drawn, is
    the same for each seed.

    Parameters
    ----------
    scenario : Scenario
        The network.
    first : int
        The first seed, 0 to 9,999,999,999,999.
    count : int
        How many seeds there are, 1 or more.
    program : path, optional
        The program; that of `program.find_planner` without it.
    timeout : float, optional
        After how many seconds of real time it is ended.

    Returns
    -------
    Counts
        What was counted, by seed.

    Raises
    ------
    ArgumentError
        Where a number is none or a seed is out of its range.
    program.ProgramError
        As `program.execute` does.
    """
    first = arguments.whole("first", first, 0, lines.SEED_MOST)
    count = arguments.whole("count", count, 1, lines.SEED_MOST + 1 - first)
    planner = programs.find_planner() if program is None else program
    text = scenario.network_text(warn=False).encode()
    output = programs.execute(["sample", str(first), str(count)], text, program=planner, timeout=timeout)
    return read(output, scenario, range(first, first + count))


def read(output: bytes, scenario: Scenario, seeds: Sequence[int]) -> Counts:
    """The counts in the output of `sample` for these seeds.

    Raises `program.CutOutput` where it ends early, and `columns.UnknownLine` where a line is none of `sample`.
    """
    told = columns.read(BytesIO(output), _LINES)
    if told["seed"]["seed"].tolist() != list(seeds) or len(told["cost"]) != len(seeds) * len(scenario.nodes):
        raise programs.CutOutput(f"the output of `sample` is cut: it has {len(told['seed'])} of {len(seeds)} seeds, or lines of a seed are missing")
    # A line belongs to the `seed` line above it; the words differ in their first and their fifth letters.
    text = np.frombuffer(output, np.uint8)
    starts = np.insert(np.flatnonzero(text == ord("\n"))[:-1] + 1, 0, 0)
    first, fifth = text[starts], text[np.minimum(starts + 4, len(text) - 1)]
    seed = told["seed"]["seed"].to_numpy()[np.cumsum(first == ord("s")) - 1]
    for word in ("puts", "hosted", "latency", "host", "cost"):
        told[word].insert(0, "seed", seed[(first == ord(word[0])) & ((fifth == ord(f"{word} "[4])) | (word[0] != "h"))])
    found = Counts(scenario, tuple(seeds), *(told[word] for word in ("puts", "hosted", "latency", "host", "cost")))
    _check_hosted(found)
    return found


def _check_hosted(found: Counts) -> None:
    """Each packet that was sent was sent in a round that some node hosts. An older program has no `hosted` lines."""
    keys = ["seed", "source", "stream"]
    sent = found.puts.set_index(keys)["sent"]
    hosted = found.hosted.groupby(keys)["count"].sum().reindex(sent.index, fill_value=0)
    if not hosted.equals(sent.rename("count")):
        raise programs.CutOutput("the output of `sample` is cut, or that of an older program: `hosted` lines are missing")
