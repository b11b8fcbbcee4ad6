"""What the programs write, as tables: of `run`, `log`, `bus`, `outcome`, `fates`, `flood`, `deadlines`, `times` and `return`. What
`check` answers is in `verdicts`.

Each function runs the program on a scenario and reads its lines, which docs/OUTPUT.md has. Nothing is simulated here.
Columns are named in full: those that end in `_ticks` are true time in ticks of 1/64 µs, those that end in `_seconds` true
time in seconds from the start of the run, or spans of it. Two are of another clock, and say so: `planned_seconds` is by plan,
`host_seconds` (with `host_ticks`) by the clock of a host. Ids and counts are int64 in all tables; `labels.named` gives a table with
the names of nodes. All functions raise what `program.execute` raises: `Refused` where the text is rejected, `BadUsage` where the
program lacks the command, and so on. Tested, not proved.
"""

from __future__ import annotations

import hashlib
import os
import tempfile
import warnings
from collections.abc import Mapping, Sequence
from dataclasses import dataclass, field, replace
from functools import cached_property
from io import BytesIO
from pathlib import Path
from typing import Any, BinaryIO, TypeAlias

import numpy as np
import pandas as pd
from numpy.typing import NDArray

from ..common import arguments, display
from ..model import cautions, lines
from ..model.scenario import Scenario, ScenarioWarning
from . import columns, packets, program as programs
from .verdicts import Verdict, verdict

# What is run: a scenario, a text, or the path of a file that has one (a `pathlib.Path`).
Given: TypeAlias = "Scenario | str | bytes | os.PathLike[str]"

Numbers: TypeAlias = NDArray[np.int64]

TICKS_A_SECOND = 64_000_000
# A round starts this long after the start of its frame.
ROUND_SECONDS = 1.0

_DELIVER = {
    "frame": "int64",
    "rank": "int64",
    "slot": "int64",
    "node": "int64",
    "source": "int64",
    "boot": "int64",
    "stream": "int64",
    "number": "int64",
    "payload": "category",
}
# What tells one packet from all others.
PACKET = ["source", "boot", "stream", "number"]
# The words of `fates` for what became of a packet, and the columns of its table.
FATES = ("dropped", "sent", "waiting", "cleared")
FATE_TYPES = {
    "frame": "int64", "source": "int64", "stream": "int64", "boot": "int64", "number": "int64",
    "became": pd.CategoricalDtype(FATES), "sent_frame": "int64", "rank": "int64", "sent_slot": "int64", "deliveries": "int64",
    "host_delivered": "bool", "cleared_frame": "int64",
}  # fmt: skip
_DROP = {"frame": "int64", "node": "int64", "stream": "int64"}
_COST = {"node": "int64", "transmit_ticks": "int64", "window_ticks": "int64", "scanned_frames": "int64"}
_ENERGY = {**_COST, "on_ticks": "int64"}
_INTERVAL = {"start_ticks": "int64", "end_ticks": "int64"}
_REPORT_LINES = {"deliver": _DELIVER, "drop": _DROP, "energy": _ENERGY}
_LOG_LINES = {
    "sent": {"rank": "int64", "node": "int64", **_INTERVAL, "packet": "category"},
    "heard": {"rank": "int64", "node": "int64", "sender": "int64", **_INTERVAL, "packet": "category"},
    "tuned": {"rank": "int64", "node": "int64", **_INTERVAL},
}
_STAMP = {
    "frame": "int64",
    "rank": "int64",
    "slot": "int64",
    "node": "int64",
    "stream": "int64",
    "number": "int64",
    "host_ticks": "int64",
}


@dataclass(frozen=True)
class Origin:
    """Where a result comes from, so that it can be made again.

    Attributes
    ----------
    text : str
        The SHA-256 of the scenario's text, which a run depends on alone.
    program : str
        The SHA-256 of the program's file; empty where it was not run here.
    seed : int or None
        By which the losses were drawn, as the run was or before it; None: by none, or not known.
    """

    text: str
    program: str
    seed: int | None


@dataclass(frozen=True, repr=False, eq=False)
class Report:
    """The report of a run.

    Two reports are equal only if they are one; `pandas.DataFrame.equals` compares their tables.

    Attributes
    ----------
    scenario : Scenario
        What was run.
    deliveries : pandas.DataFrame
        A row for each node that delivered a packet: `frame` and `slot` of its round, `rank` of the round's host, the `node`, and the packet by its
        `source`, `boot` of the source, `stream`, `number` and `payload` (hexadecimal, `-` for none). `planned_seconds` is when the slot starts by
        plan: its frame, one second, and the slots before it; clocks that drift make it up to 0.42 s earlier or later in the longest runs. By
        frame, rank, slot and node.
    drops : pandas.DataFrame
        A row for each put that was lost before it was queued: `frame`, `node`, `stream`, in the order of the puts.
    energy : pandas.DataFrame
        A row for each node: `transmit_ticks`, `window_ticks` (planned for the windows of its rounds), `on_ticks` (its radio was on), each also in
        `_seconds`, `scanned_frames` (at whose start it searched for a host), and `duty_cycle`, `on_ticks` as a part (0 to 1) of the run. Of
        `bus` it has neither `on_ticks` nor `duty_cycle`, which depend on clocks.
    origin : Origin
        The hash of the text, the checksum of the program, and the seed.
    """

    scenario: Scenario
    deliveries: pd.DataFrame
    drops: pd.DataFrame
    energy: pd.DataFrame
    origin: Origin = field(default=Origin("", "", None), kw_only=True)

    def __repr__(self) -> str:
        scenario = self.scenario
        seed = "" if self.origin.seed is None else f", seed {self.origin.seed}"
        counts = f"{len(scenario.nodes)} nodes, {scenario.seconds} s{seed}, {len(self.deliveries):,} deliveries"
        return f"<{type(self).__name__}: {counts}, text {self.origin.text[:12] or 'unknown'}>"

    def _repr_html_(self) -> str:
        return display.shown("report", self)


@dataclass(frozen=True, repr=False, eq=False)
class Log(Report):
    """The report and the log of a run; it has what a `Report` has too.

    Attributes
    ----------
    deliveries : pandas.DataFrame
        As a report has them, and `delivered_seconds`, when the node had received the packet: the end of its first reception, in true time. It
        hands the packet on when the window of the slot closes, at most 56 ms later.
    transmissions : pandas.DataFrame
        A row for each transmission: `start_ticks`, `end_ticks`, `start_seconds`, `end_seconds`, `rank` of the channel, `node`, `packet`
        (hexadecimal digits), and of the packet its `kind` (one of `packets.KINDS`), `slot`, and `step`, its relay counter, which is 0 at the
        initiator.
    receptions : pandas.DataFrame
        The same for each reception: `node` received what `sender` transmitted.
    tunings : pandas.DataFrame
        A row for each time in which a radio was on: `rank`, `node`, start and end.
    packets : pandas.DataFrame
        Each packet that was transmitted, decoded (`packets.table`).
    """

    transmissions: pd.DataFrame
    receptions: pd.DataFrame
    tunings: pd.DataFrame
    packets: pd.DataFrame

    @cached_property
    def initiations(self) -> pd.DataFrame:
        """The transmissions that begin a flood (step 0), with `frame` and the other fields of their packets."""
        begun = self.transmissions[self.transmissions["step"] == 0].reset_index(drop=True)
        begun["frame"] = (begun["start_ticks"] // lines.frame_ticks(self.scenario.profile)).astype("int64")
        return begun.join(self.packets.drop(columns=["kind", "slot", "step"]), on="packet").reset_index(drop=True)


@dataclass(frozen=True, eq=False)
class FloodReport:
    """One flood.

    Attributes
    ----------
    accepts : pandas.DataFrame
        A row for each `node` that accepted the packet, with its `step` (0 to 11).
    transmissions : int
        How many transmissions it took.
    """

    accepts: pd.DataFrame
    transmissions: int


@dataclass(frozen=True, eq=False)
class DeadlineReport:
    """Which streams could keep their deadlines if each frame had a round.

    No host of a run holds these rounds; `planning.verdicts` and the command `verify` judge a run.

    Attributes
    ----------
    admitted : pandas.DataFrame
        A row for each stream that is admitted: `node`, `stream`.
    rejected : pandas.DataFrame
        The others, with why: from `from_frame` on and by `until_frame` they would have `demand` jobs, more than slots.
    rounds : pandas.DataFrame
        A row for each slot that is given: `frame`, `node`, `stream`.
    """

    admitted: pd.DataFrame
    rejected: pd.DataFrame
    rounds: pd.DataFrame


@dataclass(frozen=True, repr=False, eq=False)
class ReturnReport(Report):
    """The report of a run in which backup hosts go back, and when they do (docs/RETURN.md).

    Its `scenario` is the one that was asked for, without the lines of the returns.

    Attributes
    ----------
    returns : pandas.DataFrame
        A row for each return: in `frame` the backup host `node` received a schedule of `rank`, the lower rank that it probed. It restarts at the
        start of the next frame, `restart_seconds` from the start of the run.
    probes : pandas.DataFrame
        A row for each `node` that probed, with the number of `frames` in which it did. No energy has this.
    """

    returns: pd.DataFrame
    probes: pd.DataFrame


def commands(*, program: Path | None = None) -> frozenset[str]:
    """The commands that the program has, by its usage line.

    Parameters
    ----------
    program : path, optional
        The program; that of `program.find` without it.

    Returns
    -------
    frozenset of str
        Their words.

    Raises
    ------
    program.ProgramError
        As `program.execute` does.
    """
    try:
        programs.execute(["usage"], program=program)
    except programs.BadUsage as error:
        return programs.commands_of(error)
    return frozenset()


def run(scenario: Given, seed: int | None = None, *, program: Path | None = None, timeout: float | None = None) -> Report:
    """The report of a run.

    With a seed the losses are drawn from the reception ratios as it runs (docs/RATIOS.md), by `run SEED` of the planner's program, and nodes
    times frames and script lines may be up to 262,144.

    Parameters
    ----------
    scenario : Scenario, str, bytes or path
        What is run: a scenario, its text, or the file that has it (a `pathlib.Path`).
    seed : int, optional
        The seed of the losses, 0 to 9,999,999,999,999; without it nothing is lost by the reception ratios.
    program : path, optional
        The program; without it that of `program.find`, or with a seed that of `program.find_planner`.
    timeout : float, optional
        After how many seconds of real time it is ended.

    Returns
    -------
    Report
        Its deliveries, drops and energy.

    Raises
    ------
    ArgumentError
        Where the seed is none.
    program.NotFound
        Where a seed is given, and the program has no command `run SEED`.
    program.ProgramError
        As `program.execute` does.
    """
    asked, words = _words("run", seed, program)
    text = _text(scenario, long=seed is not None, ratios=seed is not None)
    output = programs.execute(words, text, program=asked, timeout=timeout)
    whole = _scenario(scenario)
    return Report(whole, *_report(columns.read(BytesIO(output), _REPORT_LINES), whole), origin=_origin(text, whole, asked, seed))


def _words(command: str, seed: int | None, program: Path | None) -> tuple[Path | None, list[str]]:
    """What runs a scenario: the first program, or by a seed the planner's, and its words."""
    if seed is None:
        return program, [command]
    return programs.by_seed(command, arguments.whole("seed", seed, 0, lines.SEED_MOST), program)


def bus(scenario: Given, *, program: Path | None = None, timeout: float | None = None) -> Report:
    """The report by the rules of the ideal single-hop bus.

    It has the same deliveries and drops as `run`, sooner, without clocks. Runs that are too long for `run`, up to 262,144 nodes times
    frames and 262,144 script lines, are run by `outcome`, as those of a network without ratios.

    Parameters
    ----------
    scenario : Scenario, str, bytes or path
        What is run: a scenario, its text, or the file that has it (a `pathlib.Path`).
    program : path, optional
        The program; that of `program.find` without it.
    timeout : float, optional
        After how many seconds of real time it is ended.

    Returns
    -------
    Report
        Its deliveries, drops and costs.

    Raises
    ------
    program.ProgramError
        As `program.execute` does.
    """
    text = _text(scenario, long=True)
    try:
        output = programs.execute(["bus"], text, program=program, timeout=timeout)
    except programs.Refused as error:
        if error.kind not in ("TooBig", "TooMany") or program is not None:
            raise
        program = programs.find_planner()
        output = programs.execute(["outcome", "0"], text, program=program, timeout=timeout)
    return _bus_report(output, text, _scenario(scenario), program)


def outcome(
    scenario: Given, seed: int = 1, *, program: Path | None = None, timeout: float | None = None, warn: bool = True
) -> Report:
    """The report of `bus` with the losses of a seed, drawn as the bus runs.

    The losses are drawn from the reception ratios (docs/RATIOS.md). It has the same deliveries and drops as `losses.draw` and `run` have,
    without clocks and without lines of losses. Nodes times frames may be up to 262,144, which is 64 nodes over 4,096 frames, and
    there may be 262,144 script lines. A scenario without ratios, or whose losses are drawn, is run as it is.

    Parameters
    ----------
    scenario : Scenario, str, bytes or path
        What is run: a scenario, its text, or the file that has it (a `pathlib.Path`).
    seed : int
        The seed of the losses, 0 to 9,999,999,999,999.
    program : path, optional
        The program; that of `program.find_planner` without it.
    timeout : float, optional
        After how many seconds of real time it is ended.
    warn : bool
        Whether it gives `ScenarioWarning`s of what `Scenario.cautions` names.

    Returns
    -------
    Report
        Its deliveries, drops and costs.

    Raises
    ------
    ArgumentError
        Where the seed is none.
    program.ProgramError
        As `program.execute` does.
    """
    seed = arguments.whole("seed", seed, 0, lines.SEED_MOST)
    text = _text(scenario, warn, long=True, ratios=True)
    planner = programs.find_planner() if program is None else program
    output = programs.execute(["outcome", str(seed)], text, program=planner, timeout=timeout)
    whole = _scenario(scenario)
    return _bus_report(output, text, whole, planner, seed)


def fates(scenario: Given, seed: int = 1, *, program: Path | None = None, timeout: float | None = None) -> pd.DataFrame:
    """What became of each packet that is put in the run of `outcome` (docs/RATIOS.md).

    Parameters
    ----------
    scenario : Scenario, str, bytes or path
        What is run: a scenario, its text, or the file that has it (a `pathlib.Path`).
    seed : int
        The seed of the losses, 0 to 9,999,999,999,999.
    program : path, optional
        The program; that of `program.find_planner` without it.
    timeout : float, optional
        After how many seconds of real time it is ended.

    Returns
    -------
    pandas.DataFrame
        A row for each `put` line, in their order.

        frame, source, stream
            the frame, the node and the stream of the line
        boot, number
            which boot of the node it was, and the packet's number in the stream since then; -1 if it was dropped
        became
            "dropped" (it never was in a queue), "sent" (its node transmitted it), "waiting" (it was in its queue at the end), or
            "cleared" (its queue was emptied before it was sent)
        sent_frame, rank, sent_slot
            when its node transmitted it first: the frame, the rank of its round, and the data slot in that; -1 if it
        deliveries
            how many nodes delivered it
        host_delivered
            whether the node that hosts this rank delivered it; never where that is its own source
        cleared_frame
            in which frame its queue was emptied; -1 if it was not

    Raises
    ------
    ArgumentError
        Where the seed is none.
    columns.UnknownLine
        Where the program writes other lines.
    program.ProgramError
        As `program.execute` does.
    """
    seed = arguments.whole("seed", seed, 0, lines.SEED_MOST)
    return _fates(_text(scenario, long=True, ratios=True), seed, program, timeout)


def fates_of(report: Report) -> pd.DataFrame:
    """The `fates` of the run of a report: of its scenario as it was run, or of its ratios and the seed by which they were drawn."""
    drawn_as_it_ran = report.scenario.is_to_be_drawn and report.origin.seed is not None
    text = report.scenario.network_text(warn=False) if drawn_as_it_ran else report.scenario.text(warn=False)
    return _fates(text.encode(), report.origin.seed or 0, None, None)


def _fates(text: bytes, seed: int, program: Path | None, timeout: float | None) -> pd.DataFrame:
    output = programs.execute(["fates", str(seed)], text, program=program, timeout=timeout)
    return pd.DataFrame(fate_rows(output), columns=list(FATE_TYPES)).astype(FATE_TYPES)


def fate_rows(output: bytes) -> list[tuple[Any, ...]]:
    """The lines of `fates`, each as a row with the columns of `FATE_TYPES`.

    Raises `columns.UnknownLine` where a line is none of `fates`.
    """
    return [_fate(line) for line in output.decode().splitlines()]


def _fate(line: str) -> tuple[Any, ...]:
    """The row of a line of `fates`."""
    try:
        word, *place = line.split(" ")
        if word == "put" and place[3:] == ["dropped"]:
            frame, node, stream = map(int, place[:3])
            return frame, node, stream, -1, -1, "dropped", -1, -1, -1, 0, 0, -1
        became, more = place[5], [int(number) for number in place[6:]]
        sent = more if became == "sent" else [-1, -1, -1, 0, 0]
        cleared = more if became == "cleared" else [-1]
        if word == "put" and became in FATES[1:] and len(more) == {"sent": 5, "waiting": 0, "cleared": 1}[became]:
            return *map(int, place[:5]), became, *sent, *cleared
    except (ValueError, IndexError):
        pass
    raise columns.UnknownLine(f"unknown line {line!r} of `fates`")


def _bus_report(output: bytes, text: bytes, whole: Scenario, program: Path | None, seed: int | None = None) -> Report:
    """The report of lines of `bus`."""
    read = columns.read(BytesIO(output), {"deliver": _DELIVER, "drop": _DROP, "cost": _COST})
    return Report(whole, *_report({**read, "energy": read["cost"]}, whole), origin=_origin(text, whole, program, seed))


def log(
    scenario: Given, seed: int | None = None, *, program: Path | None = None, timeout: float | None = None, warn: bool = True
) -> Log:
    """The report and the log of a run.

    With a seed the losses are drawn from the reception ratios as it runs (docs/RATIOS.md), by one call of `log SEED` of the planner's program,
    and nodes times frames may be up to 262,144. The output goes through a temporary file, so that it is never in memory as a whole.

    Parameters
    ----------
    scenario : Scenario, str, bytes or path
        What is run: a scenario, its text, or the file that has it (a `pathlib.Path`).
    seed : int, optional
        The seed of the losses, 0 to 9,999,999,999,999; without it nothing is lost by the reception ratios. The log keeps it in `log.origin`, and
        its scenario keeps the ratios.
    program : path, optional
        The program; without it that of `program.find`, or with a seed that of `program.find_planner`.
    timeout : float, optional
        After how many seconds of real time it is ended.
    warn : bool
        Whether it gives `ScenarioWarning`s of what `Scenario.cautions` names, and without a seed of reception ratios by which no losses were
        drawn.

    Returns
    -------
    Log
        The report and the log.

    Raises
    ------
    ArgumentError
        Where the seed is none.
    program.NotFound
        Where a seed is given, and the program has no command `log SEED`.
    program.ProgramError
        As `program.execute` does.
    """
    asked, words = _words("log", seed, program)
    text = _text(scenario, warn, long=seed is not None, ratios=seed is not None)
    with tempfile.TemporaryDirectory(prefix="foldcairn-") as folder:
        path = programs.execute_to_file(words, text, Path(folder) / "log", program=asked, timeout=timeout)
        with path.open("rb") as source:
            read = read_log(source, scenario)
    return replace(read, origin=_origin(text, read.scenario, asked, seed))


def read_log(source: BinaryIO, scenario: Given) -> Log:
    """The output of `log` for a scenario, which was kept in a file.

    Parameters
    ----------
    source : binary file
        The output.
    scenario : Scenario, str, bytes or path
        The scenario that was run.

    Returns
    -------
    Log
        The report and the log.

    Raises
    ------
    program.CutOutput
        Where its last line has no end.
    columns.UnknownLine
        Where a line is none of a log.
    """
    whole = _scenario(scenario)
    read = columns.read(source, {**_REPORT_LINES, **_LOG_LINES})
    decoded = packets.table(read["sent"]["packet"].cat.categories)
    for word in ("sent", "heard", "tuned"):
        read[word]["start_seconds"] = read[word]["start_ticks"] / TICKS_A_SECOND
        read[word]["end_seconds"] = read[word]["end_ticks"] / TICKS_A_SECOND
    for word in ("sent", "heard"):
        codes = decoded.index.get_indexer(read[word]["packet"].cat.categories)[read[word]["packet"].cat.codes]
        for name in ("kind", "slot", "step"):
            read[word][name] = decoded[name].array.take(codes)
    deliveries, drops, energy = _report(read, whole)
    deliveries["delivered_seconds"] = _delivered_seconds(deliveries, read["heard"], decoded)
    origin = Origin(_hash(_text(scenario, False)), "", whole.seed)
    return Log(whole, deliveries, drops, energy, read["sent"], read["heard"], read["tuned"], decoded, origin=origin)


def flood(text: str, *, program: Path | None = None) -> FloodReport:
    """One flood of a flood text (docs/SCENARIO.md).

    Parameters
    ----------
    text : str
        The text.
    program : path, optional
        The program; that of `program.find` without it.

    Returns
    -------
    FloodReport
        Which nodes accepted the packet.

    Raises
    ------
    program.ProgramError
        As `program.execute` does.
    """
    output = programs.execute(["flood"], text, program=program)
    read = columns.read(BytesIO(output), {"accept": {"node": "int64", "step": "int64"}, "sent": {"count": "int64"}})
    return FloodReport(read["accept"], int(read["sent"]["count"].iloc[0]))


def deadlines(text: str, *, program: Path | None = None) -> DeadlineReport:
    """Which streams of a text with deadlines could keep them if each frame had a round.

    No host of a run holds that (docs/DEADLINES.md); a run is judged by `planning.verdicts` and the command `verify`. It admits streams
    that miss their deadlines in each run. Of one run ask `planning.deadline`, of many seeds `planning.sample` with a `deadline`.

    Parameters
    ----------
    text : str
        The text.
    program : path, optional
        The program; that of `program.find` without it.

    Returns
    -------
    DeadlineReport
        Which streams are admitted.

    Raises
    ------
    program.ProgramError
        As `program.execute` does.
    """
    rows = [line.split() for line in programs.execute(["deadlines"], text, program=program).decode().splitlines()]
    owners = [(int(row[1]), *divmod(int(code), 4)) for row in rows if row[0] == "round" for code in row[2:]]
    return DeadlineReport(
        _numbers([row[1:] for row in rows if row[0] == "admit"], node="int64", stream="int64"),
        _numbers(
            [row[1:] for row in rows if row[0] == "refuse"],
            node="int64", stream="int64", from_frame="int64", until_frame="int64", demand="int64",
        ),
        _numbers(owners, frame="int64", node="int64", stream="int64"),
    )  # fmt: skip


def check(scenario: Given, log_text: str, *, program: Path | None = None) -> Verdict:
    """Whether a recorded log is a valid one of a scenario (docs/CHECK.md).

    Parameters
    ----------
    scenario : Scenario, str, bytes or path
        What is run: a scenario, its text, or the file that has it (a `pathlib.Path`).
    log_text : str
        The log, in the lines that `log` writes.
    program : path, optional
        The program; that of `program.find` without it.

    Returns
    -------
    Verdict
        What the program says of it.

    Raises
    ------
    columns.UnknownLine
        Where the program writes no verdict that this package knows.
    program.ProgramError
        As `program.execute` does.
    """
    head = _text(scenario).removesuffix(b"\n")
    answer = programs.execute(["check"], head + b"\nlog\n" + log_text.encode(), program=program)
    return verdict(answer.decode().strip(), log_text)


def times(scenario: Given, *, program: Path | None = None) -> pd.DataFrame:
    """When each data packet was initiated, in the time of the host that planned the round, by what its node received.

    Parameters
    ----------
    scenario : Scenario, str, bytes or path
        What is run: a scenario, its text, or the file that has it (a `pathlib.Path`).
    program : path, optional
        The program; that of `program.find` without it.

    Returns
    -------
    pandas.DataFrame
        A row for each with `frame`, `rank`, `slot`, `node`, `stream`, `number`, `host_ticks` and `host_seconds`, by frame, rank and slot
        (docs/TIMES.md).

    Raises
    ------
    program.ProgramError
        As `program.execute` does.
    """
    output = programs.execute(["times"], _text(scenario), program=program)
    stamps = columns.read(BytesIO(output), {"stamp": _STAMP})["stamp"]
    return stamps.assign(host_seconds=stamps["host_ticks"] / TICKS_A_SECOND)


def returns(scenario: Given, *, program: Path | None = None) -> ReturnReport:
    """A run in which backup hosts go back once a host of a lower rank is there again.

    Parameters
    ----------
    scenario : Scenario, str, bytes or path
        What is run: a scenario, its text, or the file that has it (a `pathlib.Path`).
    program : path, optional
        The program; that of `program.find` without it.

    Returns
    -------
    ReturnReport
        Its report, and when they go back.

    Raises
    ------
    program.ProgramError
        As `program.execute` does.
    """
    text = _text(scenario)
    output = programs.execute(["return"], text, program=program)
    extra = {"return": {"frame": "int64", "node": "int64", "rank": "int64"}, "probe": {"node": "int64", "frames": "int64"}}
    read = columns.read(BytesIO(output), {**_REPORT_LINES, **extra})
    whole = _scenario(scenario)
    deliveries, drops, energy = _report(read, whole)
    returns = read["return"].assign(restart_seconds=(read["return"]["frame"] + 1.0) * whole.frame_seconds)
    return ReturnReport(whole, deliveries, drops, energy, returns, read["probe"], origin=_origin(text, whole, program))


def _hash(text: bytes) -> str:
    return hashlib.sha256(text).hexdigest()


def _origin(text: bytes, scenario: Scenario, program: Path | None, seed: int | None = None) -> Origin:
    """Where a result comes from; a seed by which nothing was drawn, as nothing is left to draw, is none."""
    return Origin(_hash(text), programs.checksum(program), seed if scenario.is_to_be_drawn else scenario.seed)


def _text(scenario: Given, warn: bool = True, *, long: bool = False, ratios: bool = False) -> bytes:
    """The text that is run; `long` is for commands that keep no log, and `ratios` for one that reads ratios."""
    if not isinstance(scenario, Scenario):
        return arguments.text("scenario", scenario)
    for caution in cautions.of(scenario, long=long) if warn else ():
        # The line that is named calls `run`, `log` and so on.
        warnings.warn(caution, ScenarioWarning, stacklevel=3)
    if warn and not ratios and scenario.is_to_be_drawn:
        told = f"this run loses nothing by the {len(scenario.ratio_lines()):,} reception ratios of the network; `foldcairn.run` draws their losses by a seed"
        warnings.warn(told, ScenarioWarning, stacklevel=3)
    return (scenario.network_text(warn=False) if ratios else scenario.text(warn=False)).encode()


def _scenario(scenario: Given) -> Scenario:
    return scenario.copy() if isinstance(scenario, Scenario) else Scenario.read(scenario)


def _numbers(rows: Sequence[Sequence[object]], **types: str) -> pd.DataFrame:
    return pd.DataFrame(rows, columns=list(types)).astype(types)


def _report(read: dict[str, pd.DataFrame], scenario: Scenario) -> tuple[pd.DataFrame, pd.DataFrame, pd.DataFrame]:
    deliveries, energy = read["deliver"], read["energy"]
    deliveries["planned_seconds"] = slot_seconds(scenario.profile, deliveries["frame"], deliveries["slot"])
    for name in ("transmit", "window", "on"):
        if f"{name}_ticks" in energy:
            energy[f"{name}_seconds"] = energy[f"{name}_ticks"] / TICKS_A_SECOND
    if "on_ticks" in energy:
        energy["duty_cycle"] = energy["on_seconds"] / scenario.seconds
    return deliveries, read["drop"], energy


def on_air(source: BinaryIO, profile: int) -> tuple[pd.DataFrame, pd.DataFrame]:
    """The transmissions and the times of radios in the output of `log`.

    It is for whoever reads many logs: packets are not decoded, and there are no times in seconds.

    Parameters
    ----------
    source : binary file
        The output.
    profile : int
        The profile of the scenario, 1 or 2.

    Returns
    -------
    tuple of two pandas.DataFrame
        `transmissions` as `Log` has them, with `frame`, `slot` and `step`, and `tunings`.

    Raises
    ------
    program.CutOutput
        Where its last line has no end.
    columns.UnknownLine
        Where a line is none of a log.
    """
    read = columns.read(source, {"sent": _LOG_LINES["sent"], "tuned": _LOG_LINES["tuned"]}, (*_REPORT_LINES, "heard"))
    sent = read["sent"]
    codes = sent["packet"].cat.codes.to_numpy()
    slot, step = (places[codes] for places in packets.places(sent["packet"].cat.categories))
    frame = sent["start_ticks"] // lines.frame_ticks(profile)
    return sent.assign(frame=frame, slot=slot, step=step), read["tuned"]


def _delivered_seconds(deliveries: pd.DataFrame, receptions: pd.DataFrame, decoded: pd.DataFrame) -> pd.Series:
    """When each delivered packet was received first by its node, in seconds."""
    data = (receptions["kind"] == "data").to_numpy()
    packet = receptions["packet"].cat
    # One number for each category, not for each reception: there are far fewer, and a long log has little memory to spare.
    fields = decoded.iloc[decoded.index.get_indexer(packet.categories)].rename(columns={"origin": "source"})
    got = codes(fields)[packet.codes.to_numpy()[data]]
    got += receptions["node"].to_numpy()[data] << _NODE_BITS
    first = pd.Series(receptions["end_seconds"].to_numpy()[data], got).groupby(level=0, sort=False).min()
    asked = codes(deliveries)
    asked += deliveries["node"].to_numpy() << _NODE_BITS
    return pd.Series(first.reindex(asked).to_numpy(), deliveries.index)


# A source and its boot have 8 bits each, a stream 2 and a number 16; the node that received it comes before them.
_NODE_BITS = 34


def codes(packets: pd.DataFrame | Mapping[str, Numbers]) -> Numbers:
    """One number for each packet of a table with `source`, `boot`, `stream` and `number`, which all fit their parts."""
    source, boot, stream, number = (np.asarray(packets[name], dtype=np.int64) for name in PACKET)
    found: Numbers = ((source * 256 + boot) * 4 + stream) * 65_536 + number
    return found


def slot_seconds(profile: int, frame: pd.Series, slot: pd.Series) -> pd.Series:
    """When slots start by plan.

    Parameters
    ----------
    profile : int
        The profile of the scenario, 1 or 2.
    frame : pandas.Series
        The frames of their rounds.
    slot : pandas.Series
        Their numbers in their rounds.

    Returns
    -------
    pandas.Series
        Seconds from the start of the run.
    """
    return frame * float(lines.frame_seconds(profile)) + ROUND_SECONDS + slot * (lines.slot_ticks(profile) / TICKS_A_SECOND)


def plain_rows(table: pd.DataFrame, *names: str) -> list[tuple[Any, ...]]:
    """The rows of a table with these columns, as plain values. Most tables have few rows, and pandas takes a millisecond for each join."""
    return list(zip(*(table[name].tolist() for name in names)))
