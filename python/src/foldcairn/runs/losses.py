"""Losses of links: drawn from reception ratios, or read from a recorded table.

`draw` throws a coin for each frame, slot, step and link by a written hash of the seed, so a coin depends on nothing else: not
on the run, on other links, or on the order of anything. To write all losses would take millions of lines. So the command `draw` of
the planner's program writes those alone that change who receives. What is delivered is then the same as with all losses written.
Nothing is simulated here. Tested, not proved.
"""

from __future__ import annotations

import os
from collections.abc import Iterable, Iterator, Mapping
from dataclasses import dataclass, replace
from pathlib import Path
from typing import Any, TextIO, TypeVar, cast

import numpy
from numpy.typing import NDArray

from ..common import arguments, progress as bars
from ..common.arguments import ArgumentError
from ..model import lines, networks, tables
from ..model.events import Capture, Cut, Loss, ScriptLine
from ..model.scenario import Link, Scenario, ScenarioError
from . import kept, program as programs, results as runs

AnyScenario = TypeVar("AnyScenario", bound=Scenario)
AnyEvent = TypeVar("AnyEvent", ScriptLine, Loss, Cut, Capture)
Array = NDArray[Any]

_GOLDEN = 0x9E3779B97F4A7C15
_MASK = (1 << 64) - 1


class TooManyLosses(Exception):
    """The losses that change who receives don't fit the 20,000 script lines of a text.

    Attributes
    ----------
    frame : int
        The first frame whose losses don't fit; so a run of this many frames can be drawn.
    fitting : int
        How many lines fit.
    """

    def __init__(self, frame: int, fitting: int) -> None:
        super().__init__(frame, fitting)
        self.frame = frame
        self.fitting = fitting

    def __str__(self) -> str:
        return (
            f"a scenario has at most {lines.SCRIPT_LINES_MOST:,} script lines, {self.fitting:,} of them are free for losses, and they "
            f"are used up in frame {self.frame}: shorten the run to {self.frame} frames, or take links out that hardly receive"
        )


# Coins.


def splitmix64(state: Array) -> Array:
    """The output of the generator SplitMix64 (Steele, Lea and Flood, 2014) that is in each of these states (uint64)."""
    with numpy.errstate(over="ignore"):
        mixed = state + numpy.uint64(_GOLDEN)
        mixed = (mixed ^ (mixed >> numpy.uint64(30))) * numpy.uint64(0xBF58476D1CE4E5B9)
        mixed = (mixed ^ (mixed >> numpy.uint64(27))) * numpy.uint64(0x94D049BB133111EB)
        return mixed ^ (mixed >> numpy.uint64(31))


def pack(frame: Array, slot: Array, step: Array, sender: Array, receiver: Array) -> Array:
    """One number for each (frame, slot, step, sender, receiver), in the order of these five (int64)."""
    key: Array = ((frame.astype(numpy.int64) * 64 + slot) * 16 + step) * 256 + sender
    return key * 256 + receiver


def unpack(keys: Array) -> tuple[Array, Array, Array, Array, Array]:
    """Frame, slot, step, sender and receiver of each number of `pack`."""
    return keys >> 26, (keys >> 20) & 63, (keys >> 16) & 15, (keys >> 8) & 255, keys & 255


def frame_of(key: int) -> int:
    """The frame of a number of `pack`."""
    return int(key) >> 26


def coin(seed: int, keys: Array) -> Array:
    """The coins of links in steps of slots, which say what passes.

    Let S be the output of SplitMix64 in the state `seed` modulo 2^64. The coin of a key is the output of SplitMix64 in the
    state S + key * 0x9E3779B97F4A7C15 modulo 2^64, its upper 53 bits divided by 2^53. The link passes where the coin is
    below its reception ratio, which counts in millionths, rounded.

    Parameters
    ----------
    seed : int
        The seed; it counts modulo 2^64.
    keys : numpy.ndarray
        The numbers that `pack` gives to (frame, slot, step, sender, receiver), of int64.

    Returns
    -------
    numpy.ndarray
        For each key a number from 0 up to but not including 1.
    """
    first = splitmix64(numpy.array([seed & _MASK], numpy.uint64))[0]
    with numpy.errstate(over="ignore"):
        states = first + keys.astype(numpy.uint64) * numpy.uint64(_GOLDEN)
    return (splitmix64(states) >> numpy.uint64(11)).astype(numpy.float64) / (1 << 53)


def keys_of(losses: Iterable[Loss]) -> Array:
    """The number of `pack` for each loss."""
    rows = numpy.array([(x.frame, x.slot, x.step, x.sender, x.receiver) for x in losses], numpy.int64).reshape(-1, 5)
    return pack(*rows.T)


# Drawing.


def draw(
    scenario: AnyScenario,
    seed: int,
    *,
    program: Path | None = None,
    results: str | os.PathLike[str] | None = None,
    progress: bool | TextIO = False,
) -> AnyScenario:
    """The scenario with the losses that its reception ratios (`prr`, `ratios`) have by the coins of a seed.

    The command `draw` of the planner's program draws. Only losses that change who receives are written; what the scenario loses by itself
    stays, and what was drawn before, as of the scenario of a log, is drawn anew. The same scenario and seed give the same losses, and links that
    are taken out change no coin of the others. The deliveries, the drops and what radios are charged are those of all losses written. Starts of
    transmissions may differ by a few ticks, since of equal packets the earliest is received that is not lost.

    Parameters
    ----------
    scenario : Scenario
        The network; it is not changed.
    seed : int
        The seed of the losses, 0 to 9,999,999,999,999.
    program : path, optional
        The program; that of `program.find_planner` without it.
    results : path, optional
        A folder that keeps what is drawn, as that of `sweep.sweep`.
    progress : bool or file
        Whether, or where, it says when it is drawn, as in `sweep.sweep`.

    Returns
    -------
    Scenario
        A copy with the losses in `losses` and `drawn`, and the seed in `seed`.

    Raises
    ------
    TooManyLosses
        Where 20,000 script lines don't suffice; it has the frame.
    ArgumentError
        Where the seed is none.
    program.NotFound
        Where the program has no command `draw`.
    program.ProgramError
        As `program.execute` does.
    """
    seed = arguments.whole("seed", seed, 0, lines.SEED_MOST)
    # Of a plan this is no more the network of its means.
    scenario = cast(AnyScenario, networks.network("scenario", scenario).of_seed(seed))
    scenario.check_ratios()
    store = kept.Store(results)
    by = programs.versions() if program is None else programs.checksum(program)
    key = kept.digest("losses", scenario.network_text(warn=False), seed, by) if results else ""
    found = store.take(key)
    if found is None or not found["whole"]:
        with bars.bar(scenario.frames, "frames", progress) as bar:
            found = {"losses": _by_program(scenario, seed, program).tolist(), "whole": True}
            bar.update(scenario.frames)
        store.keep(key, found)
    drawn = numpy.array(found["losses"], numpy.int64)
    made = scenario.copy()
    made.drawn = set(losses_of(drawn))
    made.losses.extend(losses_of(drawn))
    made.seed = seed
    return made


def _by_program(scenario: Scenario, seed: int, program: Path | None) -> Array:
    """The losses that the planner's program draws, as ordered keys."""
    try:
        return _drawn_by(scenario, seed, program)
    except programs.Refused as error:
        if error.kind != "TooMany":
            raise
        raise _too_many(scenario, seed, program, error) from error


def _drawn_by(scenario: Scenario, seed: int, program: Path | None) -> Array:
    planner = programs.find_planner() if program is None else program
    try:
        output = programs.execute(["draw", str(seed)], scenario.network_text(warn=False), program=planner)
    except programs.BadUsage as error:
        raise programs.NotFound(
            f"{planner} has no command `draw`, by which losses are drawn: set the environment variable FOLDCAIRN_PLAN to the path of the "
            "program foldcairn-plan"
        ) from error
    known = set(scenario.losses)
    written = (Loss(*map(int, row.split()[1:])) for row in output.splitlines() if row.startswith(b"lose "))
    return numpy.sort(keys_of(loss for loss in written if loss not in known))


def _too_many(scenario: Scenario, seed: int, program: Path | None, told: programs.Refused) -> TooManyLosses | programs.Refused:
    """In which frame the lines are used up, by runs of fewer frames; what the program told where a run of one frame has too many too."""
    fitting, failing, drawn = 0, scenario.frames, numpy.empty(0, numpy.int64)
    while failing - fitting > 1:
        frames = (fitting + failing) // 2
        try:
            drawn, fitting = _drawn_by(beginning(scenario, frames), seed, program), frames
        except programs.Refused as error:
            if error.kind != "TooMany":
                raise
            failing = frames
    used_up = len(scenario.rates) + len(scenario.script) + len(scenario.losses) + len(scenario.cuts) + len(scenario.captures)
    free = max(0, lines.SCRIPT_LINES_MOST - used_up)
    if not fitting:
        return told
    # Of a shorter run the script has fewer lines, so more losses fit.
    return TooManyLosses(frame_of(drawn[free]) if len(drawn) > free else fitting, free)


@dataclass(frozen=True)
class Drawing:
    """A scenario whose losses are still to be drawn by a seed.

    Its text, its ratios and the seed say what comes of it, so a sweep can tell whether it has the result before it draws. Losses that were drawn
    before are left out.

    Parameters
    ----------
    scenario : Scenario
        The network.
    seed : int
        The seed of the losses, 0 to 9,999,999,999,999.
    """

    scenario: Scenario
    seed: int

    def __post_init__(self) -> None:
        object.__setattr__(self, "scenario", networks.network("scenario", self.scenario).of_seed(self.seed))

    def drawn(self, *, program: Path | None = None) -> Scenario:
        """The scenario with its losses.

        Parameters
        ----------
        program : path, optional
            The program; that of `program.find_planner` without it.

        Returns
        -------
        Scenario
            As `draw` gives it.

        Raises
        ------
        TooManyLosses
            As `draw` raises it, which raises others too.
        """
        return draw(self.scenario, self.seed, program=program)

    def result(self) -> Any:
        """What is measured of it by a sweep.

        Returns
        -------
        Scenario
            The scenario with its losses.

        Raises
        ------
        TooManyLosses
            As `draw` raises it, which raises others too.
        """
        return self.drawn()


@dataclass(frozen=True)
class Outcome(Drawing):
    """A drawing of which the report of the bus alone is asked.

    The planner's program draws as the bus runs, so there are no lines of losses, and runs may be as long as those of `results.outcome`.

    Parameters
    ----------
    scenario : Scenario
        The network.
    seed : int
        The seed of the losses, 0 to 9,999,999,999,999.
    """

    def result(self) -> runs.Report:
        """What is measured of it by a sweep.

        Returns
        -------
        results.Report
            The report, without a log.

        Raises
        ------
        program.ProgramError
            As `results.outcome` does, which raises others too.
        """
        return runs.outcome(self.scenario, self.seed, warn=False)


def beginning(scenario: AnyScenario, frames: int) -> AnyScenario:
    """The scenario without what comes after that many frames."""

    def before(events: list[AnyEvent]) -> list[AnyEvent]:
        return [event for event in events if event.frame < frames]

    return replace(
        scenario, frames=frames, script=before(scenario.script), losses=before(scenario.losses), cuts=before(scenario.cuts),
        captures=before(scenario.captures), ratios={place: one for place, one in scenario.ratios.items() if place[0] < frames},
    )  # fmt: skip


def losses_of(keys: Array) -> list[Loss]:
    """The loss of each number of `pack`."""
    return [Loss(*values) for values in zip(*(column.tolist() for column in unpack(keys)))]


# Links that are good and bad by turns.


def bursts(
    scenario: AnyScenario,
    seed: int,
    *,
    good_seconds: float,
    bad_seconds: float,
    ratio: float | None = None,
    bad: float | None = None,
    links: Iterable[Link] | None = None,
) -> AnyScenario:
    """The scenario with links that are good and bad by turns, after Gilbert and Elliott.

    Their ratios become lines of `Scenario.ratio`. A link is good at the start as often as later on. Times are drawn link by link, from the seed and
    the two ids, by numpy's generator PCG64: so a link that is taken out changes no other one.

    Parameters
    ----------
    scenario : Scenario
        The network; it is not changed.
    seed : int
        By which the times are drawn; it counts modulo 2^64.
    good_seconds : float
        The mean length of good times, at least a frame; lengths are geometric, in whole frames.
    bad_seconds : float
        The mean length of bad times, in the same way.
    ratio : float, optional
        The mean ratio of each link, 0 to 1; without it that of the link at the start, and links that lose nothing then stay so.
    bad : float, optional
        The ratio in bad times, 0 to 1; without it the lowest that the mean allows, which is 0 where good times alone can make up for it.
    links : iterable of tuple, optional
        The links (u, v), of one direction each, that change; all without it.

    Returns
    -------
    Scenario
        A copy with these ratios over time.

    Raises
    ------
    ArgumentError
        Where a value is out of its range, a link is none of the scenario, or no ratio of good times, at most 1, gives the mean.
    """
    seed = arguments.whole("seed", seed) & _MASK
    # With which chance a time ends with each of its frames.
    leave_good = scenario.frame_seconds / arguments.real("good_seconds", good_seconds, scenario.frame_seconds)
    leave_bad = scenario.frame_seconds / arguments.real("bad_seconds", bad_seconds, scenario.frame_seconds)
    goods = leave_bad / (leave_good + leave_bad)
    means = _means(scenario, ratio, links)
    made = scenario.copy()
    made.ratios = {place: one for place, one in made.ratios.items() if place[1:] not in means}
    for link, mean in means.items():
        low, high = _ratios_of(mean, goods, bad)
        chance = numpy.random.default_rng((seed, *link)).random(scenario.frames)
        for frame, is_good in _turns(chance, goods, leave_good, leave_bad):
            made.ratio(*link, high if is_good else low, frame=frame)
    return made


def _means(scenario: Scenario, ratio: float | None, links: Iterable[Link] | None) -> dict[Link, float]:
    """The mean ratio of each link that changes."""
    chosen = sorted(scenario.links if links is None else set(links))
    if strange := [link for link in chosen if link not in scenario.links]:
        raise ArgumentError(f"`links` has {strange[0]}, and the scenario has no such link")
    if ratio is None:
        return {link: scenario.prr[link] for link in chosen if link in scenario.prr}
    return dict.fromkeys(chosen, arguments.real("ratio", ratio, 0, 1))


def _ratios_of(mean: float, goods: float, bad: float | None) -> tuple[float, float]:
    """The ratios in bad and in good times, where this part of the time is good."""
    low = max(0.0, (mean - goods) / (1 - goods)) if bad is None else arguments.real("bad", bad, 0, 1)
    high = (mean - (1 - goods) * low) / goods
    if not -1e-9 <= high <= 1 + 1e-9:
        raise ArgumentError(
            f"with the ratio {low:g} in bad times, which are {100 * (1 - goods):.0f} % of the time, good ones would need the ratio {high:.3f} "
            f"for a mean of {mean:g}: take another `bad`, or other lengths"
        )
    return low, min(1.0, max(0.0, high))


def _turns(chance: Array, goods: float, leave_good: float, leave_bad: float) -> Iterator[tuple[int, bool]]:
    """Each frame in which a good or a bad time begins, and whether it is a good one, by a number from 0 to 1 a frame."""
    is_good = bool(chance[0] < goods)
    yield 0, is_good
    for frame, drawn in enumerate(chance[1:].tolist(), 1):
        if drawn < (leave_good if is_good else leave_bad):
            is_good = not is_good
            yield frame, is_good


# Recorded losses.


def read_table(scenario: AnyScenario, source: Any) -> AnyScenario:
    """The scenario with the losses of a recorded table.

    A table of lost packets has the columns `seconds` (or `frame`), `slot`, `counter`, `from` and `to`: this packet was lost
    on this link. A table of missed packets has `seconds` (or `frame`), `slot` and `node`: all links to the node are lost in
    that slot, in all steps. What is there twice is taken once.

    Parameters
    ----------
    scenario : Scenario
        The network; it is not changed.
    source : pandas.DataFrame, path or file
        The table, or the CSV file that has it.

    Returns
    -------
    Scenario
        A copy with these losses.

    Raises
    ------
    ScenarioError
        Where a column is missing, a value is out of its range, or a node is not given; it names the row.
    OSError
        Where a file can't be read.
    """
    frame = tables.table(source, "losses", ("slot",))
    columns: tuple[str, ...]
    if {"counter", "from", "to"} <= set(frame.columns):
        columns = ("counter", "from", "to")
    elif "node" in frame.columns:
        columns = ("node",)
    else:
        raise ScenarioError("the table of losses has neither the columns counter, from and to, nor the column node")
    made = scenario.copy()
    known = set(made.losses)

    def add(row: Mapping[str, Any]) -> None:
        when = tables.whole(row, "frame") if "frame" in row else scenario.frame_at(tables.real(row, "seconds"))
        nodes = ("from", "to", "node")
        values = [tables.node_of(scenario, row, column) if column in nodes else tables.whole(row, column) for column in ("slot", *columns)]
        for loss in _recorded(scenario, when, values):
            if loss not in known:
                known.add(loss)
                made.lose(loss.frame, loss.slot, loss.step, loss.sender, loss.receiver)

    tables.each(frame, "losses", ("slot",), add)
    return made


def _recorded(scenario: Scenario, frame: int, values: list[int]) -> list[Loss]:
    """The losses of one row: of one packet (slot, counter, sender, receiver), or of all to a node (slot, node)."""
    slot, *rest = values
    if len(rest) == 3:
        return [Loss(frame, slot, *rest)]
    node = rest[0]
    if node not in scenario.nodes:
        raise ScenarioError(f"node {node} is not given")
    senders = sorted(sender for sender, receiver in scenario.links if receiver == node)
    return [Loss(frame, slot, step, sender, node) for step in range(lines.STEPS) for sender in senders]
