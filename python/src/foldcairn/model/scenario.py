"""Scenarios: built step by step, from a graph, from tables or from a text, and written as the text that the program reads.

A scenario checks each number that it is given, and warns (`ScenarioWarning`) of what the program would accept without a word
though hardly anyone means it. Whether a text is a scenario is said by the program alone. Tested, not proved.
"""

from __future__ import annotations

import math
import warnings
from collections.abc import Callable, Iterable, Iterator, Sequence, Sized
from dataclasses import MISSING, dataclass, field, fields, replace
from operator import attrgetter
from typing import TYPE_CHECKING, Any, Self

from ..common import arguments, display
from ..common.arguments import ArgumentError
from ..common.visible import visible
from . import doubts, lines, moments
from .errors import KEPT, ScenarioError, ScenarioWarning
from .events import Capture, Cut, Leave, Loss, Off, On, Put, Rate, Ratio, ScriptLine, Stream, millionths
from .lines import Context, Field
from .topology import grid, line, random_geometric, star

if TYPE_CHECKING:
    import os

    import networkx

__all__ = [
    "Capture", "Cut", "Leave", "Loss", "Off", "On", "Put", "Rate", "Ratio", "Scenario", "ScenarioError", "ScenarioWarning",
    "ScriptLine", "Stream", "grid", "line", "random_geometric", "star",
]  # fmt: skip

Link = tuple[int, int]
# A node as calls take it: by its id, or by its name where it has one.
Node = int | str


def _shown(value: Any) -> str:
    """A value as a text has it."""
    return (value.hex() or "-") if isinstance(value, bytes) else str(value)


def _line(word: str, values: Sequence[Any]) -> str:
    """A line as a text has it, with values that it may not have."""
    return " ".join([word, *map(_shown, values)])


def _real(name: str, value: Any, low: float | None = None, *, above: float | None = None) -> float:
    """As `arguments.real`, with a `ScenarioError`."""
    try:
        return arguments.real(name, value, low, above=above)
    except ArgumentError as error:
        raise ScenarioError(str(error)) from None


@dataclass
class Scenario:
    """A network, and what happens in a run of it.

    The methods that build return the scenario, so calls can be chained. Each takes its time as a frame or in seconds. What is given in
    seconds takes effect at the start of the first frame that starts then or later; a node goes off, and a ratio falls, in the frame
    that the time lies in (`foldcairn.model.moments` says why). They raise `ScenarioError` where a value is out of its range, no frame of the
    run is left for a time, or a node is not given.

    What follows `script` is for the answers about a run, and the program does not know it. A text has it as comments, and the times of
    puts that were given in seconds, but for `remarks`.

    Parameters
    ----------
    frames : int
        How many frames the run has, 1 to 4,096. Nodes times frames is at most 16,384 for `run` and `log`, of which a `ScenarioWarning` tells as
        soon as it is more, and 262,144 for `results.outcome`.
    sends : int
        How often a node transmits at most in one flood, 1 to 4.
    profile : int
        It is 1 (frames of 4 s, slots of 33 ms, payloads of 32 bytes) or 2 (5 s, 56 ms, 96 bytes).
    contend : int
        Contention slots that schedules name, 1 to 4, in profile 2; 0 for no `contend` line, which is one slot.
    nodes : dict
        By id (1 to 200) the clock's offset in ticks of 1/64 µs (0 to 256,000).
    rates : list of Rate
        Clock drifts, in any order.
    hosts : dict
        By rank (0 to 3) the id of the host.
    links : set
        Pairs of ids: (u, v) says that what u sends reaches v, and nothing of the other direction.
    prr : dict
        By link the reception ratio, 0 to 1, where it is less than 1 from the start of the run on; `losses.draw` and `results.outcome` draw
        losses by it, and no scenario text has it (`network_text` has).
    ratios : dict
        By (frame, u, v) the reception ratio of that link from that frame on, where it changes (`ratio` sets it).
    losses : list of Loss
        Single losses of links.
    cuts : list of Cut
        Losses of all links of a node.
    captures : list of Capture
        Receptions in spite of a collision.
    script : list of ScriptLine
        What happens by frame; `text` sorts it by frames and keeps the order within a frame.
    receivers : optional
        For whom packets are meant, in the forms of `foldcairn.receivers` (`sinks` sets it); None: for all nodes.
    keep_alive : set
        The streams, by node and number, that are kept alive by packets of no bytes (`stream(.., keep_alive=..)`), which no answer counts.
    labels : dict
        By id the name, where nodes have names: tables and pictures show them in place of the ids, and calls take them.
    places : dict
        By id the place (x, y) on maps, in any unit, upwards; a map is laid out by the links where a node has none.
    remarks : list of str
        What was left in doubt as it was built, in sentences; `cautions` has them too.
    seed : int, optional
        By which `losses.draw` has drawn the losses; None: by none.
    drawn : set of Loss
        Those of the `losses` that were drawn; the others are its own (`undrawn`).
    told : bool
        Whether the length of the run was told already, where it is too long for a log.

    Raises
    ------
    ScenarioError
        Where a number is out of its range, `contend` is given in profile 1, or a ratio is not from 0 to 1.
    """

    frames: int
    sends: int = 2
    profile: int = 1
    contend: int = 0
    nodes: dict[int, int] = field(default_factory=dict)
    rates: list[Rate] = field(default_factory=list)
    hosts: dict[int, int] = field(default_factory=dict)
    links: set[Link] = field(default_factory=set)
    prr: dict[Link, float] = field(default_factory=dict)
    ratios: dict[tuple[int, int, int], float] = field(default_factory=dict)
    losses: list[Loss] = field(default_factory=list)
    cuts: list[Cut] = field(default_factory=list)
    captures: list[Capture] = field(default_factory=list)
    script: list[ScriptLine] = field(default_factory=list)
    receivers: Any = None
    keep_alive: set[tuple[int, int]] = field(default_factory=set)
    labels: dict[int, str] = field(default_factory=dict)
    places: dict[int, tuple[float, float]] = field(default_factory=dict)
    remarks: list[str] = field(default_factory=list)
    seed: int | None = None
    drawn: set[Loss] = field(default_factory=set)
    told: bool = field(default=False, repr=False, compare=False)

    def __post_init__(self) -> None:
        # What it holds is its own: another one that was made of it, by `dataclasses.replace` or by a call, may change too.
        for one in fields(self):
            if one.default_factory is not MISSING:
                setattr(self, one.name, one.default_factory(getattr(self, one.name)))  # type: ignore[call-arg]
        self.receivers = arguments.settled(self.receivers)
        for word in ("profile", "frames", "sends", "contend"):
            value: Any = getattr(self, word)
            (what,) = lines.fields("run")[word]
            # Without a `contend` line there are 0.
            if word != "contend" or value != 0:
                setattr(self, word, self._taken(word, [value], value, what))
        if self.contend and self.profile == 1:
            raise ScenarioError("`contend` needs profile 2: profile 1 has one contention slot")
        self.check_ratios()
        self._tell()

    def _tell(self) -> Self:
        """Warns once where the run is too long for a log."""
        if not self.told and len(self.nodes) * self.frames > lines.NODE_FRAMES_MOST:
            from . import cautions

            self.told = True
            if words := cautions.horizon(self):
                warnings.warn(words, ScenarioWarning, stacklevel=4)
        return self

    def check_ratios(self) -> None:
        """Raises an error where a ratio of `prr` or `ratios` is not from 0 to 1, as one that is not a number (NaN).

        Raises
        ------
        ScenarioError
            Where one is; it is named with its link.
        """
        for (sender, receiver), ratio in self.prr.items():
            self._ratio(sender, receiver, ratio)
        for (_, sender, receiver), ratio in self.ratios.items():
            self._ratio(sender, receiver, ratio)

    @staticmethod
    def _ratio(sender: Node, receiver: Node, ratio: Any) -> float:
        try:
            return arguments.real("prr", ratio, 0, 1)
        except ArgumentError as error:
            raise ScenarioError(f"`link {sender} {receiver}`: {error}") from None

    # Times.

    @property
    def frame_seconds(self) -> int:
        """The length of a frame in seconds: 4 in profile 1, 5 in profile 2."""
        return lines.frame_seconds(self.profile)

    @property
    def seconds(self) -> int:
        """The length of the run in seconds."""
        return self.frames * self.frame_seconds

    @property
    def contention_slots(self) -> int:
        """How many contention slots a round has, 1 to 4."""
        return max(1, self.contend)

    def frame_at(self, seconds: float) -> int:
        """The frame that a time lies in.

        Parameters
        ----------
        seconds : float
            From the start of the run; it may lie before or after it.

        Returns
        -------
        int
            The frame, from 0 on; below 0 before the run.

        Raises
        ------
        ScenarioError
            Where the time is no finite number.
        """
        return moments.frame_of(_real("seconds", seconds), self.frame_seconds)

    def put_seconds(self, put: Put) -> float:
        """When a put was given, at most a frame before it is handed over, at the start of its frame.

        One that was given as a frame was given then, and so was one whose time another frame would take by now.

        Parameters
        ----------
        put : Put
            A line of the script.

        Returns
        -------
        float
            Seconds from the start of the run.
        """
        if put.seconds is not None and moments.frame_from(put.seconds, self.frame_seconds) == put.frame:
            return put.seconds
        return float(put.frame * self.frame_seconds)

    def _frame(self, word: str, frame: int | None, seconds: float | None, find: Callable[[float, int], int] = moments.frame_from) -> int:
        """The frame in which a line of this word takes effect."""
        if frame is not None and seconds is not None:
            raise ScenarioError("a time is given as a frame or in seconds, not as both")
        if seconds is None:
            return 0 if frame is None else frame
        given = _real("seconds", seconds)
        found = find(given, self.frame_seconds)
        if not 0 <= found < self.frames:
            after = f"the run ends at {self.seconds} s, and its last frame starts at {self.seconds - self.frame_seconds} s"
            raise ScenarioError(f"`{word}` at {given:.10g} s: {after if found > 0 else 'times are from 0 s on'}")
        return found

    # What is checked.

    def _context(self) -> Context:
        return Context(self.profile, self.contend > 0, self.frames)

    def _require(self, word: str, *values: Any) -> tuple[Any, ...]:
        """The values of a line of this word, as whole numbers and bytes; raises `ScenarioError` where it may not have them."""
        fields = lines.fields("outcome", self._context())[word]
        taken: tuple[Any, ...] = tuple(
            # Nearly all values are whole numbers in their range.
            value if type(value) is int and what.low <= value <= what.high else self._taken(word, values, value, what)
            for value, what in zip(values, fields, strict=True)
        )
        ids = [value for value, what in zip(taken, fields) if what.kind == "id"]
        for node in ids:
            if node not in self.nodes:
                raise ScenarioError(f"`{_line(word, values)}`: node {node} is not given; nodes come before all that names them")
        if len(ids) == 2 and ids[0] == ids[1]:
            raise ScenarioError(f"`{_line(word, values)}`: the two ids must differ")
        return taken

    def _numbers(self, word: str, *values: Any) -> tuple[int, ...]:
        """The values of a line without a payload."""
        return self._require(word, *values)

    def _taken(self, word: str, values: Sequence[Any], value: Any, what: Field) -> int | bytes:
        """The value of a field, one of the values of a line; raises `ScenarioError` where it is out of its range. A node may be given by
        its name."""
        if isinstance(value, str) and what.kind == "id" and self.labels:
            return self.id(value)
        if isinstance(value, bytes):
            if len(value) > what.high:
                raise ScenarioError(f"`{_line(word, values)}`: {what.range_in_words()} in profile {self.profile}")
            return value
        number = arguments.index(value)
        if number is None:
            in_words = what.range_in_words().replace(", is from", ", is a whole number from")
            raise ScenarioError(f"`{_line(word, values)}`: {value!r}, {in_words}{arguments.instead(value)}")
        if not what.low <= number <= what.high:
            advice = what.advice if number > what.high else ""
            raise ScenarioError(f"`{_line(word, values)}`: {number}, {what.range_in_words()}{advice}")
        return number

    # Building.

    def node(self, node: int, offset: int = 0, ppm: int = 0) -> Self:
        """Adds a node; it comes before all that names it.

        Parameters
        ----------
        node : int
            Its id, 1 to 200.
        offset : int
            What its clock reads at the start, in ticks of 1/64 µs, 0 to 256,000.
        ppm : int
            What its clock gains from the start on, in parts per million, -20 to 20.

        Returns
        -------
        Scenario
            This scenario, so that calls can be chained.

        Raises
        ------
        ScenarioError
            Where the id is given already, or a number is out of its range.
        """
        node, offset = self._numbers("node", node, offset)
        if node in self.nodes:
            raise ScenarioError(f"node {node} is given already")
        self.nodes[node] = offset
        self._tell()
        return self.rate(node, ppm) if ppm != 0 else self

    def rate(self, node: Node, ppm: int, *, tick: int | None = None, seconds: float | None = None) -> Self:
        """Changes what a clock gains from a time on.

        Parameters
        ----------
        node : int or str
            The node, by its id or its name.
        ppm : int
            What its clock gains from then on, in parts per million, -20 to 20.
        tick : int, optional
            The time in ticks of 1/64 µs of true time from the start of the run; without any time it is the start.
        seconds : float, optional
            The time in seconds, in place of a tick.

        Returns
        -------
        Scenario
            This scenario, so that calls can be chained.

        Raises
        ------
        ScenarioError
            Where both times are given, the node is not given, or a number is out of its range.
        """
        if tick is not None and seconds is not None:
            raise ScenarioError("a time is given as a tick or in seconds, not as both")
        at = round(_real("seconds", seconds) * 64_000_000) if seconds is not None else 0 if tick is None else tick
        node, at, ppm = self._numbers("rate", node, at, ppm)
        self.rates.append(Rate(node, at, ppm))
        return self

    def host(self, rank: int, node: Node) -> Self:
        """Makes a node the host of a rank.

        Parameters
        ----------
        rank : int
            Its rank: 0 is the first choice, 1 to 3 are backups.
        node : int or str
            The node, by its id or its name.

        Returns
        -------
        Scenario
            This scenario, so that calls can be chained.

        Raises
        ------
        ScenarioError
            Where the rank has a host, the node hosts already or is not given, or the rank is none.
        """
        rank, node = self._numbers("host", rank, node)
        if rank in self.hosts or node in self.hosts.values():
            raise ScenarioError(f"`host {rank} {node}`: rank {rank} or node {node} hosts already")
        self.hosts[rank] = node
        return self

    def link(self, sender: Node, receiver: Node, prr: float = 1.0) -> Self:
        """Adds a link of one direction, or changes its ratio from the start of the run on.

        Parameters
        ----------
        sender : int or str
            The node that transmits, by its id or its name.
        receiver : int or str
            The node that receives, by its id or its name.
        prr : float
            Which part of the transmissions reaches the receiver, 0 to 1.

        Returns
        -------
        Scenario
            This scenario, so that calls can be chained.

        Raises
        ------
        ScenarioError
            Where a node is not given, both are the same, or the ratio is out of its range.
        """
        sender, receiver = self._numbers("link", sender, receiver)
        ratio = self._ratio(sender, receiver, prr)
        self.links.add((sender, receiver))
        if ratio < 1:
            self.prr[sender, receiver] = ratio
        else:
            self.prr.pop((sender, receiver), None)
        return self

    def pair(self, one: Node, other: Node, prr: float = 1.0) -> Self:
        """Adds the links of both directions between two nodes.

        Parameters
        ----------
        one : int or str
            The first node, by its id or its name.
        other : int or str
            The second one.
        prr : float
            The ratio of each of the links, 0 to 1.

        Returns
        -------
        Scenario
            This scenario, so that calls can be chained.

        Raises
        ------
        ScenarioError
            Where `link` raises it.
        """
        return self.link(one, other, prr).link(other, one, prr)

    def ratio(
        self, sender: Node, receiver: Node, prr: float, *, frame: int | None = None, seconds: float | None = None
    ) -> Self:
        """Changes the reception ratio of a link of one direction from a time on, until a later ratio of it.

        A time in seconds within a frame counts for that frame where the ratio is lower than the one in force, else for the next one: so
        each frame has the least ratio of its time. Give the ratios of a link in the order of their times.

        Parameters
        ----------
        sender : int or str
            The node that transmits, by its id or its name.
        receiver : int or str
            The node that receives, by its id or its name.
        prr : float
            The ratio, 0 to 1, which counts in millionths, rounded.
        frame : int, optional
            The frame, from 0 on and within the run.
        seconds : float, optional
            The time in seconds from the start of the run, in place of a frame. Without any time it is the start.

        Returns
        -------
        Scenario
            This scenario, so that calls can be chained.

        Raises
        ------
        ScenarioError
            Where there is no such link, both times are given, or a value is out of its range.
        """
        ratio = self._ratio(sender, receiver, prr)
        within = self._frame("ratio", frame, seconds, moments.frame_of)
        at, sender, receiver, _ = self._numbers("ratio", within, sender, receiver, millionths(ratio))
        if (sender, receiver) not in self.links:
            raise ScenarioError(f"`ratio {at} {sender} {receiver} {millionths(ratio)}`: there is no link from {sender} to {receiver}")
        if seconds is not None and moments.frame_from(seconds, self.frame_seconds) > at:
            if ratio > self.prr_at(frame=at).get((sender, receiver), 1.0):
                at += 1
            else:
                # A higher one that was given for an earlier time of this frame is over before its frame starts.
                self.ratios.pop((at + 1, sender, receiver), None)
        if at == 0:
            return self.link(sender, receiver, ratio)
        if at < self.frames:
            self.ratios[at, sender, receiver] = ratio
        return self

    def ratio_lines(self) -> list[Ratio]:
        """All reception ratios of its links.

        Returns
        -------
        list of Ratio
            By the frames from which on they hold; a link that loses nothing at the start has none of frame 0.
        """
        first = [Ratio(0, *link, ratio) for link, ratio in self.prr.items() if link in self.links]
        return sorted(first + [Ratio(*place, ratio) for place, ratio in self.ratios.items() if place[1:] in self.links])

    def prr_at(self, *, frame: int | None = None, seconds: float | None = None) -> dict[Link, float]:
        """The reception ratios that are in force at a time.

        Parameters
        ----------
        frame : int, optional
            The frame, from 0 on and within the run.
        seconds : float, optional
            The time in seconds from the start of the run, in place of a frame. Without any time it is the start.

        Returns
        -------
        dict
            By (sender, receiver) the ratio of each link that has less than 1 then.

        Raises
        ------
        ScenarioError
            Where both times are given, or the time is no finite number.
        """
        if frame is not None and seconds is not None:
            raise ScenarioError("a time is given as a frame or in seconds, not as both")
        at, found = self.frame_at(seconds) if seconds is not None else frame or 0, {link: 1.0 for link in self.links}
        found.update({(one.sender, one.receiver): one.prr for one in self.ratio_lines() if one.frame <= at})
        return {link: ratio for link, ratio in sorted(found.items()) if ratio < 1}

    @property
    def is_to_be_drawn(self) -> bool:
        """Whether it has reception ratios, and no losses were drawn by them yet."""
        return self.seed is None and bool(self.ratio_lines())

    def script_lines(self) -> int:
        """How many script lines it has.

        Returns
        -------
        int
            The number of its rates, of the lines of `script`, and of its losses, cuts and captures.
        """
        written: tuple[Sized, ...] = (self.rates, self.script, self.losses, self.cuts, self.captures)
        return sum(map(len, written))

    @property
    def is_for_run(self) -> bool:
        """Whether `run` and `log` take so many nodes times frames and script lines."""
        return len(self.nodes) * self.frames <= lines.NODE_FRAMES_MOST and self.script_lines() <= lines.SCRIPT_LINES_MOST

    def undrawn(self) -> Self:
        """The network that this scenario was before its losses were drawn, to draw them anew.

        Returns
        -------
        Scenario
            A copy without the losses of its seed, and with its own; this scenario itself where none were drawn.
        """
        if self.seed is None:
            return self
        made = self.copy()
        made.losses = [loss for loss in self.losses if loss not in self.drawn]
        made.seed, made.drawn = None, set()
        return made

    def by_seed(self) -> Callable[[int], Scenario] | None:
        """What gives the network of a seed, where seeds draw more than the losses, as those of a plan do.

        Returns
        -------
        callable or None
            It takes a seed and gives a scenario; None where seeds draw the losses alone.
        """
        return None

    def of_seed(self, seed: int) -> Scenario:
        """The network of a seed, without its losses.

        Parameters
        ----------
        seed : int
            The seed, 0 to 9,999,999,999,999.

        Returns
        -------
        Scenario
            This scenario itself, where seeds draw nothing but the losses.
        """
        varied = self.by_seed()
        return self if varied is None else varied(seed)

    def varied_by(self) -> str:
        """What tells from each other that by which seeds draw more than the losses.

        Returns
        -------
        str
            A checksum; an empty text where they do not.
        """
        return ""

    def unlink(self, one: Node, other: Node) -> Self:
        """Takes out the links between two nodes, in both directions, and their ratios, losses and captures.

        Parameters
        ----------
        one : int or str
            The first node, by its id or its name.
        other : int or str
            The second one; there may be no link between them.

        Returns
        -------
        Scenario
            This scenario, so that calls can be chained.

        Raises
        ------
        ScenarioError
            Where a node is not given.
        """
        one, other = self.id(one), self.id(other)
        gone = {(one, other), (other, one)}
        self.links -= gone
        self.prr = {link: ratio for link, ratio in self.prr.items() if link not in gone}
        self.ratios = {place: ratio for place, ratio in self.ratios.items() if place[1:] not in gone}
        self.losses = [loss for loss in self.losses if (loss.sender, loss.receiver) not in gone]
        self.captures = [capture for capture in self.captures if (capture.sender, capture.at) not in gone]
        return self

    def on(self, *nodes: Node, frame: int | None = None, seconds: float | None = None) -> Self:
        """Switches nodes on at the start of a frame, or of the first that starts at a time or after it.

        Parameters
        ----------
        *nodes : int or str
            The nodes, by ids or names; without any all that are given so far.
        frame : int, optional
            The frame, from 0 on and within the run.
        seconds : float, optional
            The time in seconds from the start of the run, in place of a frame. Without any time it is the start.

        Returns
        -------
        Scenario
            This scenario, so that calls can be chained.

        Raises
        ------
        ScenarioError
            Where a node is not given, both times are given, or the time is not in the run.
        """
        at = self._frame("on", frame, seconds)
        for node in nodes or sorted(self.nodes):
            at, node = self._numbers("on", at, node)
            self.script.append(On(at, node, seconds))
        return self

    def off(self, *nodes: Node, frame: int | None = None, seconds: float | None = None) -> Self:
        """Switches nodes off at the start of a frame, or of the one that a time lies in: never later than the failure.

        One that came on earlier in that frame, which counts from the next frame on, goes off with the next frame too.

        Parameters
        ----------
        *nodes : int or str
            The nodes, by ids or names; without any all that are given so far.
        frame : int, optional
            The frame, from 0 on and within the run.
        seconds : float, optional
            The time in seconds from the start of the run, in place of a frame. Without any time it is the start.

        Returns
        -------
        Scenario
            This scenario, so that calls can be chained.

        Raises
        ------
        ScenarioError
            Where a node is not given, both times are given, or the time is not in the run.
        """
        at = self._frame("off", frame, seconds, moments.frame_of)
        for node in nodes or sorted(self.nodes):
            _, node = self._numbers("off", at, node)
            came_on = seconds is not None and any(
                isinstance(line, On) and (line.frame, line.node) == (at + 1, node) and line.seconds is not None and line.seconds <= seconds
                for line in self.script
            )
            self.script.append(Off(at + came_on, node))
        return self

    def stream(
        self, node: Node, interval: int, *, stream: int = 0, frame: int | None = None, seconds: float | None = None,
        keep_alive: float | None = None,
    ) -> Self:  # fmt: skip
        """A stream of a node requests slots from a frame on, or from the first that starts at a time or after it.

        A host takes a stream away whose slots stayed empty 16 times in a row, some 16 intervals, and the next packet has to ask
        for it anew.

        Parameters
        ----------
        node : int or str
            The node, by its id or its name.
        interval : int
            How often it requests a slot, in seconds, 1 to 120.
        stream : int
            The number of the stream, 0 to 3.
        frame : int, optional
            The frame, from 0 on and within the run.
        seconds : float, optional
            The time in seconds from the start of the run, in place of a frame. Without any time it is the start.
        keep_alive : float, optional
            How often the stream gets a packet of no bytes, in seconds, to the end of the run, so that it is not taken away; take less than 16
            intervals. Answers of planning leave these packets out.

        Returns
        -------
        Scenario
            This scenario, so that calls can be chained.

        Raises
        ------
        ScenarioError
            Where the node is not given, both times are given, or a value is out of its range.
        """
        asked = Stream(*self._numbers("stream", self._frame("stream", frame, seconds), node, stream, interval))
        self.script.append(asked)
        if keep_alive is not None:
            self.keep_alive.add((asked.node, asked.stream))
            self.remarks.extend(doubts.of_keep_alive(self, asked, keep_alive))
            self.every(keep_alive, asked.node, b"", stream=asked.stream, start=float(asked.frame * self.frame_seconds))
        return self

    def sinks(self, *receivers: Any) -> Self:
        """For whom packets are meant where an answer is not told otherwise.

        Parameters
        ----------
        *receivers : int, str or dict
            Some nodes, by ids or names, which come before; "hosts", whichever host serves; "all"; or a dictionary with one of these for each source
            (`foldcairn.receivers` has the forms).

        Returns
        -------
        Scenario
            This scenario, so that calls can be chained.

        Raises
        ------
        ScenarioError
            Where a node is not given, or a word is none of these.
        """
        from .receivers import meant

        given = arguments.settled(receivers[0] if len(receivers) == 1 else list(receivers))
        try:
            if not isinstance(given, dict):
                meant(self, given)
        except ValueError as error:
            raise ScenarioError(str(error)) from error
        self.receivers = given
        return self

    def id(self, node: int | str) -> int:
        """The id of a node.

        Parameters
        ----------
        node : int or str
            The node, by its id or its name.

        Returns
        -------
        int
            Its id, 1 to 200.

        Raises
        ------
        ScenarioError
            Where there is no such node.
        """
        named = {name: one for one, name in self.labels.items()}
        # A name may have digits alone, and come as a number.
        found = named.get(str(node), node) if isinstance(node, str) or node not in self.nodes else node
        if isinstance(found, str) or found not in self.nodes:
            known = ", ".join(str(named) for named in list(self.labels.values() or sorted(self.nodes))[:8])
            near = arguments.did_you_mean(node, self.labels.values()) if isinstance(node, str) else ""
            raise ScenarioError(f"the scenario has no node {node}; it has {len(self.nodes)} nodes: {known}{', ..' * (len(self.nodes) > 8)}{near}")
        return int(found)

    def name(self, node: int) -> str:
        """The name of a node.

        Parameters
        ----------
        node : int
            Its id.

        Returns
        -------
        str
            Its name, in characters that can be seen, or its id where it has none.
        """
        return visible(self.labels.get(node, str(node)))

    def stream_name(self, node: int, stream: int) -> str:
        """A stream in few letters.

        Parameters
        ----------
        node : int
            The id of its node.
        stream : int
            The number of the stream, 0 to 3.

        Returns
        -------
        str
            The name of the node and the number of the stream, as "7.0".
        """
        return f"{self.name(node)}.{stream}"

    def leave(self, node: Node, *, stream: int = 0, frame: int | None = None, seconds: float | None = None) -> Self:
        """A stream ends in a frame, or in the first that starts at a time or after it, and its queue is emptied.

        Parameters
        ----------
        node : int or str
            The node, by its id or its name.
        stream : int
            The number of the stream, 0 to 3.
        frame : int, optional
            The frame, from 0 on and within the run.
        seconds : float, optional
            The time in seconds from the start of the run, in place of a frame. Without any time it is the start.

        Returns
        -------
        Scenario
            This scenario, so that calls can be chained.

        Raises
        ------
        ScenarioError
            Where the node is not given, both times are given, or a value is out of its range.
        """
        self.script.append(Leave(*self._numbers("leave", self._frame("leave", frame, seconds), node, stream)))
        return self

    def put(
        self, node: Node, payload: bytes = b"", *, stream: int = 0, frame: int | None = None, seconds: float | None = None
    ) -> Self:
        """Gives a stream a packet to send, at the start of a frame, or of the first that starts at a time or after it.

        Its latency counts from the time that is given.

        Parameters
        ----------
        node : int or str
            The node, by its id or its name.
        payload : bytes
            What it carries, up to 32 bytes in profile 1 and 96 in profile 2.
        stream : int
            The number of the stream, 0 to 3.
        frame : int, optional
            The frame, from 0 on and within the run.
        seconds : float, optional
            The time in seconds from the start of the run, in place of a frame. Without any time it is the start.

        Returns
        -------
        Scenario
            This scenario, so that calls can be chained.

        Raises
        ------
        ScenarioError
            Where the node is not given, the payload is too long, both times are given, or a value is out of its range.
        """
        try:
            content = arguments.payload("payload", payload)
        except ArgumentError as error:
            raise ScenarioError(str(error)) from None
        at, source, stream, content = self._require("put", self._frame("put", frame, seconds), node, stream, content)
        self.script.append(Put(at, source, stream, content, seconds))
        return self

    def every(
        self,
        seconds: float,
        node: Node,
        payload: bytes | Callable[[int], bytes] | None = None,
        *,
        stream: int = 0,
        start: float = 0.0,
        until: float | None = None,
        interval: int | None = None,
    ) -> Self:
        """Gives a stream packets at regular times.

        Each is handed over as by `put`, so none comes after the start of the last frame.

        Parameters
        ----------
        seconds : float
            The time from one to the next, above 0.
        node : int or str
            The node, by its id or its name.
        payload : bytes or callable, optional
            The same for all, or a function of the packet's number from 0 on; without one it is the id (1 byte) and that number (2 bytes).
        stream : int
            The number of the stream, 0 to 3.
        start : float
            When the first one is put, in seconds from the start of the run.
        until : float, optional
            All are put before then, in seconds; without it before the end of the run.
        interval : int, optional
            With it the stream is requested too, from `start` on: a slot so often, in seconds, 1 to 120.

        Returns
        -------
        Scenario
            This scenario, so that calls can be chained.

        Raises
        ------
        ScenarioError
            Where `put` or `stream` raises it, or the packets are more than the lines that a network may have.
        """
        seconds, start = _real("seconds", seconds, above=0), _real("start", start, 0)
        end = float(self.seconds) if until is None else min(_real("until", until), self.seconds)
        if (end - start) / seconds > lines.LONG_SCRIPT_LINES_MOST:
            raise ScenarioError(
                f"packets every {seconds:g} s from {start:g} to {end:g} s are {math.ceil((end - start) / seconds):,}, and a network has at "
                f"most {lines.LONG_SCRIPT_LINES_MOST:,} script lines; write at least {(end - start) / lines.LONG_SCRIPT_LINES_MOST:g} s"
            )
        if interval is not None:
            self.stream(node, interval, stream=stream, seconds=start)
        node = self.id(node) if isinstance(node, str) and self.labels else node
        count = 0
        while (time := start + count * seconds) < end and moments.frame_from(time, self.frame_seconds) < self.frames:
            if payload is None:
                content = bytes([arguments.whole("node", node, 1, 200)]) + (count & 0xFFFF).to_bytes(2, "big")
            else:
                content = payload(count) if callable(payload) else payload
            self.put(node, content, stream=stream, seconds=time)
            count += 1
        if count:
            self.remarks.extend(doubts.of_period(self, self.id(node), stream, seconds, end - start))
        return self

    def lose(self, frame: int, slot: int, step: int, sender: Node, receiver: Node) -> Self:
        """Loses a link in one step of a slot.

        Parameters
        ----------
        frame : int
            The frame, from 0 on and within the run.
        slot : int
            The slot of its round.
        step : int
            The step of the slot, 0 to 11.
        sender : int or str
            The node that transmits, by its id or its name.
        receiver : int or str
            The node that does not receive it.

        Returns
        -------
        Scenario
            This scenario, so that calls can be chained.

        Raises
        ------
        ScenarioError
            Where a node is not given, or a number is out of its range.
        """
        self.losses.append(Loss(*self._numbers("lose", frame, slot, step, sender, receiver)))
        return self

    def cut(self, frame: int, slot: int, step: int, node: Node) -> Self:
        """Loses all links to and from a node, from one step of a slot on until the frame ends.

        Parameters
        ----------
        frame : int
            The frame, from 0 on and within the run.
        slot : int
            The slot of its round.
        step : int
            The step of the slot, 0 to 11.
        node : int or str
            The node, by its id or its name.

        Returns
        -------
        Scenario
            This scenario, so that calls can be chained.

        Raises
        ------
        ScenarioError
            Where the node is not given, or a number is out of its range.
        """
        self.cuts.append(Cut(*self._numbers("cut", frame, slot, step, node)))
        return self

    def capture(self, frame: int, slot: int, step: int, at: Node, sender: Node) -> Self:
        """Where unlike packets reach a node at once in one step of a slot, it receives that of one sender.

        Parameters
        ----------
        frame : int
            The frame, from 0 on and within the run.
        slot : int
            The slot of its round.
        step : int
            The step of the slot, 0 to 11.
        at : int or str
            The node that receives, by its id or its name.
        sender : int or str
            The node whose packet it receives.

        Returns
        -------
        Scenario
            This scenario, so that calls can be chained.

        Raises
        ------
        ScenarioError
            Where a node is not given, or a number is out of its range.
        """
        self.captures.append(Capture(*self._numbers("capture", frame, slot, step, at, sender)))
        return self

    def __repr__(self) -> str:
        parts = [f"{len(self.nodes)} nodes", f"{len(self.links)} links", f"{len(self.hosts)} hosts", f"{self.seconds} s"]
        drawn = [f"{len(self.losses)} losses" + (f" of seed {self.seed}" if self.seed is not None else "")] if self.losses else []
        return f"<Scenario: {', '.join(parts + drawn)}>"

    def _repr_html_(self) -> str:
        return display.shown("scenario", self)

    def copy(self) -> Self:
        """A scenario with the same content that can be changed without changing this one.

        Returns
        -------
        Scenario
            The copy.
        """
        return replace(self)

    # From and to other forms.

    @classmethod
    def from_graph(
        cls, graph: networkx.Graph, frames: int, *, hosts: Sequence[int] = (), sends: int = 2, profile: int = 1, contend: int = 0,
        on: bool = True,
    ) -> Self:  # fmt: skip
        """A scenario of the nodes and edges of a graph.

        Parameters
        ----------
        graph : networkx.Graph
            Its nodes are ids, 1 to 200, and may have the attributes `offset` (ticks of 1/64 µs), `ppm` and `host` (the rank); edges may have `prr`. An
            edge of a graph without directions is both links.
        frames : int
            How many frames the run has, 1 to 4,096.
        hosts : sequence of int
            The hosts by rank, in place of the attribute.
        sends : int
            How often a node transmits at most in one flood, 1 to 4.
        profile : int
            The profile, 1 or 2.
        contend : int
            The contention slots, as `Scenario` has them.
        on : bool
            Whether all nodes are switched on in frame 0.

        Returns
        -------
        Scenario
            The scenario, without streams and packets.

        Raises
        ------
        ScenarioError
            Where a node is no id or a value is out of range.
        """
        made = cls(frames, sends, profile, contend, told=True)
        strange = [node for node in graph if arguments.index(node) is None]
        if strange:
            raise ScenarioError(f"the node {strange[0]!r} of the graph is no id, which is a whole number from 1 to 200")
        for node, data in sorted(graph.nodes(data=True)):
            made.node(node, data.get("offset", 0), data.get("ppm", 0))
        hosts = arguments.settled(hosts)
        ranks = {data["host"]: node for node, data in graph.nodes(data=True) if data.get("host") is not None}
        for rank, node in enumerate(hosts) if hosts else sorted(ranks.items()):
            made.host(rank, node)
        for sender, receiver, data in graph.edges(data=True):
            (made.link if graph.is_directed() else made.pair)(sender, receiver, data.get("prr", 1.0))
        made.told = False
        return made.on()._tell() if on and made.nodes else made._tell()

    @classmethod
    def from_tables(
        cls, nodes: Any, links: Any, streams: Any = None, *, frames: int, sends: int = 2, profile: int = 1, contend: int = 0
    ) -> Self:
        """A scenario of tables, each a DataFrame or the path of a CSV file.

        Ids may be names, as `pump` or `B-12`: then nodes get the ids 1, 2, .. by their rows, tables and pictures show the names, and
        `id` gives the id of a name. Blank cells, and words as `n/a`, are values that are not given; but a table that has ratios has one in
        each row. A column that is none of these is not read, and `cautions` names it. A CSV file is in UTF-8, with commas, semicolons or
        tabs between the cells.

        Parameters
        ----------
        nodes : pandas.DataFrame, path or file
            A row for each node: `id`; it may have `name`, `offset` (ticks of 1/64 µs), `ppm`, `host` (the rank), `on` (seconds; 0 without it), and the
            place, `x` and `y`.
        links : pandas.DataFrame, path or file
            A row for each link: `from`, `to` (or `u` and `v`, or `source` and `target`); it may have `prr`, `both` (true for both directions), and the
            time from which on a ratio holds, so that a link may have several rows: `seconds` or `frame` from the start of the run, or
            `timestamp`, a date and a time. The first time stamp of the table is the start of the run, and before its first sample a link has the
            ratio of that sample.
        streams : pandas.DataFrame, path or file, optional
            A row for each stream: `node`, `interval` (seconds); it may have `stream`, `start` (seconds), `keep_alive` (seconds), and `every` with
            `until` (seconds), by which packets are put as `every` does.
        frames : int
            How many frames the run has, 1 to 4,096.
        sends : int
            How often a node transmits at most in one flood, 1 to 4.
        profile : int
            The profile, 1 or 2.
        contend : int
            The contention slots, as `Scenario` has them.

        Returns
        -------
        Scenario
            The scenario; its nodes are switched on.

        Raises
        ------
        ScenarioError
            Where a column is missing or a value out of range, a column has nearly the name of one that is read, two names are equal, a name is the id of
            another node, an id is not spelled as a number (`007`), only some nodes have names, or a link has different ratios at one time; it
            names the table and the row.
        OSError
            Where a file can't be read.
        """
        from . import tables

        made = tables.scenario_of(cls(frames, sends, profile, contend, told=True), nodes, links, streams)
        made.told = False
        return made._tell()

    def graph(self) -> networkx.DiGraph:
        """The links as a graph.

        Returns
        -------
        networkx.DiGraph
            Its nodes have `offset` (ticks of 1/64 µs), `ppm` (of the first rate) and maybe `host` (the rank); its edges have `prr`.
        """
        import networkx

        graph = networkx.DiGraph()
        first = {rate.node: rate.ppm for rate in sorted(self.rates, reverse=True)}
        graph.add_nodes_from((node, {"offset": offset, "ppm": first.get(node, 0)}) for node, offset in sorted(self.nodes.items()))
        for rank, node in self.hosts.items():
            graph.nodes[node]["host"] = rank
        graph.add_edges_from((*link, {"prr": self.prr.get(link, 1.0)}) for link in sorted(self.links))
        return graph

    @classmethod
    def read(cls, text: str | bytes | os.PathLike[str]) -> Self:
        """The scenario of a text, as the program reads it, but that lines of the script may be out of order.

        It may have ratios below it, as `network_text` writes them. Comments that `text` writes are taken back.

        Parameters
        ----------
        text : str, bytes or path
            The text, or the file that has it (a `pathlib.Path`).

        Returns
        -------
        Scenario
            The scenario.

        Raises
        ------
        ScenarioError
            Where a line is wrong: the first one is named, with the word and its range.
        ArgumentError
            Where the text is the name of a file.
        """
        from . import reading

        return reading.scenario_of(cls, text)

    def text(self, *, warn: bool = True) -> str:
        """The canonical text of the scenario.

        Lines of the script are sorted by frames, and keep their order within one. Above it, as comments, are the names and the places of nodes, the
        receivers, the streams that are kept alive, and the seed and the ratios by which its losses were drawn, if they were. A put whose time lies
        before its frame has a comment above it, as `#: seconds 303.7`. Ratios by which no losses were drawn are lost: `network_text` keeps them.

        Parameters
        ----------
        warn : bool
            Whether it gives `ScenarioWarning`s of what `cautions` names, and of ratios that are lost.

        Returns
        -------
        str
            The text, which ends with a line feed.

        Raises
        ------
        ScenarioError
            Where the receivers name a node that is not there.
        """
        if warn and self.is_to_be_drawn:
            words = (
                f"the text of a scenario has no reception ratios, so the {len(self.ratio_lines()):,} of this one are lost in it, and its links lose "
                "nothing; `network_text` keeps them, for `outcome`, `sample`, `draw` and `Scenario.read`"
            )
            warnings.warn(words, ScenarioWarning, stacklevel=2)
        return self._text(warn)

    def _text(self, warn: bool) -> str:
        if warn:
            for caution in self.cautions():
                warnings.warn(caution, ScenarioWarning, stacklevel=3)
        return "\n".join(self._lines()) + "\n"

    def network_text(self, *, warn: bool = True) -> str:
        """The canonical text, and below a line `ratios` a line for each reception ratio, in millionths (docs/RATIOS.md).

        A scenario without ratios, or whose losses are drawn, has none. It is all that answers go by: what `read` makes of it has the same ones.

        Parameters
        ----------
        warn : bool
            Whether it gives `ScenarioWarning`s of what `cautions` names.

        Returns
        -------
        str
            The text, which ends with a line feed.

        Raises
        ------
        ScenarioError
            Where `text` or `check_ratios` raises it.
        """
        self.check_ratios()
        below = ["ratios", *(one.text() for one in self.ratio_lines())] if self.is_to_be_drawn else []
        return self._text(warn) + "".join(f"{one}\n" for one in below)

    def _lines(self) -> Iterator[str]:
        # Comments to the program, which `read` takes back: names of nodes, what `comments` has, and what the losses were drawn by.
        from . import comments

        yield from (f"{KEPT} name {node} {' '.join(name.split())}" for node, name in sorted(self.labels.items()))
        try:
            yield from [f"{KEPT} {one}" for one in comments.of(self)]
        except ValueError as error:
            raise ScenarioError(str(error)) from error
        if self.seed is not None:
            yield f"{KEPT} seed {self.seed}"
            yield from (f"{KEPT} prr {sender} {receiver} {ratio!r}" for (sender, receiver), ratio in sorted(self.prr.items()))
            yield from (f"{KEPT} ratio {' '.join(map(str, place))} {ratio!r}" for place, ratio in sorted(self.ratios.items()))
            yield from (f"{KEPT} {loss.text()}" for loss in sorted(set(self.losses) - self.drawn))
        yield f"profile {self.profile}"
        if self.contend:
            yield f"contend {self.contend}"
        yield f"frames {self.frames}"
        yield f"sends {self.sends}"
        yield from (f"node {node} {offset}" for node, offset in sorted(self.nodes.items()))
        yield from (rate.text() for rate in sorted(self.rates))
        yield from (f"host {rank} {node}" for rank, node in sorted(self.hosts.items()))
        yield from (f"link {sender} {receiver}" for sender, receiver in sorted(self.links))
        frame = self.frame_seconds
        for event in sorted(self.script, key=attrgetter("frame")):
            # Nearly all puts are given as frames, or at the start of one.
            if isinstance(event, Put) and event.seconds is not None and event.seconds != event.frame * frame:
                if (given := self.put_seconds(event)) != event.frame * frame:
                    yield f"{KEPT} seconds {given!r}"
            yield event.text()
        single: Iterable[Iterable[Loss | Cut | Capture]] = (self.losses, self.cuts, self.captures)
        yield from (event.text() for events in single for event in sorted(events))

    def cautions(self) -> list[str]:
        """What the program accepts though it is hardly what was meant; `text` warns of it.

        Returns
        -------
        list of str
            Sentences.
        """
        from . import cautions

        return cautions.of(self)
