"""The scenario of a text. What is out of range is named as the program names it, by line. Tested, not proved."""

from __future__ import annotations

import contextlib
import os
from collections.abc import Callable, Sequence
from dataclasses import replace
from typing import TYPE_CHECKING, Any, TypeVar

from ..common import arguments
from . import faults, lines
from .errors import KEPT, ScenarioError
from .events import Capture, Cut, Leave, Loss, Off, On, Put, Rate, Stream
from .lines import Context, Field

if TYPE_CHECKING:
    from .scenario import Scenario

    AnyScenario = TypeVar("AnyScenario", bound=Scenario)


def scenario_of(kind: Callable[..., AnyScenario], text: str | bytes | os.PathLike[str]) -> AnyScenario:
    """The scenario of a text; raises `ScenarioError`, which names the first line that is wrong."""
    data = arguments.text("text", text)
    rows = faults.split(data)
    command = "outcome" if ["ratios"] in rows else "run"
    end = rows.index(["ratios"]) if command == "outcome" else len(rows)
    reader = _Reader()

    def read(first: int, last: int, take: Callable[[Sequence[str]], str | None]) -> None:
        for number, (words, row) in enumerate(zip(rows[first:last], data.split(b"\n")[first:]), first + 1):
            if fault := (take(words) if _is_utf8(row) else "NotUtf8") if words else None:
                raise ScenarioError(faults.explain(data, number, fault, command))

    read(0, end, reader.take)
    if reader.lacks():
        raise ScenarioError(faults.explain(data, end + 1, "Missing", command))
    read(end + 1, len(rows), reader.take_ratio)
    made = reader.made(kind)
    own: set[Loss] = set()
    for row in data.split(b"\n"):
        _take_kept(made, row, own)
    made.drawn = set(made.losses) - own if made.seed is not None else set()
    _take_seconds(made, data)
    return made


def _take_seconds(made: Scenario, data: bytes) -> None:
    """Takes the times of puts, each from the comment above its line. Lines of the script are in the order of the text."""
    place, seconds = 0, None
    for row in data.split(b"\n"):
        match row.decode("utf-8", "replace").split():
            case [mark, "seconds", word] if mark == KEPT:
                with contextlib.suppress(ValueError):
                    seconds = arguments.real("seconds", float(word))
            case [word, *_] if word in _SCRIPT:
                line = made.script[place]
                if seconds is not None and isinstance(line, Put):
                    made.script[place] = replace(line, seconds=seconds)
                place, seconds = place + 1, None


def _take_kept(made: Scenario, row: bytes, own: set[Loss]) -> None:
    """Takes from a comment the name of a node, by which seed, or by which ratio of a link, the losses were drawn, one that was not, or
    what `comments` has."""
    from . import comments
    mark, *words = row.decode("utf-8", "replace").split() or [""]
    if mark != KEPT:
        return
    match words:
        case ["name", node, *name] if name and node.isdecimal() and int(node) in made.nodes:
            made.labels[int(node)] = " ".join(name)
        case ["seed", seed] if seed.removeprefix("-").isdecimal():
            made.seed = int(seed)
        case ["prr", sender, receiver, ratio] if sender.isdecimal() and receiver.isdecimal():
            link = int(sender), int(receiver)
            with contextlib.suppress(ValueError):
                if link in made.links and 0 <= float(ratio) < 1:
                    made.prr[link] = float(ratio)
        case ["lose", *place] if len(place) == 5 and all(word.isdecimal() for word in place):
            own.add(Loss(*map(int, place)))
        case ["ratio", frame, sender, receiver, ratio] if all(word.isdecimal() for word in words[1:4]):
            with contextlib.suppress(ValueError):
                made.ratio(int(sender), int(receiver), float(ratio), frame=int(frame))
        case _:
            comments.take(made, words)


def _is_utf8(row: bytes) -> bool:
    try:
        row.decode()
    except UnicodeDecodeError:
        return False
    return True


class _Reader:
    """What the lines so far have given."""

    def __init__(self) -> None:
        self.single: dict[str, int] = {}
        self.nodes: dict[int, int] = {}
        self.hosts: dict[int, int] = {}
        self.links: set[tuple[int, int]] = set()
        self.rates: list[Rate] = []
        self.script: list[On | Off | Stream | Leave | Put] = []
        self.losses: dict[Loss, None] = {}
        self.cuts: dict[Cut, None] = {}
        self.captures: dict[tuple[int, int, int, int], Capture] = {}
        self.ratios: dict[tuple[int, int, int], float] = {}
        self.last_ratio: dict[tuple[int, int], int] = {}
        self.read_any = False
        self.last = ""

    def context(self) -> Context:
        return Context(self.single.get("profile", 1), "contend" in self.single, self.single.get("frames"))

    def take(self, words: Sequence[str]) -> str | None:
        """Takes one line with words; gives the kind of fault where it is none, as docs/SCENARIO.md orders the kinds."""
        first, rest = words[0], words[1:]
        fields = lines.fields("run", self.context()).get(first)
        if fields is None or len(fields) != len(rest):
            return "BadWord"
        pairs = list(zip(rest, fields))
        if any(what.kind == "payload" and lines.bytes_fault(word) for word, what in pairs):
            return "BadWord"
        if any(what.kind != "payload" and lines.number_fault(word, what.kind == "signed") for word, what in pairs):
            return "BadNumber"
        values = [_value(word, what) for word, what in pairs]
        if fault := self._out_of_range(values, fields) or self._misplaced(first, fields):
            return fault
        self.read_any, self.last = True, first
        return self._keep(first, values)

    def take_ratio(self, words: Sequence[str]) -> str | None:
        """Takes one line below the line `ratios`; gives the kind of fault where it is none, as docs/RATIOS.md orders the kinds."""
        first, rest = words[0], words[1:]
        fields = lines.fields("outcome", self.context())["ratio"]
        if first != "ratio" or len(fields) != len(rest):
            return "BadWord"
        if any(map(lines.number_fault, rest)):
            return "BadNumber"
        frame, sender, receiver, ratio = values = [int(word) for word in rest]
        if fault := self._out_of_range(values, fields):
            return fault
        if (sender, receiver) not in self.links or frame <= self.last_ratio.get((sender, receiver), -1):
            return "Order"
        if len(self.ratios) >= lines.RATIO_LINES_MOST:
            return "TooMany"
        self.last_ratio[sender, receiver] = frame
        self.ratios[frame, sender, receiver] = ratio / 1_000_000
        return None

    def _out_of_range(self, values: Sequence[Any], fields: Sequence[Field]) -> str | None:
        ids = [value for value, what in zip(values, fields) if what.kind == "id"]
        for value, what in zip(values, fields):
            size = len(value) if isinstance(value, bytes) else value
            if not what.low <= size <= what.high:
                return "Range"
        if len(ids) == 2 and ids[0] == ids[1]:
            return "Range"
        return "UnknownNode" if any(node not in self.nodes for node in ids) else None

    def _misplaced(self, first: str, fields: Sequence[Field]) -> str | None:
        if first == "profile" and self.read_any:
            return "Order"
        if first == "contend" and (self.last != "profile" or self.single["profile"] != 2):
            return "Order"
        if any(what.name == "frame" for what in fields) and "frames" not in self.single:
            return "Order"
        return None

    def _keep(self, first: str, values: Sequence[Any]) -> str | None:
        match first:
            case "profile" | "contend" | "frames" | "sends":
                return _add(self.single, first, values[0])
            case "node":
                return _add(self.nodes, *values)
            case "host":
                return "Twice" if values[1] in self.hosts.values() else _add(self.hosts, *values)
            case "link" | "pair":
                return self._keep_links(first, (values[0], values[1]))
            case "rate":
                self.rates.append(Rate(*values))
            case "lose":
                return _add(self.losses, Loss(*values), None)
            case "cut":
                return _add(self.cuts, Cut(*values), None)
            case "capture":
                return _add(self.captures, tuple(values[:4]), Capture(*values))
            case _:
                self.script.append(_SCRIPT[first](*values))
        return None

    def _keep_links(self, first: str, link: tuple[int, int]) -> str | None:
        both = {link, link[::-1]} if first == "pair" else {link}
        if both & self.links:
            return "Twice"
        self.links |= both
        return None

    def lacks(self) -> bool:
        """Whether a line that each scenario has is missing."""
        return not {"frames", "sends"} <= self.single.keys() or len(self.nodes) < 2 or not self.hosts

    def made(self, kind: Callable[..., AnyScenario]) -> AnyScenario:
        """The scenario of the lines."""
        first = {place[1:]: ratio for place, ratio in self.ratios.items() if place[0] == 0 and ratio < 1}
        return kind(
            prr=first, ratios={place: ratio for place, ratio in self.ratios.items() if place[0]},
            **self.single, nodes=self.nodes, rates=self.rates, hosts=self.hosts, links=self.links, script=self.script,
            losses=list(self.losses), cuts=list(self.cuts), captures=list(self.captures.values()),
        )  # fmt: skip


_SCRIPT = {"on": On, "off": Off, "stream": Stream, "leave": Leave, "put": Put}


def _value(word: str, what: Field) -> int | bytes:
    if what.kind == "payload":
        return b"" if word == "-" else bytes.fromhex(word)
    return int(word)


def _add(where: dict[Any, Any], key: object, value: object) -> str | None:
    """Adds what is new, and gives the fault where the key is there already."""
    if key in where:
        return "Twice"
    where[key] = value
    return None
