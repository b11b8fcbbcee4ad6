"""What a page has besides its run: titles, notes, places, receivers, the battery, and what of a scenario no text has.

It is kept in the page as JSON, so that the same page can be made again from it and the scenario. Tested, not proved.
"""

from __future__ import annotations

import base64
import json
import math
import os
from collections.abc import Callable, Mapping
from dataclasses import asdict, dataclass, field
from pathlib import Path
from typing import Any

from ..answers import radio
from ..common import arguments
from ..common.arguments import ArgumentError
from ..model.scenario import Scenario
from ..runs.results import Log

Places = Mapping[int, tuple[float, float]]
# Whether a value of JSON is of a kind.
Kind = Callable[[Any], bool]
# How many letters of what is wrong are shown.
_SHOWN_MOST = 60
# What a page can be given, and words that other calls and the command line have for it.
_WORDS = ("title", "site", "plan", "notes", "positions", "receivers", "battery", "background", "extent", "deadline")
_OTHER_WORDS = {"places": "positions", "sinks": "receivers", "capacity_mah": "battery", "name": "title"}
_BATTERY = ("capacity_mah", "transmit_ma", "receive_ma", "sleep_ma", "mains", "target_days")


@dataclass(frozen=True)
class Settings:
    """What `page.write` is given, each in a form that JSON has."""

    title: str = "A run"
    site: str = ""
    plan: str = ""
    notes: str = ""
    positions: list[tuple[int, float, float]] | None = None
    receivers: Any = None
    battery: dict[str, Any] = field(default_factory=dict)
    background: str = ""
    extent: tuple[float, float, float, float] | None = None
    ratios: list[tuple[int, int, float]] = field(default_factory=list)
    later_ratios: list[tuple[int, int, int, float]] = field(default_factory=list)
    labels: list[tuple[int, str]] = field(default_factory=list)
    keep_alive: list[tuple[int, int]] = field(default_factory=list)
    seed: int | None = None
    deadline: float | None = None

    @classmethod
    def of(
        cls, scenario: Scenario, *, title: str = "A run", site: str = "", plan: str = "", notes: str = "", positions: Places | None = None,
        receivers: Any = None, battery: Mapping[str, Any] | None = None,
        background: str | os.PathLike[str] | bytes | None = None, extent: tuple[float, float, float, float] | None = None,
        deadline: float | None = None, **other: Any,
    ) -> Settings:  # fmt: skip
        """The settings of a page of this scenario, with what no text of it has. Raises `ArgumentError` for a word of `battery` that
        `planning.battery_life` does not have, any `other` word or a deadline that is not above 0, and `OSError` where the background can't
        be read."""
        for word in other:
            near = _OTHER_WORDS.get(word) or arguments.near(word, _WORDS)
            raise ArgumentError(f"a page has no {word!r}; {f'did you mean {near}? ' * bool(near)}it has {', '.join(_WORDS)}")
        if strange := set(battery or {}) - set(_BATTERY):
            raise ArgumentError(f"`battery` has {min(strange)!r}, and not one of {', '.join(_BATTERY)}")
        picture = background if isinstance(background, bytes) else b"" if background is None else Path(background).read_bytes()
        given = scenario.receivers if receivers is None else receivers
        return cls(
            title, site, plan, notes,
            None if positions is None else [(int(node), float(x), float(y)) for node, (x, y) in sorted(positions.items())],
            _plain(given), _of_battery(scenario, battery or {}), base64.b64encode(picture).decode(),
            None if extent is None else (float(extent[0]), float(extent[1]), float(extent[2]), float(extent[3])),
            [(*link, ratio) for link, ratio in sorted(scenario.prr.items())],
            [(*place, ratio) for place, ratio in sorted(scenario.ratios.items())], sorted(scenario.labels.items()), sorted(scenario.keep_alive),
            scenario.seed, None if deadline is None else arguments.real("deadline", deadline, above=0),
        )  # fmt: skip

    @classmethod
    def read(cls, text: str) -> Settings:
        """The settings of a text that `text` gave. Raises `ArgumentError` where it is none, which names what is wrong first."""
        try:
            given = json.loads(text)
            if not isinstance(given, dict):
                raise ValueError(f"it is no object but {str(given)[:_SHOWN_MOST]}")
            for name, value in given.items():
                if name in _KINDS and not _KINDS[name](value):
                    raise ValueError(f"`{name}` is {str(value)[:_SHOWN_MOST]}, and no page saves it so")
            return cls(**given)
        except (ValueError, TypeError, RecursionError) as error:
            raise ArgumentError(f"these are no settings of a page: {error}") from error

    def text(self) -> str:
        """The settings as JSON."""
        return json.dumps(asdict(self), indent=1, sort_keys=True) + "\n"

    def give(self, scenario: Scenario) -> Scenario:
        """Gives a scenario, which was read from a text, what its text may not have, and gives it back. A network that has its ratios has no seed
        of its own. The receivers of the page are those of `whom`, whatever the scenario says."""
        if not scenario.is_to_be_drawn:
            scenario.seed = self.seed
        scenario.prr.update({(int(one), int(other)): float(ratio) for one, other, ratio in self.ratios})
        scenario.ratios.update({(int(at), int(one), int(other)): float(ratio) for at, one, other, ratio in self.later_ratios})
        scenario.labels.update({int(node): str(name) for node, name in self.labels})
        scenario.keep_alive.update((int(node), int(stream)) for node, stream in self.keep_alive)
        return scenario

    def whom(self) -> Any:
        """The receivers, in the forms of `foldcairn.receivers`."""
        if not isinstance(self.receivers, dict):
            return self.receivers
        return {tuple(key) if isinstance(key, list) else key: value for key, value in self.receivers["by stream"]}

    def places(self) -> dict[int, tuple[float, float]] | None:
        """The places of the nodes."""
        return None if self.positions is None else {int(node): (float(x), float(y)) for node, x, y in self.positions}

    def picture(self) -> bytes | None:
        """The bytes of the background."""
        return base64.b64decode(self.background) or None


def _is_text(value: Any) -> bool:
    return isinstance(value, str)


def _is_whole(value: Any) -> bool:
    return type(value) is int


def _is_number(value: Any) -> bool:
    return type(value) in (int, float) and math.isfinite(value)


def _is_ratio(value: Any) -> bool:
    return _is_number(value) and 0 <= value <= 1


def _is_list(value: Any, *kinds: Kind) -> bool:
    """Whether it is a list of so many values of these kinds."""
    return isinstance(value, list) and len(value) == len(kinds) and all(kind(one) for kind, one in zip(kinds, value))


def _are_lists(*kinds: Kind) -> Kind:
    """Whether a value is a list of such lists."""
    return lambda value: isinstance(value, list) and all(_is_list(one, *kinds) for one in value)


def _is_picture(value: Any) -> bool:
    try:
        return _is_text(value) and bool(base64.b64decode(value, validate=True) or not value)
    except ValueError:
        return False


def _is_battery(value: Any) -> bool:
    """Numbers by their words; what is of several nodes is a list."""
    return isinstance(value, dict) and all(_is_number(one) or isinstance(one, list) and all(map(_is_whole, one)) for one in value.values())


def _are_nodes(value: Any) -> bool:
    """Receivers that are no mapping."""
    return value is None or _is_text(value) or _is_whole(value) or isinstance(value, list) and all(_is_text(one) or _is_whole(one) for one in value)


def _are_receivers(value: Any) -> bool:
    def is_source(one: Any) -> bool:
        return _is_text(one) or _is_whole(one) or _is_list(one, lambda node: _is_text(node) or _is_whole(node), _is_whole)

    return _are_nodes(value) or isinstance(value, dict) and list(value) == ["by stream"] and _are_lists(is_source, _are_nodes)(value["by stream"])


# What each of the settings is in JSON.
_KINDS: dict[str, Kind] = {
    **dict.fromkeys(("title", "site", "plan", "notes"), _is_text),
    "positions": lambda value: value is None or _are_lists(_is_whole, _is_number, _is_number)(value),
    "receivers": _are_receivers,
    "battery": _is_battery,
    "background": _is_picture,
    "deadline": lambda value: value is None or _is_number(value),
    "extent": lambda value: value is None or _is_list(value, *[_is_number] * 4),
    "ratios": _are_lists(_is_whole, _is_whole, _is_ratio),
    "later_ratios": _are_lists(_is_whole, _is_whole, _is_whole, _is_ratio),
    "labels": _are_lists(_is_whole, _is_text),
    "keep_alive": _are_lists(_is_whole, _is_whole),
    "seed": lambda value: value is None or _is_whole(value),
}


def _of_battery(scenario: Scenario, battery: Mapping[str, Any]) -> dict[str, Any]:
    """The words of a battery in a form that JSON has, with the nodes on mains by their ids."""
    mains = {"mains": sorted(radio.on_mains(scenario, battery["mains"]))} if "mains" in battery else {}
    return {**{name: float(value) for name, value in battery.items() if name != "mains"}, **mains}


def _plain(receivers: Any) -> Any:
    """Receivers in a form that JSON has."""
    if isinstance(receivers, Mapping):
        return {"by stream": [[list(key) if isinstance(key, tuple) else key, _plain(value)] for key, value in receivers.items()]}
    if receivers is None or isinstance(receivers, (str, int)):
        return receivers
    return [one if isinstance(one, str) else int(one) for one in receivers]


def of_log(log: Log, **given: Any) -> Settings:
    """The settings of a page of a log."""
    return Settings.of(log.scenario, **given)
