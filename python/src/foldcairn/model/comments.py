"""What a text of a scenario keeps as comments, which the program does not read: for whom packets are meant, which streams are kept
alive, and where nodes are. So whoever reads the text has the same answers and maps.

    #: place 7 12.5 3.0
    #: keep-alive 7 0
    #: receivers hosts
    #: receivers-of 8.1 101 131

Nodes are told by their ids. Names of nodes, and what losses were drawn by, are comments too (`Scenario.text`). Tested, not proved.
"""

from __future__ import annotations

import contextlib
import math
from collections.abc import Iterator, Mapping, Sequence
from typing import TYPE_CHECKING, Any

from . import receivers
from .receivers import ALL, HOSTS, OTHERS

if TYPE_CHECKING:
    from .scenario import Scenario


def of(scenario: Scenario) -> Iterator[str]:
    """The comments of a scenario, without their mark. Raises `ValueError` where its receivers name a node that it does not have."""
    yield from (f"place {node} {float(x)!r} {float(y)!r}" for node, (x, y) in sorted(scenario.places.items()))
    yield from (f"keep-alive {node} {stream}" for node, stream in sorted(scenario.keep_alive))
    given = scenario.receivers
    if isinstance(given, receivers.Meant):
        given = dict(given.by_stream)
    if isinstance(given, Mapping):
        yield from (f"receivers-of {_stream(scenario, key)} {_whom(scenario, value)}" for key, value in given.items())
    elif given is not None:
        yield f"receivers {_whom(scenario, given)}".rstrip()


def _stream(scenario: Scenario, key: Any) -> str:
    """The key of a mapping of receivers: a node, or a node and its stream, or the word for all others."""
    found = receivers.stream_of(scenario, key)
    return f"{found[0]}.{found[1]}" if isinstance(found, tuple) else str(found)


def _whom(scenario: Scenario, given: Any) -> str:
    if isinstance(given, str) and given == ALL and given not in scenario.labels.values():
        return ALL
    nodes = receivers.nodes_of(scenario, given)
    return nodes if isinstance(nodes, str) else " ".join(map(str, sorted(nodes)))


def take(scenario: Scenario, words: Sequence[str]) -> None:
    """Takes a comment back, by its words after the mark; one that does not fit the scenario is a remark, and nothing comes of it."""
    with contextlib.suppress(ValueError):
        match words:
            case ["place", node, x, y] if int(node) in scenario.nodes and math.isfinite(float(x)) and math.isfinite(float(y)):
                scenario.places[int(node)] = float(x), float(y)
            case ["keep-alive", node, stream] if int(node) in scenario.nodes and stream in ("0", "1", "2", "3"):
                scenario.keep_alive.add((int(node), int(stream)))
            case ["receivers", *whom]:
                scenario.receivers = _taken(scenario, whom)
            case ["receivers-of", of_stream, *whom]:
                named = scenario.receivers if isinstance(scenario.receivers, dict) else {}
                scenario.receivers = {**named, _key(scenario, of_stream): _taken(scenario, whom)}


def _key(scenario: Scenario, word: str) -> Any:
    if word == OTHERS:
        return word
    node, _, stream = word.partition(".")
    return (_node(scenario, node), int(stream)) if stream else _node(scenario, node)


def _taken(scenario: Scenario, words: Sequence[str]) -> Any:
    return words[0] if list(words) in ([ALL], [HOSTS]) else [_node(scenario, word) for word in words]


def _node(scenario: Scenario, word: str) -> int:
    return scenario.id(int(word))
