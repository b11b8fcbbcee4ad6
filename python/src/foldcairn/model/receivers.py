"""For whom packets are meant: for all nodes, for some, for whichever host serves, or for other nodes stream by stream.

`planning`, `importance`, the page and the command line take `receivers` in the same forms:

| `receivers` | a packet is meant for |
|---|---|
| None | what the scenario says (`Scenario.sinks`), and all nodes if it says nothing |
| "all" | each node |
| "hosts" | whichever host serves: the node that hosts the rank of the round in which the packet was sent |
| 101, or [101, 131] | each of these nodes; names of nodes are read too |
| {7: 101, (8, 1): "hosts", "others": "all"} | one of the above for each source, or each source and stream |

A packet is never meant for its own source. Of "hosts" one rule holds in all answers, with a log, without one and over many seeds:

- A packet that was sent is delivered if the node that hosts the rank of its round received it in that round.
- One that was never sent counts as not delivered. It has no host, so by node it is in no row: the row of a node says how many of the
  packets that were sent in the rounds of this host it received.
- One whose source hosts that round itself is not counted.

`Meant.is_for` is this rule, `Meant.is_for_any` says which packets it counts, and `Meant.pairs` has all nodes that it names. Tested, not proved.
"""

from __future__ import annotations

from collections.abc import Iterable, Mapping
from dataclasses import dataclass
from functools import cached_property
from typing import TYPE_CHECKING, Any

import numpy as np
import pandas as pd
from numpy.typing import NDArray

from ..common import arguments
from .events import Put, Stream

if TYPE_CHECKING:
    from .scenario import Scenario

# What may be given for `receivers`: a word, a node, several nodes, or one of these for each source.
Receivers = Any
ALL, HOSTS, OTHERS = "all", "hosts", "others"
# In place of a host, of a packet that was never sent.
NO_HOST = -1
_STREAM = ["source", "stream"]
Ids = NDArray[np.int64]
Truths = NDArray[np.bool_]
# Places for all ids of nodes; the last one is no id, and is `NO_HOST` counted from the end.
_IDS = 257


def streams_of(scenario: Scenario) -> list[tuple[int, int]]:
    """The source and the number of each stream that is requested or gets packets, in order."""
    return sorted({(event.node, event.stream) for event in scenario.script if isinstance(event, (Put, Stream))})


def stream_index(scenario: Scenario) -> pd.MultiIndex:
    """An index of these streams by `source` and `stream`."""
    streams = streams_of(scenario)
    return pd.MultiIndex.from_arrays([[one for one, _ in streams], [two for _, two in streams]], names=_STREAM)


@dataclass(frozen=True)
class Meant:
    """For whom the packets of each stream are meant.

    Parameters
    ----------
    scenario : Scenario
        The scenario.
    by_stream : mapping
        By (source, number of the stream) "hosts", for whichever host serves, or the set of the ids of nodes.
    """

    scenario: Scenario
    by_stream: Mapping[tuple[int, int], str | frozenset[int]]

    def groups(self) -> Iterable[tuple[str | frozenset[int], list[tuple[int, int]]]]:
        """The streams that are meant for the same nodes, together.

        Returns
        -------
        iterable of tuple
            "hosts" or a set of nodes, and the list of its streams.
        """
        found: dict[str | frozenset[int], list[tuple[int, int]]] = {}
        for stream, nodes in self.by_stream.items():
            found.setdefault(nodes, []).append(stream)
        return found.items()

    def nodes(self) -> set[int]:
        """All nodes that some stream of another node is meant for.

        Returns
        -------
        set of int
            Their ids; with streams for whichever host serves all hosts.
        """
        hosts = set(self.scenario.hosts.values())
        return {
            node for (source, _), nodes in self.by_stream.items() for node in (hosts if isinstance(nodes, str) else nodes) if node != source
        }

    def is_for(self, source: Ids, stream: Ids, node: Ids, host: Ids) -> Truths:
        """Whether packets are meant for nodes, one by one.

        Parameters
        ----------
        source : numpy.ndarray
            The id of the source of each packet.
        stream : numpy.ndarray
            The number of its stream, 0 to 3.
        node : numpy.ndarray
            The node of which it is asked.
        host : numpy.ndarray
            The node that hosts the round in which it was sent or received, `NO_HOST` where there is none.

        Returns
        -------
        numpy.ndarray
            A truth for each packet; no packet is meant for its own source.
        """
        _, to_hosts, named = self._tables
        group = self.groups_of(source, stream)
        found: Truths = np.where(to_hosts[group], node == host, named[group, node]) & (node != source)
        return found

    def is_for_any(self, source: Ids, stream: Ids, host: Ids) -> Truths:
        """Whether packets are meant for any node, one by one.

        Parameters
        ----------
        source : numpy.ndarray
            The id of the source of each packet.
        stream : numpy.ndarray
            The number of its stream, 0 to 3.
        host : numpy.ndarray
            The node that hosts the round in which it was sent or received, `NO_HOST` where there is none.

        Returns
        -------
        numpy.ndarray
            A truth for each packet.
        """
        _, to_hosts, named = self._tables
        group = self.groups_of(source, stream)
        found: Truths = np.where(to_hosts[group], host != source, named.sum(axis=1)[group] > named[group, source])
        return found

    def groups_of(self, source: Ids, stream: Ids) -> Ids:
        """The places in `by_stream` of the streams of packets.

        Parameters
        ----------
        source : numpy.ndarray
            The id of the source of each packet.
        stream : numpy.ndarray
            The number of its stream, 0 to 3.

        Returns
        -------
        numpy.ndarray
            A place for each packet, from 0 on; the length of `by_stream` for streams that are not in it.
        """
        found: Ids = self._tables[0][4 * source + stream]
        return found

    @cached_property
    def _tables(self) -> tuple[Ids, Truths, Truths]:
        """The place of each stream by four times its source and its number, and by these places whether it is meant for whichever host
        serves, and for which nodes by their ids. The last place is that of all other streams, which are meant for none."""
        place = np.full(4 * _IDS, len(self.by_stream), dtype=np.int64)
        to_hosts, named = np.zeros(len(self.by_stream) + 1, dtype=bool), np.zeros((len(self.by_stream) + 1, _IDS), dtype=bool)
        for group, ((source, stream), nodes) in enumerate(self.by_stream.items()):
            place[4 * source + stream] = group
            if isinstance(nodes, str):
                to_hosts[group] = True
            else:
                named[group, sorted(nodes)] = True
        return place, to_hosts, named

    def pairs(self, packets: pd.DataFrame) -> pd.DataFrame:
        """A row for each packet and each node that it is meant for.

        Parameters
        ----------
        packets : pandas.DataFrame
            They have `source`, `stream` and `rank`, that of the round in which they were sent, -1 where they never were.

        Returns
        -------
        pandas.DataFrame
            `place`, the row of the packet, and `node`, by both. Of a packet that was never sent the node is `NO_HOST` where it is meant for whichever
            host serves.
        """
        source, host = packets["source"].to_numpy(dtype="int64"), hosts_of(self.scenario, packets["rank"].to_numpy(dtype="int64"))
        group = self.groups_of(source, packets["stream"].to_numpy(dtype="int64"))
        order = {stream: number for number, stream in enumerate(self.by_stream)}
        places, nodes = [np.empty(0, dtype="int64")], [np.empty(0, dtype="int64")]
        for chosen, streams in self.groups():
            rows = np.flatnonzero(np.isin(group, [order[stream] for stream in streams]))
            places.append(rows if isinstance(chosen, str) else np.repeat(rows, len(chosen)))
            nodes.append(host[rows] if isinstance(chosen, str) else np.tile(np.array(sorted(chosen), dtype="int64"), len(rows)))
        place, node = np.concatenate(places), np.concatenate(nodes)
        kept = np.flatnonzero(node != source[place])
        kept = kept[np.argsort(place[kept], kind="stable")]
        return pd.DataFrame({"place": place[kept], "node": node[kept]})


def hosts_of(scenario: Scenario, ranks: Ids) -> Ids:
    """The node that hosts each of these ranks, `NO_HOST` for a rank that none hosts, as -1."""
    # The last place is that of -1, counted from the end.
    found = np.full(max(scenario.hosts, default=0) + 2, NO_HOST, dtype=np.int64)
    found[list(scenario.hosts)] = list(scenario.hosts.values())
    hosts: Ids = found[ranks.clip(-1, len(found) - 1)]
    return hosts


def meant(scenario: Scenario, receivers: Receivers = None) -> Meant:
    """For whom the packets of each stream are meant.

    Parameters
    ----------
    scenario : Scenario
        The scenario.
    receivers : optional
        In the forms of this module; without it what the scenario says, and all nodes if it says nothing. What is a `Meant` already stays.

    Returns
    -------
    Meant
        The nodes by stream.

    Raises
    ------
    ValueError
        For a word that is none of these, a node that the scenario does not have, or a stream of a mapping that is not named.
    """
    if isinstance(receivers, Meant):
        return receivers
    given = scenario.receivers if receivers is None else receivers
    streams = streams_of(scenario)
    if not isinstance(given, Mapping):
        nodes = nodes_of(scenario, ALL if given is None else given)
        return Meant(scenario, dict.fromkeys(streams, nodes))
    named = {stream_of(scenario, key): nodes_of(scenario, value) for key, value in given.items()}
    found = {stream: named.get(stream, named.get(stream[0], named.get(OTHERS))) for stream in streams}
    if lacking := [stream for stream, nodes in found.items() if nodes is None]:
        told = ", ".join(f"stream {stream} of node {scenario.name(node)}" for node, stream in lacking[:8])
        raise ValueError(f'`receivers` names no receiver for {told}; name one, or all others at once by "{OTHERS}"')
    return Meant(scenario, {stream: nodes for stream, nodes in found.items() if nodes is not None})


def stream_of(scenario: Scenario, key: Any) -> Any:
    """The key of a mapping: a node, a node and its stream, or the word for all others."""
    if key == OTHERS and OTHERS not in scenario.labels.values():
        return key
    if isinstance(key, tuple):
        return _id(scenario, key[0]), int(key[1])
    return _id(scenario, key)


def nodes_of(scenario: Scenario, given: Any) -> str | frozenset[int]:
    """The nodes that are given, or the word for whichever host serves. Raises `ValueError` where they are none of the scenario."""
    if isinstance(given, str) and given not in scenario.labels.values():
        if given == HOSTS:
            return HOSTS
        if given == ALL:
            return frozenset(scenario.nodes)
        known = [ALL, HOSTS, *scenario.labels.values()]
        raise ValueError(f'`receivers` is {given!r}, and neither "{ALL}" nor "{HOSTS}" nor the name of a node{arguments.did_you_mean(given, known)}')
    if isinstance(given, str) or not isinstance(given, Iterable):
        return frozenset({_id(scenario, given)})
    return frozenset(_id(scenario, node) for node in given)


def _id(scenario: Scenario, node: Any) -> int:
    """The id of a node that is given by its id or its name."""
    try:
        return scenario.id(node)
    except ValueError as error:
        raise ValueError(f"`receivers`: {error}") from error
