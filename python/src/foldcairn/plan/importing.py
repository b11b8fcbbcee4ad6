"""Plans of what people have already: of a scenario or a network text, or of tables of nodes, links and streams. Tested, not proved."""

from __future__ import annotations

import os
from collections.abc import Iterable, Iterator, Sequence
from itertools import pairwise
from typing import Any

import tomlkit

from ..common.arguments import ArgumentError
from ..model import cells, table_files
from ..model.events import Off, On, Put, Stream as Request
from ..model.receivers import HOSTS, Meant, meant
from ..model.scenario import Scenario
from .errors import PlanError
from .model import Event, Host, Link, Losses, Node, Settings, Stream
from .plan import Plan
from .words import ALL, RESERVED

# How far times of a periodic stream may be from their period, in seconds.
_LITTLE = 1e-6
# How often a packet of a period has to come to be told by it.
_LEAST = 3


def of_scenario(scenario: Scenario) -> Plan:
    """The plan of a scenario, with its names, places, receivers, keep-alives and ratios.

    Parameters
    ----------
    scenario : Scenario
        The scenario or the network; losses that were drawn count for nothing.

    Returns
    -------
    Plan
        The plan, read from no file. What a plan does not say is in its `remarks`: losses of single steps, streams that are left or change their
        intervals, clocks that change, and payloads, of which it keeps the length.

    Raises
    ------
    PlanError
        Where two nodes have one name, a name is a word of plan files, or what comes out is no plan (`Plan.check`).
    """
    network = scenario.undrawn()
    names = {node: network.name(node) for node in network.nodes}
    for node, name in names.items():
        if name in RESERVED or list(names.values()).count(name) > 1:
            told = "a word of plan files" if name in RESERVED else "which other nodes are too"
            raise PlanError("the scenario", f"node {node} is called {name!r}, {told}")
    settings = Settings(
        profile=network.profile, sends=network.sends, contend=network.contend, hours=network.seconds / 3_600, seeds=100,
    )  # fmt: skip
    made = Plan(settings=settings, losses=Losses("survey" if network.links else "none", least=0.0))
    made.nodes = {name: _node(network, node, name) for node, name in names.items()}
    made.links = [row for link in sorted(network.links) for row in _links(network, link, names)]
    made.hosts = [Host(names[node], rank) for rank, node in sorted(network.hosts.items())]
    made.events = [event for node in sorted(network.nodes) for event in _power(network, node, names[node])]
    whom = meant(network)
    for source, number in whom.by_stream:
        one = _stream(network, source, number, names, whom)
        made.streams[one.name] = one
    made.check()
    made.remarks = list(_lost(network))
    return made


def _node(network: Scenario, node: int, name: str) -> Node:
    ppm = next((rate.ppm for rate in network.rates if rate.node == node and rate.tick == 0), 0)
    x, y = network.places.get(node, (None, None))
    first = min((line.frame for line in network.script if isinstance(line, On) and line.node == node), default=0)
    return Node(name, node, x, y, clock=ppm, offset=network.nodes[node], on=float(first * network.frame_seconds))


def _links(network: Scenario, link: tuple[int, int], names: dict[int, str]) -> Iterator[Link]:
    """The row of a link, or where its ratio changes a row for each time."""
    later = sorted((frame, ratio) for (frame, *ends), ratio in network.ratios.items() if tuple(ends) == link)
    for frame, ratio in [(0, network.prr.get(link, 1.0)), *later]:
        yield Link(names[link[0]], names[link[1]], ratio, at=float(frame * network.frame_seconds) if later else None)


def _power(network: Scenario, node: int, name: str) -> Iterator[Event]:
    """When a node has no power, after it was switched on first."""
    lines = sorted((one.frame, place, isinstance(one, On)) for place, one in enumerate(network.script) if isinstance(one, (On, Off)) and one.node == node)
    asked = {one.frame for one in network.script if isinstance(one, Request) and one.node == node}
    first = next((place for place, (_, _, is_on) in enumerate(lines) if is_on), len(lines))
    down: int | None = None
    for frame, _, is_on in lines[first + 1 :]:
        if not is_on and down is None:
            down = frame
        elif is_on and down is not None:
            yield Event(node=name, at=float(down * network.frame_seconds), duration=float((frame - down) * network.frame_seconds), restart=frame in asked)
            down = None
    if down is not None:
        yield Event(node=name, at=float(down * network.frame_seconds))


def _stream(network: Scenario, source: int, number: int, names: dict[int, str], whom: Meant) -> Stream:
    requests = sorted(one.frame for one in network.script if isinstance(one, Request) and (one.node, one.stream) == (source, number))
    interval = next((one.interval for one in network.script if isinstance(one, Request) and (one.node, one.stream) == (source, number)), None)
    given = [one for one in network.script if isinstance(one, Put) and (one.node, one.stream) == (source, number)]
    is_kept = (source, number) in network.keep_alive
    counted = [one for one in given if one.payload or not is_kept]
    times, alive = (sorted(network.put_seconds(one) for one in given if one in those) for those in (counted, [one for one in given if one not in counted]))
    name = names[source] if number == 0 else f"{names[source]}/{number}"
    start = float((requests or [0])[0] * network.frame_seconds)
    made = Stream(names[source], name, _whom(network, whom, (source, number), names), number, interval=interval, start=start)
    made.bytes = max((len(one.payload) for one in counted), default=None)
    if len(alive) > 1:
        made.keep_alive = alive[1] - alive[0]
    period = _period(times)
    if period is not None and abs(times[0] - start) < _LITTLE:
        made.every = period
        until = times[-1] + period / 2
        made.until = until if until < network.seconds - period / 2 else None
    else:
        made.at = times or [start]
    return made


def _period(times: list[float]) -> float | None:
    """The time between packets that come at one, else None."""
    gaps = [after - before for before, after in pairwise(times)]
    if len(times) < _LEAST or max(gaps) - min(gaps) > _LITTLE or min(gaps) <= 0:
        return None
    return round(gaps[0], 6)


def _whom(network: Scenario, whom: Meant, stream: tuple[int, int], names: dict[int, str]) -> str | list[str]:
    nodes = whom.by_stream[stream]
    if isinstance(nodes, str):
        return HOSTS
    if nodes >= set(network.nodes) - {stream[0]}:
        return ALL
    found = [names[node] for node in sorted(nodes)]
    return found[0] if len(found) == 1 else found or ALL


def _lost(network: Scenario) -> Iterator[str]:
    """What a plan does not say of a scenario, in sentences."""
    counts = {
        "lines `lose`, `cut` and `capture`, for single steps of floods": len(network.losses) + len(network.cuts) + len(network.captures),
        "lines `leave`, for streams that end": sum(type(line).__name__ == "Leave" for line in network.script),
        "lines `rate` after the start, for clocks that change": sum(rate.tick > 0 for rate in network.rates),
    }
    for what, count in counts.items():
        if count:
            yield f"{count} {what}, are left out: no plan says such things"


# Tables.


def of_tables(
    nodes: str | os.PathLike[str], links: Sequence[str | os.PathLike[str]] = (), streams: str | os.PathLike[str] | None = None, *,
    hosts: Iterable[str] = (), settings: dict[str, Any] | None = None, losses: dict[str, Any] | None = None,
) -> Plan:  # fmt: skip
    """The plan of CSV files, as `[tables]` of a plan file reads them.

    Parameters
    ----------
    nodes : path
        The table of nodes.
    links : sequence of paths
        The tables of links.
    streams : path, optional
        The table of streams.
    hosts : sequence of str
        The names of the hosts by rank, from 0 on; without any a column `host` of the nodes has the ranks.
    settings : dict, optional
        Values of keys of [plan].
    losses : dict, optional
        Values of keys of [losses].

    Returns
    -------
    Plan
        The plan, read from no plan file.

    Raises
    ------
    PlanError
        Where it is no plan, as of `Plan.read`.
    ArgumentError
        Where the table of nodes is no CSV file in UTF-8, or a rank of `host` is no whole number.
    OSError
        Where a file can't be read.
    """
    document = tomlkit.document()
    document["plan"] = settings or {}
    named = list(hosts)
    ranks, ignored = _hosts(nodes) if not named else ({}, [])
    files: dict[str, Any] = {"nodes": os.path.abspath(nodes), "ignore": ignored}
    if links:
        files["links"] = [os.path.abspath(one) for one in links]
    if streams is not None:
        files["streams"] = os.path.abspath(streams)
    document["tables"] = files
    if losses:
        document["losses"] = losses
    made = Plan.parse(tomlkit.dumps(document))
    made.hosts = [Host(name, rank) for rank, name in enumerate(named)] if named else [Host(name, rank) for rank, name in sorted(ranks.items())]
    made.source = None
    made.check()
    return made


def _hosts(nodes: str | os.PathLike[str]) -> tuple[dict[int, str], list[str]]:
    """The hosts by their ranks, of a column `host`, and that column."""
    frame = table_files.read(nodes, os.fspath(nodes))
    column = next((one for one in frame.columns if str(one).strip().casefold() == "host"), None)
    called = next((one for one in ("name", "node", "label", "id") if one in frame.columns), None)
    if column is None or called is None:
        return {}, []
    try:
        return {int(row[column]): cells.name(row[called]) for row in frame.to_dict("records") if row[column] is not None}, [str(column)]
    except ValueError as error:
        raise ArgumentError(f"{os.fspath(nodes)}: `host` has to be a rank from 0 to 3: {error}") from error
