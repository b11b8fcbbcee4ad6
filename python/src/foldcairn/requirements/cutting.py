"""Which nodes are cut off where one fails: by the graph of the links that work, and by what the draws say. Tested, not proved."""

from __future__ import annotations

from collections.abc import Mapping, Sequence
from dataclasses import replace
from typing import TYPE_CHECKING

import networkx

from ..plan.naming import natural
from . import measuring

if TYPE_CHECKING:
    from ..plan.plan import Plan

# From which part of the time after a failure on a node that searches for a host has none, and in which part of the draws.
_SEARCHING, _OF_DRAWS = 0.75, 0.5


def working(plan: Plan, least_ratio: float) -> networkx.Graph:
    """The links of a plan, by the names of nodes, that pass at least this part in both directions, by their means at the start."""
    with measuring.quiet():
        network = replace(plan, events=[]).network()
    graph = networkx.Graph()
    graph.add_nodes_from(network.labels.values())
    strong = {link for link in network.links if network.prr.get(link, 1.0) >= least_ratio}
    graph.add_edges_from((network.labels[one], network.labels[other]) for one, other in strong if (other, one) in strong)
    return graph


def cut_off(plan: Plan, names: Sequence[str], least_ratio: float) -> dict[str, list[str]]:
    """For each of these nodes those from which no way of links that work leads to a host without it, though one did with it."""
    graph, hosts = working(plan, least_ratio), {host.node for host in plan.hosts}
    before, joints = _served(graph, hosts), set(networkx.articulation_points(graph))
    found: dict[str, list[str]] = {}
    for name in names:
        # Without any other node all ways but those through it stay.
        if name in joints or name in hosts:
            left = graph.copy()
            left.remove_node(name)
            found[name] = sorted(before - _served(left, hosts - {name}) - {name}, key=natural)
        else:
            found[name] = []
    return found


def _served(graph: networkx.Graph, hosts: set[str]) -> set[str]:
    """The nodes from which a way leads to a host."""
    return {node for part in networkx.connected_components(graph) if hosts & part for node in part}


def lost(planned: Sequence[Mapping[str, int]], failed: Sequence[Mapping[str, int]], frames: int) -> list[str]:
    """The nodes that had no host in most of the frames after a failure, in half of the draws or more: by the frames in which each node searched for
    one, in the draws as planned and in those of the failure. Both begin with the same seeds, and are the same up to the failure."""
    pairs = list(zip(planned, failed))
    names = [name for name in (pairs[0][1] if pairs else {}) if name in pairs[0][0]]
    parts = {name: sum(one[name] - before[name] >= _SEARCHING * frames for before, one in pairs) / len(pairs) for name in names}
    return sorted((name for name, part in parts.items() if part >= _OF_DRAWS), key=natural)
