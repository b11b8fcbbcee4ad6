"""Graphs of common shapes whose nodes are ids from 1 on, for `Scenario.from_graph`. Tested, not proved."""

from __future__ import annotations

from collections.abc import Iterable

import networkx


def _numbered(graph: networkx.Graph, order: Iterable[object]) -> networkx.Graph:
    """The graph with its nodes renamed 1, 2, .. in that order."""
    return networkx.relabel_nodes(graph, {node: number for number, node in enumerate(order, 1)})


def grid(rows: int, columns: int, *, diagonals: bool = False) -> networkx.Graph:
    """Nodes in rows, numbered from 1 along each row, with links to their neighbours.

    Parameters
    ----------
    rows : int
        How many rows there are.
    columns : int
        How many nodes a row has.
    diagonals : bool
        Whether there are also links across corners.

    Returns
    -------
    networkx.Graph
        Each node has `pos`, (column, row), from 0 on.
    """
    graph = networkx.grid_2d_graph(rows, columns)
    if diagonals:
        for row in range(rows - 1):
            for column in range(columns - 1):
                graph.add_edge((row, column), (row + 1, column + 1))
                graph.add_edge((row, column + 1), (row + 1, column))
    networkx.set_node_attributes(graph, {place: (place[1], place[0]) for place in graph}, "pos")
    return _numbered(graph, sorted(graph))


def line(count: int) -> networkx.Graph:
    """Nodes in a line, each linked to the next.

    Parameters
    ----------
    count : int
        How many nodes there are; their ids are 1, 2, ..

    Returns
    -------
    networkx.Graph
        Each node has `pos`, (its id less 1, 0).
    """
    graph = _numbered(networkx.path_graph(count), range(count))
    networkx.set_node_attributes(graph, {node: (node - 1, 0) for node in graph}, "pos")
    return graph


def star(count: int) -> networkx.Graph:
    """Node 1 in the middle, linked to all other nodes.

    Parameters
    ----------
    count : int
        How many nodes there are, with the one in the middle.

    Returns
    -------
    networkx.Graph
        Each node has `pos`; those of the others are on a circle of radius 1.
    """
    graph = _numbered(networkx.star_graph(count - 1), range(count))
    networkx.set_node_attributes(graph, networkx.shell_layout(graph, [[1], sorted(set(graph) - {1})]), "pos")
    return graph


def random_geometric(count: int, radius: float, seed: int) -> networkx.Graph:
    """Nodes at random places of a square with side 1, linked where they are near each other.

    It may be in several parts: `networkx.is_connected` tells.

    Parameters
    ----------
    count : int
        How many nodes there are; their ids are 1, 2, ..
    radius : float
        The greatest distance of nodes that are linked, in sides of the square.
    seed : int
        The same seed gives the same graph.

    Returns
    -------
    networkx.Graph
        Each node has `pos`, its place.
    """
    return _numbered(networkx.random_geometric_graph(count, radius, seed=seed), range(count))
