"""The tables of a plan's report: its settings, streams and nodes, and failures. Tested, not proved."""

from __future__ import annotations

from collections.abc import Sequence
from typing import Any

import pandas as pd
from markupsafe import Markup

from ..draw import maps, plan_charts
from ..model import lines
from ..model.scenario import Scenario
from ..plan.model import Stream
from ..plan.plan import Plan
from ..requirements import shown
from ..requirements.drawn import Drawn
from . import markup, plan_words

_SOURCES = {
    "survey": "what was measured", "positions": "a model of path loss, drawn by each seed", "both": "what was measured, and a model where nothing was",
    "none": "none: each link passes all",
}  # fmt: skip


def about(plan: Plan, network: Scenario) -> str:
    """What a plan is, in a sentence."""
    floors = {node.floor for node in plan.nodes.values() if not node.candidate}
    where = f" on {len(floors)} floors" if len(floors) > 1 else ""
    hosts = [host.node for host in sorted(plan.hosts, key=lambda host: host.rank)]
    return (
        f"{len(network.nodes)} nodes{where}, {len(network.links):,} links, {len(plan.streams)} streams; {plan_words.listed(hosts)} "
        f"{'hosts' if len(hosts) == 1 else 'host, in this order'}. A run is of {plan.settings.hours:g} h."
    )


def of_draws(seeds: Sequence[int]) -> str:
    """Draws in words."""
    return f"{len(seeds)} draws, seeds {seeds[0]} to {seeds[-1]}" if len(seeds) > 1 else f"one draw, seed {seeds[0]}"


def settings(plan: Plan) -> dict[str, str]:
    """The settings of a plan, in words."""
    one, frame = plan.settings, lines.frame_seconds(plan.settings.profile)
    kept = "none" if one.keep_alive is None else f"each {one.keep_alive:g} s, of streams whose packets come more seldom"
    ranks = [f"{host.node} (rank {host.rank})" for host in sorted(plan.hosts, key=lambda host: host.rank)]
    return {
        "Profile": f"{one.profile}, with frames of {frame} s", "Transmissions of a node in a flood, at most": str(one.sends),
        "Contention slots of a round": str(one.contend or 1), "Length of a run": f"{one.hours:g} h", "Hosts": plan_words.listed(ranks, len(ranks)),
        "Keep-alive": kept, "Reception ratios by": _SOURCES[plan.losses.source],
        "Ids of nodes": "drawn by each seed" if one.vary_ids else "as the plan has them",
        "Draws of a verdict, at most": f"{one.seeds:,}",
    }  # fmt: skip


def _whom(stream: Stream) -> str:
    named = {"hosts": "the host", "all": "all nodes"}
    return named.get(stream.to, stream.to) if isinstance(stream.to, str) else plan_words.listed(stream.to, 3)


def _often(stream: Stream) -> str:
    if stream.every is not None:
        return f"each {stream.every:g} s"
    return f"at random, {stream.sporadic:g} s apart" if stream.sporadic is not None else f"at {len(stream.at)} times"


def streams(plan: Plan, drawn: Drawn) -> Markup:
    """The streams with what the draws show of them."""
    in_time = plan_charts.in_time(drawn)
    arrived = drawn.streams.groupby("stream")["arrived"].mean()
    median = drawn.latencies.groupby("stream")["seconds"].median()
    rows = [
        {
            "stream": one.name, "from": one.source, "to": _whom(one), "packets": _often(one), "interval": "" if one.interval is None else f"{one.interval} s",
            "deadline": "" if one.deadline is None else f"{one.deadline:g} s", "in time": shown.number(in_time.get(one.name), "of packets"),
            "came": shown.number(arrived.get(one.name), "of packets"), "median": f"{median[one.name]:.3g} s" if one.name in median else "-",
        }
        for one in plan.streams.values()
    ]  # fmt: skip
    return _short(pd.DataFrame(rows), ["stream"] if all(row["stream"] == row["from"] for row in rows) else [])


def nodes(plan: Plan, network: Scenario) -> Markup:
    """The nodes with their places, and how many hops they are from the host."""
    away, ids = maps.hops(network), {name: node for node, name in network.labels.items()}
    rows = [
        {
            "node": node.name, "id": ids[node.name], "floor": node.floor, "x": node.x, "y": node.y, "power": _power(node.powered), "tags": ", ".join(node.tags),
            "hops": "-" if (hops := away.get(ids[node.name])) is None else str(hops),
        }
        for node in plan.nodes.values() if not node.candidate
    ]  # fmt: skip
    one_floor = len({row["floor"] for row in rows}) == 1
    placed = any(row["x"] is not None for row in rows)
    return _short(pd.DataFrame(rows), ["floor"] * one_floor + ["x", "y"] * (not placed) + ["tags"] * (not any(row["tags"] for row in rows)), digits=1)


def _power(powered: str | float) -> str:
    return powered if isinstance(powered, str) else f"{powered:g} mAh"


def _short(table: pd.DataFrame, without: Sequence[str], digits: int = 3) -> Markup:
    return markup.table(table.drop(columns=list(without)), digits)


def failures(found: Any) -> Markup | None:
    """A table of failures, or that of nodes of what has several; None where there is none."""
    table = found if found is None or isinstance(found, pd.DataFrame) else found.nodes
    return None if table is None else markup.table(table)
