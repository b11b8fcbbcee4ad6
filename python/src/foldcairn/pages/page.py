"""A report of a run as one HTML file that stands alone, to be looked at in a browser and passed on.

    from foldcairn import page, results

    page.write(results.log(scenario), "report.html")

It has the main numbers, a timeline to zoom from the whole run down to the steps of one flood, the pictures of `plot`, the
tables of `planning`, the scenario, and how to make it again. Nothing is loaded from elsewhere. What is large in it is
compressed: it needs a browser of 2023 or later. Tested, not proved.
"""

from __future__ import annotations

import base64
import gzip
import hashlib
import html
import json
import os
from collections.abc import Callable
from dataclasses import replace
from functools import cache, partial
from pathlib import Path
from typing import Any

import numpy as np
import pandas as pd
import plotly.graph_objects as graph
import plotly.offline
from matplotlib.figure import Figure

from .. import planning
from ..answers import findings, happens, radio, timing, workload
from ..answers.rounds import rounds
from ..common import files
from ..common.version import version
from ..draw import plot, style
from ..draw.timeline import DETAIL_SECONDS
from ..model import lines
from ..model.scenario import Scenario
from ..runs.packets import Data, Packet, Request
from ..runs.required import of_log
from ..runs import results
from ..runs.results import Log
from . import markup, meanings, notebook, titles as titling
from .settings import Settings

_HALF = 0.32
_EVENTS_MOST, _CAUTIONS_MOST = 200, 20
# So many transmissions, receptions and times of radios a page keeps one by one, which is some 10 MB of it.
KEPT_MOST = 800_000
# Seen on light and on dark ground.
_OFF = "rgba(127, 140, 160, 0.2)"


@of_log
def write(log: Log, path: str | os.PathLike[str], **given: Any) -> Path:
    """Writes the page of a run into a file.

    The same run and words give the same bytes. A link to the page may end with `#from=S&to=S`, two times in seconds, and the page
    then begins there.

    Parameters
    ----------
    log : results.Log
        The run.
    path : path
        The file, which is replaced where it is there.
    **given
        `title`, `site` and `plan`: the title, and the names of the site and of the plan, which stand below it. `notes`: text of your own, for
        instance for whom the page is; an empty line begins a paragraph. `positions`: places of the nodes for the map, as {id: (x, y)}.
        `background` and `extent`: a picture below the map, as in `plot.topology`. `receivers`: for whom packets are meant, in the forms of
        `foldcairn.receivers`; as the scenario says without it. `battery`: the words of `planning.battery_life`, as
        {"capacity_mah": 2500, "receive_ma": 20, "mains": [1], "target_days": 730}. `deadline`: a time in seconds; the summary says which part
        is delivered within it, and the picture of latencies marks it.

    Returns
    -------
    pathlib.Path
        The path of the file.

    Raises
    ------
    OSError
        Where a file can't be read or written.
    ValueError
        Where a node has no place, or a word is none of these.
    """
    return files.write(path, text(log, **given).encode())


@of_log
def text(log: Log, **given: Any) -> str:
    """The text of the page of a run.

    Parameters
    ----------
    log : results.Log
        The run.
    **given
        The words of `write`.

    Returns
    -------
    str
        One HTML document, which needs no other file.

    Raises
    ------
    OSError
        Where a file can't be read.
    ValueError
        Where a node has no place, or a word is none of these.
    """
    return of_settings(log, Settings.of(log.scenario, **given))


def of_settings(log: Log, settings: Settings) -> str:
    """The text of the page of a run, with settings that were made before.

    Parameters
    ----------
    log : results.Log
        The run.
    settings : settings.Settings
        What `Settings.of` makes of the words of `write`.

    Returns
    -------
    str
        One HTML document, which needs no other file.
    """
    # Of a network that a seed ran the ratios are all that tells the losses.
    scenario = (log.scenario.text if log.origin.seed is None else log.scenario.network_text)(warn=False)
    packed = {
        "plotly-script": _script(),
        "figure": _packed(overview(log).to_json()),
        "run": _packed(json.dumps(data(log), separators=(",", ":"))),
        "scenario": _packed(scenario),
        "settings": _packed(replace(settings, seed=log.origin.seed).text()),
    }
    return markup.page(
        "run.html", title=settings.title, site=settings.site, plan=settings.plan, notes=markup.paragraphs(settings.notes), about=about(log),
        findings=findings.of(log, receivers=settings.whom(), battery=settings.battery, deadline=settings.deadline),
        cautions=_cautions(log), numbers=_numbers(log, settings),
        workload=notebook.workload(log.scenario), streams=markup.table(workload.table(log.scenario)), events=_events(log.scenario),
        detail=f"{DETAIL_SECONDS:g}", height=_height(log.scenario), part=_part(log),
        timeline=markup.picture("The radios in the whole run", lambda: plot.timeline(log)),
        pictures=_pictures(log, settings), tables=_tables(log, settings), seed=log.origin.seed,
        draw=findings.draw(log.origin.seed), undrawn=log.scenario.is_to_be_drawn and log.origin.seed is None,
        by_ratios=log.scenario.is_to_be_drawn and log.origin.seed is not None,
        digest=hashlib.sha256(_bytes(scenario)).hexdigest(), program=log.origin.program, version=version(), packed=packed, code=markup.own("page.js"),
    )  # fmt: skip


def _bytes(text: str) -> bytes:
    """The bytes of a text, in which a name may have bytes that are no text."""
    return text.encode("utf-8", "surrogateescape")


def _packed(value: str) -> str:
    return base64.b64encode(gzip.compress(_bytes(value), 6, mtime=0)).decode()


@cache
def _script() -> str:
    """The script of plotly, compressed."""
    return _packed(plotly.offline.get_plotlyjs())


def about(log: Log) -> str:
    """What was run, in some sentences."""
    return (
        f"{about_network(log.scenario)} {len(log.transmissions):,} transmissions, {len(log.receptions):,} receptions, "
        f"{len(log.deliveries):,} deliveries."
    )


def about_network(scenario: Scenario) -> str:
    """What a network is, in two sentences."""
    hosts = ", ".join(f"{findings.node(scenario, node)} (rank {rank})" for rank, node in sorted(scenario.hosts.items())) or "none"
    return (
        f"{len(scenario.nodes)} nodes, {len(scenario.links)} links, hosts: {hosts}. {scenario.frames} frames of "
        f"{scenario.frame_seconds} s in profile {scenario.profile}: {scenario.seconds:,} s."
    )


def _cautions(log: Log) -> list[str]:
    """What of the run is hardly as it was meant, the first of it."""
    told = planning.cautions(log)
    return told[:_CAUTIONS_MOST] + [f"and {len(told) - _CAUTIONS_MOST} more, which `planning.cautions` has"] * (len(told) > _CAUTIONS_MOST)


def _events(scenario: Scenario) -> list[str]:
    """What happens after the start."""
    told = happens.sentences(scenario)
    return told[:_EVENTS_MOST] + [f"and {len(told) - _EVENTS_MOST} more, which the scenario has"] * (len(told) > _EVENTS_MOST)


# The main numbers, with their unit and how they are shown.
_NUMBERS: dict[str, tuple[str, Callable[[float], str]]] = {
    "ratio_of_put": ("of what was put was delivered at {whom}", lambda ratio: f"{100 * ratio:.1f} %"),
    "ratio_of_sent_while_on": ("of what was sent while the receiver had power", lambda ratio: f"{100 * ratio:.2f} %"),
    "latency_median_seconds": ("median latency", lambda seconds: f"{seconds:.1f} s"),
    "latency_p90_seconds": ("90 % are delivered within", lambda seconds: f"{seconds:.1f} s"),
    "all_joined_seconds": ("all nodes had joined after the first start", lambda seconds: f"{seconds:.1f} s"),
    "all_accepted_seconds": ("all streams were accepted after the first start", lambda seconds: f"{seconds:.1f} s"),
    "never_accepted": ("times that a stream was never accepted by a host, over all hosts", lambda count: f"{count:.0f}"),
    "outage_seconds": ("longest outage at a change of hosts, or to the end", lambda seconds: f"{seconds:.1f} s"),
    "duty_cycle": ("mean duty cycle", lambda ratio: f"{100 * ratio:.2f} %"),
    "duty_cycle_in_rounds": ("mean duty cycle in rounds", lambda ratio: f"{100 * ratio:.2f} %"),
}


def _numbers(log: Log, settings: Settings) -> list[dict[str, str]]:
    """The main numbers, each with its `value` and `words`."""
    summary = planning.summary(log, receivers=settings.whom())
    whom = findings.whom(log.scenario, settings.whom())
    return [
        {"value": "none" if np.isnan(summary[name]) else shown(summary[name]), "words": words.format(whom=whom)}
        for name, (words, shown) in _NUMBERS.items()
    ]


def _height(scenario: Scenario) -> int:
    """The height of the timeline in pixels."""
    return 130 + max(6, len(scenario.nodes)) * (26 if len(scenario.nodes) <= 30 else 16)


def _pictures(log: Log, settings: Settings) -> list[markup.Picture]:
    pairs = planning.delivery_ratio(log, "pair", receivers=settings.whom())
    drawn: list[tuple[str, Callable[[], Figure]]] = [
        ("The network", lambda: plot.topology(log.scenario, positions=settings.places(), background=settings.picture(), extent=settings.extent)),
        ("Delivery ratio of each stream at each node", lambda: plot.delivery(pairs)),
        ("Latencies", lambda: plot.latency(planning.latencies(log, receivers=settings.whom()), deadline_seconds=settings.deadline)),
        ("Radio time by purpose", lambda: plot.energy(planning.radio_time(log))),
        ("Outages", lambda: plot.outages(planning.outages(log, "stream"))),
    ]
    return [markup.picture(title, draw) for title, draw in drawn]


def _tables(log: Log, settings: Settings) -> list[markup.Section]:
    """The tables with what their columns mean, by their titles."""
    tables = planning.tables(log, receivers=settings.whom(), battery=settings.battery)
    titles = titling.titles(log, settings.whom(), settings.battery)
    return [markup.section(name, title, tables[name], meanings.of_table(name, tables[name])) for name, title in titles.items()]


# The timeline: an overview by plotly, and the data of what page.js draws in short windows.


def overview(log: Log) -> graph.Figure:
    """The whole run as a figure of plotly: rounds and searches by the ranks' channels, openings, and times without power."""
    row = {node: place for place, node in enumerate(sorted(log.scenario.nodes))}
    name = partial(_name, log.scenario)
    figure = graph.Figure()
    pauses, spells = timing.pauses(log), timing.spells(log)
    _add(figure, pauses, row, "no power", _OFF, 0.5, [f"{name(one.node)} has no power" for one in pauses.itertuples()])
    delivered = _delivered(log)
    for rank in sorted(spells["rank"].unique()):
        ours = spells[spells["rank"] == rank]
        told = [f"{name(one.node)} {_told(one, delivered, log.scenario.frame_seconds)}" for one in ours.itertuples()]
        _add(figure, ours, row, f"radio on, channel of rank {rank}", style.RANKS[rank], _HALF, told)
    opened = rounds(log).rename(columns={"host": "node"})
    opened["end_seconds"] = opened["start_seconds"]
    told = [f"{name(one.node)} opens the round of frame {one.frame}: {one.data_slots} data slots" for one in opened.itertuples()]
    _add(figure, opened, row, "opens a round", style.TRANSMITS, 0.46, told, 2.0)
    names = {rank: f"host {rank}, " for rank in log.scenario.hosts}
    ranks = {node: rank for rank, node in log.scenario.hosts.items()}
    labels = [f"{names.get(ranks.get(node, -1), '')}{name(node)}" for node in row]
    figure.update_layout(
        margin={"l": 110, "r": 20, "t": 40, "b": 90}, hovermode="closest", dragmode="zoom", plot_bgcolor="rgba(0,0,0,0)",
        paper_bgcolor="rgba(0,0,0,0)", legend={"orientation": "h", "yanchor": "top", "x": 0}, showlegend=True,
        modebar={"bgcolor": "rgba(0,0,0,0)", "color": "#8b949e", "activecolor": style.RECEIVES},
        xaxis={"title": "seconds from the start of the run", "range": [0, log.scenario.seconds], "zeroline": False},
        yaxis={"tickvals": list(row.values()), "ticktext": labels, "range": [len(row) - 0.4, -0.6], "zeroline": False,
               "fixedrange": True, "showgrid": False},
    )  # fmt: skip
    return figure


def _name(scenario: Scenario, node: int) -> str:
    """A node in a text of plotly."""
    return _escaped(findings.node(scenario, node))


def _escaped(text: str) -> str:
    """A text that plotly shows as it is: it reads tags, as of bold letters and links."""
    return html.escape(text, quote=False)


def _add(
    figure: graph.Figure, table: pd.DataFrame, row: dict[int, int], name: str, colour: str, half: float, told: list[str],
    edge: float = 1.0,
) -> None:  # fmt: skip
    """A trace of bars, each a closed shape; its edge, in pixels, makes the shortest of them visible."""
    start, end = table["start_seconds"].to_numpy(), table["end_seconds"].to_numpy()
    middle = table["node"].map(row).to_numpy(dtype="float64")
    gap = np.full(len(table), np.nan)
    x = np.stack([start, end, end, start, start, gap], axis=1).ravel()
    y = np.stack([middle - half, middle - half, middle + half, middle + half, middle - half, gap], axis=1).ravel()
    numbers = [None if np.isnan(value) else round(float(value), 6) for value in x], [None if np.isnan(value) else value for value in y]
    figure.add_trace(
        graph.Scatter(
            x=numbers[0], y=numbers[1], name=name, mode="lines", fill="toself", fillcolor=colour, hoveron="points", hoverinfo="text",
            line={"color": colour, "width": edge}, text=[words for words in told for _ in range(6)],
        )
    )  # fmt: skip


def _delivered(log: Log) -> dict[tuple[int, int, int], int]:
    counts = log.deliveries.groupby(["node", "rank", "frame"], as_index=False).size()
    return {(one.node, one.rank, one.frame): one.size for one in counts.itertuples(index=False)}


def _told(spell: Any, delivered: dict[tuple[int, int, int], int], frame_seconds: int) -> str:
    if spell.searching:
        return f"searches for a host of rank {spell.rank}"
    frame = int(spell.start_seconds // frame_seconds)
    count = delivered.get((spell.node, spell.rank, frame), 0)
    return f"in the round of frame {frame}: {count} packets delivered"


def kept_seconds(log: Log) -> float:
    """Up to when a page keeps slots, packets and single times of radios, in whole frames; of most runs it is the end of the run."""
    starts = np.concatenate([table["start_ticks"].to_numpy() for table in (log.tunings, log.transmissions, log.receptions)])
    if len(starts) <= KEPT_MOST:
        return float(log.scenario.seconds)
    frame = int(np.partition(starts, KEPT_MOST)[KEPT_MOST]) // lines.frame_ticks(log.scenario.profile)
    return float(max(1, frame) * log.scenario.frame_seconds)


def _part(log: Log) -> str:
    """Which part of the run a page keeps in detail; no words where it is all of it."""
    kept = kept_seconds(log)
    if kept >= log.scenario.seconds:
        return ""
    return (
        f"The page keeps slots and packets from 0 s to {kept:,.0f} s, since all of the run, to {log.scenario.seconds:,} s, would make it too large for "
        "a browser; the picture of all rounds is of the whole run, and so are all numbers. `foldcairn timeline` draws any other part."
    )


def data(log: Log) -> dict[str, Any]:
    """What page.js draws windows of: times in ticks of 1/64 µs, starts as differences, nodes and packets by their places in
    `nodes` and `packets`."""
    nodes = sorted(log.scenario.nodes)
    row = {node: place for place, node in enumerate(nodes)}
    end = kept_seconds(log) * results.TICKS_A_SECOND
    slots, windows, sent, received = (
        table[table["start_ticks"] < end] for table in (timing.slots(log), radio.tunings(log), log.transmissions, log.receptions)
    )

    packets = log.packets[log.packets.index.isin(sent["packet"].unique())] if len(sent) < len(log.transmissions) else log.packets

    def bars(table: pd.DataFrame) -> dict[str, list[int]]:
        start = table["start_ticks"].to_numpy()
        return {
            "start": np.diff(start, prepend=0).tolist(),
            "length": (table["end_ticks"].to_numpy() - start).tolist(),
            "node": table["node"].map(row).tolist(),
        }

    def on_air(table: pd.DataFrame) -> dict[str, list[int]]:
        return {**bars(table), "packet": packets.index.get_indexer(table["packet"]).tolist()}

    return {
        "seconds": log.scenario.seconds,
        "detail": DETAIL_SECONDS,
        "nodes": nodes,
        "names": [_name(log.scenario, node) for node in nodes],
        "colours": {"listens": style.LISTENS, "receives": style.RECEIVES, "transmits": style.TRANSMITS},
        "slots": {
            **{name: slots[name].tolist() for name in ("start_ticks", "end_ticks", "frame", "rank", "slot")},
            "name": [_escaped(name) for name in slots["name"]],
        },
        "purposes": list(radio.PURPOSES),
        "tunings": {**bars(windows), "purpose": windows["purpose"].cat.codes.tolist()},
        "transmissions": on_air(sent),
        "receptions": {**on_air(received), "sender": received["sender"].map(row).tolist()},
        "packets": [_escaped(_named(log, packet)) for packet in packets["decoded"]],
        "steps": packets["step"].tolist(),
    }


def _named(log: Log, packet: Packet) -> str:
    where = f"slot {packet.slot}, step {packet.counter}"
    if isinstance(packet, Data):
        return f"data {log.scenario.stream_name(packet.node, packet.stream)} number {packet.number}, {where}"
    if isinstance(packet, Request):
        return f"request {log.scenario.stream_name(packet.node, packet.stream)} for {packet.interval} s, {where}"
    return f"{packet.kind}, {len(packet.owners)} data slots, {len(packet.acknowledgements)} acknowledged, {where}"
