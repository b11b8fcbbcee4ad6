"""The commands of `python3 -m foldcairn` that write a file of a scenario or of its run: pictures and exports.

Tested, not proved.
"""

from __future__ import annotations

import argparse
import shlex

from . import commands
from .commands import Commands


def add_commands(listed: Commands) -> None:
    """Adds the commands to those of `python3 -m foldcairn`."""
    _add_timeline(listed)
    _add_topology(listed)
    _add_pcap(listed)
    _add_trace(listed)


def _add_timeline(listed: Commands) -> None:
    parser = commands.add(
        listed, "timeline", _timeline,
        "Draws what each radio does in a run. In a window of more than 12 s rounds are ticks; in a shorter one there are slots, "
        "and the steps of floods from some 60 ms down. The file's ending says whether it is SVG, PNG or PDF.",
    )  # fmt: skip
    commands.add_file(parser, "timeline.svg")
    commands.add_seed(parser)
    commands.add_window(parser)
    parser.add_argument("--nodes", metavar="NODE,NODE,..", help="only these nodes, by their ids or names")


def _timeline(chosen: argparse.Namespace) -> int:
    from ..draw import plot

    log = commands.log(chosen.file, chosen.seed)
    nodes = commands.nodes(chosen.nodes) if chosen.nodes else None
    plot.save(plot.timeline(log, start_seconds=chosen.start, end_seconds=chosen.end, nodes=nodes), chosen.output)
    return 0


def _add_topology(listed: Commands) -> None:
    parser = commands.add(
        listed, "topology", _topology,
        "Draws a map of a scenario: hosts, hops from the host, links, and what has failed. The file's ending says whether it is "
        "SVG, PNG or PDF.",
    )  # fmt: skip
    commands.add_file(parser, "topology.svg")
    commands.add_ratios(parser, "for the colours of links")
    commands.add_places(parser)
    parser.add_argument("--background", metavar="PNG", help="a picture below the map; it needs --places")
    parser.add_argument("--extent", metavar="L,R,B,T", help="where its left, right, lower and upper edges are, in the units of --places")
    parser.add_argument("--at", type=float, metavar="S", help="show which nodes have no power then, in seconds from the start")


def _topology(chosen: argparse.Namespace) -> int:
    from ..draw import plot

    scenario = commands.scenario(chosen.file)
    positions = commands.places(scenario, chosen.places)
    commands.set_ratios(scenario, chosen.ratios)
    planned = commands.plan(chosen.file)
    background, edges = (planned and not chosen.background and commands.picture(planned)) or (chosen.background, chosen.extent)
    if planned is not None and positions is None and background:
        positions = dict(scenario.places)
    drawn = plot.topology(scenario, positions=positions, at_seconds=chosen.at, background=background, extent=commands.extent(edges))
    plot.save(drawn, chosen.output)
    return 0


def _add_pcap(listed: Commands) -> None:
    parser = commands.add(
        listed, "pcap", _pcap,
        "Writes each transmission of a run into a capture for Wireshark and tshark, with times in nanoseconds. It prints the "
        "command that reads it, with the Lua script that decodes its packets.",
    )  # fmt: skip
    commands.add_file(parser, "run.pcap")
    commands.add_seed(parser)
    commands.add_window(parser)


def _pcap(chosen: argparse.Namespace) -> int:
    from ..pages import export

    count = export.pcap(commands.log(chosen.file, chosen.seed), chosen.output, start_seconds=chosen.start, end_seconds=chosen.end)
    command = shlex.join(["tshark", "-X", f"lua_script:{export.dissector()}", "-r", chosen.output])
    commands.say(f"{chosen.output}: {count} packets; read it by {command}\n")
    return 0


def _add_trace(listed: Commands) -> None:
    parser = commands.add(
        listed, "trace", _trace,
        "Writes a run as Chrome trace events, a track for each node, for ui.perfetto.dev or chrome://tracing. A file that ends "
        "with .gz is compressed.",
    )  # fmt: skip
    commands.add_file(parser, "trace.json.gz")
    commands.add_seed(parser)
    commands.add_window(parser)


def _trace(chosen: argparse.Namespace) -> int:
    from ..pages import export

    count = export.trace(commands.log(chosen.file, chosen.seed), chosen.output, start_seconds=chosen.start, end_seconds=chosen.end)
    commands.say(f"{chosen.output}: {count} events\n")
    return 0
