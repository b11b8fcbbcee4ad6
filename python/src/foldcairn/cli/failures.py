"""The commands of `python3 -m foldcairn` about the nodes that a plan has or may have: `failures` of any one, and `relays` at candidate places.

Tested, not proved.
"""

from __future__ import annotations

import argparse
from pathlib import Path

from ..common import files
from ..pages import report
from ..requirements import failing, failing_text, relaying
from ..runs import program
from . import commands, saved, verify
from .commands import Commands


def add_commands(listed: Commands) -> None:
    """Adds the commands to those of `python3 -m foldcairn`."""
    _add_failures(listed)
    _add_relays(listed)


def _add_failures(listed: Commands) -> None:
    parser = commands.add(
        listed, "failures", _failures,
        "Says what breaks where any one node or host of a plan fails: which requirements, for whom and for how long, and which nodes are cut off. The status "
        "is 0 where nothing breaks, 10 where a failure breaks a requirement, and 11 where none does and some are not decided.",
    )  # fmt: skip
    verify.add_draws(parser, "how many draws of a failure there may be at most, 1 to 10,000 (32 without it, or those of the plan if they are fewer)")
    parser.add_argument("--nodes", metavar="NODE,NODE,..", help="the nodes that fail, or hosts for the hosts; all without it")
    parser.add_argument("--at", type=float, metavar="S", help="when each fails, in seconds of the run (after a third of it without it)")
    parser.add_argument("--for", dest="duration", type=float, metavar="S", help="for how many seconds; for good without it")
    parser.add_argument("--least-ratio", type=float, default=0.5, metavar="R", help="the least ratio of links that count for who is cut off (0.5 without it)")
    parser.add_argument("-o", "--output", metavar="FILE", type=_picture, help="write a map of it too: svg, png or pdf")
    saved.add_option(parser)


def _failures(chosen: argparse.Namespace) -> int:
    plan = verify.plan_of(chosen.file)
    names = chosen.nodes if chosen.nodes == "hosts" else _listed(chosen.nodes)
    found = failing.failures(
        plan, names, chosen.at, chosen.duration, chosen.seeds, chosen.jobs, chosen.resume, least_ratio=chosen.least_ratio,
    )  # fmt: skip
    tables = {"failures": found.nodes, "failed-requirements": found.requirements}
    if chosen.json:
        files.write(chosen.json, report.as_json(tables, program.versions()).encode())
    saved.write(chosen, tables, plan.settings.name or Path(chosen.file).stem)
    if chosen.output:
        from ..draw import plot

        plot.save(plot.failures(found), chosen.output)
    commands.say(failing_text.text(found))
    return found.status()


def _add_relays(listed: Commands) -> None:
    parser = commands.add(
        listed, "relays", _relays,
        "Says what a relay mends at each candidate place of a plan, of the requirements that are not met: those places first that mend the most. The status "
        "is 0 where nothing is broken or a place mends all of it, and 10 where none does.",
    )  # fmt: skip
    verify.add_draws(parser, "how many draws there may be of each at most, 1 to 10,000 (32 without it, or those of the plan if they are fewer)")
    parser.add_argument("--candidates", metavar="NODE,NODE,..", help="the candidates; all nodes with `candidate = true` without it")
    parser.add_argument("--grid", type=float, metavar="M", help="in place of candidates, places on a grid with so many metres between them")
    parser.add_argument("-o", "--output", metavar="FILE", type=_picture, help="write a map of it too: svg, png or pdf")
    saved.add_option(parser)


def _relays(chosen: argparse.Namespace) -> int:
    plan = verify.plan_of(chosen.file)
    found = relaying.relays(plan, _listed(chosen.candidates), chosen.grid, chosen.seeds, chosen.jobs, chosen.resume)
    tables = {"relays": found.places, "mended-requirements": found.requirements}
    if chosen.json:
        files.write(chosen.json, report.as_json(tables, program.versions()).encode())
    saved.write(chosen, tables, plan.settings.name or Path(chosen.file).stem)
    if chosen.output:
        from ..draw import plot

        plot.save(plot.relays(found), chosen.output)
    commands.say(failing_text.of_relays(found))
    return found.status()


def _picture(words: str) -> str:
    """The name of a picture's file, before anything is run for it."""
    if not words.lower().endswith((".svg", ".png", ".pdf")):
        raise argparse.ArgumentTypeError(f"{words!r} ends with none of .svg, .png and .pdf")
    return words


def _listed(words: str | None) -> list[str] | None:
    """The names of a list with commas."""
    return None if words is None else [name.strip() for name in words.split(",")]
