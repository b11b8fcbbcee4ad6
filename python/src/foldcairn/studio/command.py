"""The command `studio`: writes the planner's page of a plan, or opens it in a browser. Tested, not proved."""

from __future__ import annotations

import argparse
import tempfile
import webbrowser
from pathlib import Path

from ..cli import commands
from ..cli.commands import Commands, Failed, Unreadable
from ..common import files


def add_commands(listed: Commands) -> None:
    """Adds the command to those of `python3 -m foldcairn`."""
    parser = commands.add(
        listed, "studio", _studio, "The planner's page of a plan file: move a node, and see what holds. It is one HTML file with the programs in it, and "
        "needs no network; without -o it is opened in a browser.",
    )  # fmt: skip
    parser.add_argument("file", metavar="PLAN", nargs="?", help="a plan file; the page begins with an example without it")
    parser.add_argument("-o", "--output", metavar="FILE", help="the file that is written, in place of opening the page")


def _studio(chosen: argparse.Namespace) -> int:
    # Here, since jinja2 is not needed elsewhere.
    from . import writing

    try:
        text = writing.text(chosen.file)
    except OSError as error:
        raise Unreadable(f"{chosen.file} can't be read: {error.strerror or error}") from error
    if chosen.output is not None:
        target = files.write(chosen.output, text.encode())
        print(f"{target}: open it in a browser")
        return 0
    folder = Path(tempfile.mkdtemp(prefix="foldcairn-studio-"))
    target = files.write(folder / "studio.html", text.encode())
    if not webbrowser.open(target.as_uri()):
        raise Failed(f"no browser could be opened; the page is {target}, and -o FILE writes it elsewhere")
    print(f"{target} is opened in a browser")
    return 0
