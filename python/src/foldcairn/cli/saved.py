"""The option `--save` of all commands of `python3 -m foldcairn` that write tables. Tested, not proved."""

from __future__ import annotations

import argparse
from collections.abc import Mapping
from pathlib import Path

import pandas as pd

from ..common.arguments import ArgumentError
from ..pages import saving
from ..runs import program
from .commands import Options


def add_option(parser: Options) -> None:
    """Adds the option to a command."""
    parser.add_argument(
        "--save", metavar="FILE", type=_target, action="append", default=[], help="write the tables into a file too, by its ending: .csv, .json, .xlsx "
        "(Excel), .parquet, or .lp (the line protocol of InfluxDB, for Grafana); may be given again",
    )  # fmt: skip


def _target(words: str) -> Path:
    """The path of a file, before anything is run for it."""
    try:
        saving.format_of(Path(words))
    except ArgumentError as error:
        raise argparse.ArgumentTypeError(str(error)) from error
    return Path(words)


def write(chosen: argparse.Namespace, tables: Mapping[str, pd.DataFrame], name: str, seed: int | None = None) -> None:
    """Writes the tables into each file that is named; `name` is what the plan or the scenario is called. Raises what `saving.save` raises."""
    for path in chosen.save:
        saving.save(tables, path, versions=program.versions(), seed=seed, name=name)
