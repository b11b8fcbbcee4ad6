"""Reports: plans side by side on one page, and all planning tables of one run as text, as CSV files or as JSON. Tested, not proved."""

from __future__ import annotations

import json
import os
from collections.abc import Mapping
from pathlib import Path
from typing import TYPE_CHECKING, Any

import pandas as pd

from ..common import arguments, files
from ..common.visible import csv
from ..model.scenario import Scenario
from .titles import SHOWN

if TYPE_CHECKING:
    from ..plan import Plan
    from .compare import Comparison


def compare(plans: Mapping[str, Scenario], path: str | os.PathLike[str] | None = None, **given: Any) -> Comparison:
    """Compares plans side by side on one page, over several seeds.

        report.compare({"A": a, "B": b}, "plans.html", seeds=range(1, 9))

    Parameters
    ----------
    plans : mapping
        Two or more networks by their names.
    path : path, optional
        Where the page is written; without it none is.
    **given
        The further words of `foldcairn.pages.compare.compare`.

    Returns
    -------
    compare.Comparison
        The answers, with their intervals.
    """
    from . import compare as comparing

    return comparing.compare(plans, path, **{name: arguments.settled(given[name]) if name in ("seeds", "receivers") else given[name] for name in given})


def of_plan(plan: Plan, path: str | os.PathLike[str], **given: Any) -> Path:
    """Writes the report of a plan for whoever decides on it, as one HTML file.

    It has what is required, what is met and how sure that is, the map, deadlines, batteries, failures, one draw and the plan.

        report.of_plan(Plan.read("plan.toml"), "report.html", notes="For the meeting on Monday.")

    Parameters
    ----------
    plan : Plan
        The plan.
    path : path
        The file, which is replaced where it is there.
    **given
        The further words of `foldcairn.pages.plan_report.write`.

    Returns
    -------
    pathlib.Path
        The path of the file.
    """
    from . import plan_report

    return plan_report.write(plan, path, **given)


def shown(tables: dict[str, pd.DataFrame], titles: Mapping[str, str] = SHOWN) -> str:
    """Tables as text, each below its title.

    Parameters
    ----------
    tables : dict
        By name each table, a `pandas.DataFrame`, as `planning.tables` has them.
    titles : mapping
        By name the title of each table that is shown, in their order.

    Returns
    -------
    str
        The text; numbers have three digits after the point, and a table without rows is `none`.
    """
    pieces = []
    for name, title in titles.items():
        table = tables[name]
        lines = table.to_string(index=False, float_format=lambda number: f"{number:.3f}", na_rep="-") if len(table) else "none"
        pieces.append(f"{title}\n\n{lines}\n")
    return "\n".join(pieces)


def write(tables: dict[str, pd.DataFrame], folder: Path) -> None:
    """Writes a file NAME.csv for each table.

    Files of these names are replaced. Texts are as `visible.csv` has them.

    Parameters
    ----------
    tables : dict
        By name each table, a `pandas.DataFrame`, as `planning.tables` has them.
    folder : path
        The folder, which is made if it is not there.

    Raises
    ------
    OSError
        Where a file can't be written.
    """
    folder.mkdir(parents=True, exist_ok=True)
    for name, table in tables.items():
        files.write(folder / f"{name}.csv", csv(table).encode())


def as_json(tables: dict[str, pd.DataFrame], versions: dict[str, str], seed: int | None = None) -> str:
    """Tables as one JSON object.

    Parameters
    ----------
    tables : dict
        By name each table, a `pandas.DataFrame`, as `planning.tables` has them.
    versions : dict
        The versions of the package and the programs, by name.
    seed : int, optional
        The seed of one draw.

    Returns
    -------
    str
        An object with `versions`, `seed` if there is one, and for each table a list with an object a row. What is missing is null.
    """
    rows = {name: json.loads(table.to_json(orient="records", double_precision=15)) for name, table in tables.items()}
    return json.dumps({"versions": versions, **({} if seed is None else {"seed": seed}), **rows}, indent=1) + "\n"
