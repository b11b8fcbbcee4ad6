"""The planner's page: a plan on a map, with what the proved program delivers while a node is moved (docs/STUDIO.md).

    from foldcairn import studio
    studio.write("plan.toml", "studio.html")

Tested, not proved.
"""

from __future__ import annotations

import os
from pathlib import Path
from typing import TYPE_CHECKING

from .module import NotThere

if TYPE_CHECKING:
    from ..plan import Plan

__all__ = ["NotThere", "text", "write"]


def write(plan: Plan | str | os.PathLike[str] | None, path: str | os.PathLike[str]) -> Path:
    """Writes the page of a plan into a file.

    Parameters
    ----------
    plan : Plan, path or None
        The plan, or its file; None for an example.
    path : path
        The file of the page, which is replaced where it is there.

    Returns
    -------
    pathlib.Path
        The path of the page.

    Raises
    ------
    PlanError
        Where the plan is none.
    NotThere
        Where this copy has no WebAssembly module.
    OSError
        Where a file can't be read or written.
    """
    # Here, since other commands have no need of jinja2.
    from . import writing

    return writing.write(plan, path)


def text(plan: Plan | str | os.PathLike[str] | None = None) -> str:
    """The text of the page of a plan: the same plan gives the same text.

    Parameters
    ----------
    plan : Plan, path or None
        The plan, or its file; None for an example.

    Returns
    -------
    str
        One HTML document, which needs no other file.

    Raises
    ------
    PlanError
        Where the plan is none.
    NotThere
        Where this copy has no WebAssembly module.
    OSError
        Where a file can't be read.
    """
    from . import writing

    return writing.text(plan)
