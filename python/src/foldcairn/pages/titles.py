"""The tables that reports show, with their titles. Tested, not proved."""

from __future__ import annotations

from typing import Any

from ..answers import findings, service, tables
from ..model.receivers import Receivers
from ..runs.results import Log

# The titles of the tables that are shown as text and on pages, which begin with the hosts.
SHOWN = {one.name: one.title for one in sorted(tables.TABLES, key=lambda one: one.call is not service.hosts) if one.title}


def titles(log: Log, receivers: Receivers, battery: dict[str, Any]) -> dict[str, str]:
    """The titles of the tables that are shown.

    Parameters
    ----------
    log : results.Log
        The run, whose seed they name if its losses were drawn.
    receivers : optional
        For whom packets are meant, in the forms of `foldcairn.receivers`.
    battery : dict
        The words of `planning.battery_life`.

    Returns
    -------
    dict
        By the name of each table its title.
    """
    words = {"whom": findings.whom(log.scenario, receivers), "battery": findings.battery_words(log.scenario, battery)}
    draw = findings.draw(log.origin.seed)
    return {name: title + tables.NAMED[name].told.format(**words) + (f" ({draw})" if draw else "") for name, title in SHOWN.items()}
