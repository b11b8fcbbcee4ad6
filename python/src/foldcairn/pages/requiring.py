"""The requirements of plans that are put side by side, as rows. Tested, not proved."""

from __future__ import annotations

import os
from collections.abc import Mapping
from concurrent.futures import Executor
from dataclasses import replace
from pathlib import Path
from typing import Any, TextIO

import pandas as pd

from ..model.scenario import Scenario
from ..plan.network import PlanNetwork
from ..plan.plan import Plan
from ..requirements import cases, shown, verifying
from . import plan_words


def _plans(networks: Mapping[str, Scenario]) -> dict[str, Plan]:
    """Of the networks that are of plan files the plans, with the requirements that are about one case."""
    found: dict[str, Plan] = {}
    for name, network in networks.items():
        drawer = network.drawer if isinstance(network, PlanNetwork) and network.by_seed() is not None else None
        if drawer is not None:
            ours = [one for one in drawer.plan.requirements if not cases.is_of_several(one)]
            found |= {name: replace(drawer.plan, requirements=ours)} if ours else {}
    return found


def verdicts(
    networks: Mapping[str, Scenario], seeds: int, executor: Executor | None, results: str | os.PathLike[str] | None, progress: bool | TextIO
) -> pd.DataFrame:  # fmt: skip
    """A row for each plan and requirement: `plan`, and what `planning.verdicts` has of it by so many draws."""
    folder = None if results is None else Path(results) / "requirements"
    tables = [
        verifying.verdicts(plan, seeds, folder=folder, executor=executor, progress=progress).assign(plan=name) for name, plan in _plans(networks).items()
    ]  # fmt: skip
    columns = ["plan", *verifying.COLUMNS]
    return pd.concat(tables, ignore_index=True)[columns] if tables else pd.DataFrame(columns=columns)


def rows(networks: Mapping[str, Scenario], told: pd.DataFrame) -> list[dict[str, Any]]:
    """A row for each requirement that a plan has: its name, what it asks for, and for each plan the verdict in words; plans that have one
    of this name may ask for other numbers, and then each says its own."""
    plans = _plans(networks)
    asked = {(name, one.name): plan_words.asked(plan, one) for name, plan in plans.items() for one in plan.requirements}
    found = []
    for requirement in dict.fromkeys(told["requirement"]):
        sentences = {name: asked[name, requirement] for name in networks if (name, requirement) in asked}
        alike = len(set(sentences.values())) == 1
        ours = {row["plan"]: row for row in told[told["requirement"] == requirement].to_dict("records")}
        cells = [_cell(ours.get(name), "" if alike else sentences.get(name, "")) for name in networks]
        found.append({"name": requirement, "asked": next(iter(sentences.values())) if alike else "", "cells": cells})
    return found


def _cell(row: Mapping[str, Any] | None, asked: str) -> dict[str, str]:
    """What a plan has of a requirement."""
    if row is None:
        return {"state": "none", "verdict": "not required", "words": "", "asked": ""}
    value = "" if pd.isna(row["value"]) else f"{shown.number(row['value'], row['unit'])} ({shown.interval(row)})"
    return {"state": row["verdict"].replace(" ", "-"), "verdict": row["verdict"], "words": value, "asked": asked}
