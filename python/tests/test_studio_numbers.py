"""The numbers of the planner's page against those of the package and its program, to the digit: of random plans each draw in each case, and what the
tables show of them."""

from __future__ import annotations

import json
import math
import subprocess
from typing import Any

import numpy as np
import pytest
from studio_modules import HERE, MODULES, NODE, needs_node, plain
from test_studio_plans import random_text

from foldcairn.plan import Plan
from foldcairn.requirements import cases, drawn, measuring
from foldcairn.studio import given

pytestmark = needs_node
PLANS, SEEDS = 20, (1, 2)
_TOP = HERE.parents[1]

_REQUIREMENTS = """
[[requirement]]
name = "in time"
share = 0.9
deadline = 30
[[requirement]]
name = "everywhere"
ratio = 0.5
to = "all"
[[requirement]]
name = "batteries"
years = 2
[[requirement]]
name = "members"
joined = 40
[[requirement]]
name = "members again"
joined = 60
when = "{failing} fails"
at = 300
[[requirement]]
name = "takeover"
outage = 500
when = "any one host fails"
at = 250
[[requirement]]
name = "without it"
share = 0.8
deadline = 45
when = "{failing} fails"
in = 0.5
"""


def _asked(number: int) -> tuple[Plan, str]:
    text = random_text(number)
    names = list(Plan.parse(text).nodes)
    text += _REQUIREMENTS.format(failing=names[number % 3])
    return Plan.parse(text), text


def _of_page(texts: list[str]) -> list[Any]:
    """What the page's worker draws of plans, and what it shows of the draws."""
    lines = "".join(json.dumps({"schema": given.schema(), "event": given.event(), "text": text, "seeds": len(SEEDS)}) + "\n" for text in texts)
    words = [str(NODE), HERE / "studio_draws.mjs", MODULES, _TOP / "bin/foldcairn.wasm", _TOP / "tools/export/wasm/foldcairn.js"]
    ran = subprocess.run(words, input=lines, capture_output=True, text=True)
    assert ran.returncode == 0, ran.stderr
    return [plain(json.loads(line)) for line in ran.stdout.splitlines()]


def _is_as_measured(plan: Plan, found: dict[str, Any]) -> None:
    """The values of the requirements in each case and draw are those that `verify` measures."""
    places: dict[cases.Case, list[int]] = {}
    for place, requirement in enumerate(plan.requirements):
        for case in cases.of(plan, requirement):
            places.setdefault(case, []).append(place)
    ours = {(one["failed"], one["seconds"]): one for one in found["cases"]}
    assert len(ours) == len(places)
    for case, asked in places.items():
        one = ours[case.failed, case.seconds]
        assert one["requirements"] == asked
        due = measuring.measure(measuring.Task(plan, case, tuple(asked)), SEEDS)
        for draw, values in zip(one["draws"], due, strict=True):
            for there, wanted in zip(draw["requirements"], values, strict=True):
                close = {name: None if value is None else pytest.approx(value, rel=1e-12) for name, (value, _) in wanted.items()}
                assert there == {name: [close[name], packets] for name, (_, packets) in wanted.items()}, case


def _is_as_drawn(plan: Plan, found: dict[str, Any]) -> None:
    """What the tables of streams and nodes are made of is what the report of a plan has."""
    due = drawn.drawn(plan, SEEDS)
    shares, late, lives = (table.set_index(["seed", name]) for table, name in ((due.streams, "stream"), (due.latencies, "stream"), (due.batteries, "node")))
    (planned,) = (one["draws"] for one in found["cases"] if not one["failed"])
    for draw in planned:
        for name, stream in plan.streams.items():
            packets, in_time, arrived = shares.loc[(draw["seed"], name)]
            value = arrived if stream.deadline is None else in_time
            assert draw["streams"][name] == [None if math.isnan(value) else value, packets], name
            took = sorted(late["seconds"].loc[[(draw["seed"], name)]]) if (draw["seed"], name) in late.index else []
            assert _latencies(draw["latencies"][name]).tolist() == took, name
        for (seed, name), years in lives["years"].items():
            assert seed != draw["seed"] or draw["years"][name] == pytest.approx(years, rel=1e-12)
    for shown in found["shown"]["streams"]:
        values = [draw["streams"][shown["name"]][0] for draw in planned if draw["streams"][shown["name"]][0] is not None]
        assert shown["share"] == (pytest.approx(np.mean(values), rel=1e-12) if values else None)
        each = np.sort(np.concatenate([_latencies(draw["latencies"][shown["name"]]) for draw in planned]))
        for key, part in (("median", 0.5), ("most", 0.95)):
            assert shown[key] == (pytest.approx(each[math.ceil(part * len(each)) - 1], abs=1e-9) if len(each) else None)


def _latencies(told: dict[str, list[float]]) -> np.ndarray:
    return np.repeat(np.array(told["seconds"], dtype=float), np.diff(told["counts"], prepend=0).astype(int))


def test_draws_of_random_plans_are_those_of_the_program() -> None:
    asked = [_asked(number) for number in range(PLANS)]
    for (plan, _), found in zip(asked, _of_page([text for _, text in asked]), strict=True):
        _is_as_measured(plan, found)
        _is_as_drawn(plan, found)
