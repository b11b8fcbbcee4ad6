"""Plans side by side: their requirements as rows and the chart of the answers; and how the numbers of a sample spread."""

from __future__ import annotations

import re
from collections.abc import Iterator
from concurrent.futures import Executor, ThreadPoolExecutor
from dataclasses import replace
from pathlib import Path

import numpy as np
import pandas as pd
import pytest
from plans import asked, plan

from foldcairn import planning, report
from foldcairn.draw import plan_charts, style
from foldcairn.pages import compare, requiring
from foldcairn.plan import Plan

LEVELS = asked("levels", tag="level", share=0.6)


@pytest.fixture(scope="module")
def threads() -> Iterator[Executor]:
    with ThreadPoolExecutor(2) as pool:
        yield pool


@pytest.fixture(scope="module")
def plans() -> dict[str, Plan]:
    """A pump house, and one that sends once in a flood, wants more and has another requirement."""
    other = plan(asked("levels", tag="level", share=0.999) + asked("members", joined=90.0) + asked("nodes", tag="level", share=0.5, when="any one node fails"))
    return {"as it is": plan(LEVELS), "<once>": replace(other, settings=replace(other.settings, sends=1))}


@pytest.fixture(scope="module")
def compared(plans: dict[str, Plan], threads: Executor) -> compare.Comparison:
    return report.compare(plans, seeds=range(1, 9), by="sample", executor=threads, progress=False)


def test_the_requirements_of_plans_as_rows(compared: compare.Comparison, plans: dict[str, Plan], threads: Executor) -> None:
    told = compared.requirements
    # That about any one node is left out: each failure has draws of its own.
    assert told[["plan", "requirement"]].values.tolist() == [["as it is", "levels"], ["<once>", "levels"], ["<once>", "members"]]
    assert told["value"].iloc[0] == planning.verdicts(plans["as it is"], 8, executor=threads, progress=False)["value"].iloc[0]
    text = re.sub(r"base64,[^\"]*", "", compared.html)
    row = text[text.index("<b>levels</b>") : text.index("<b>members</b>")]
    # Where plans ask for other numbers each says its own.
    assert "60 % or more of the packets of tank come within 25 s." in row and "99.9 % or more" in row
    assert '<b class="none">not required</b>' in text[text.index("<b>members</b>") :] and "&lt;once&gt;" in text and "<once>" not in text
    assert "transmissions of a node in a flood, at most (sends)" in text
    links = re.findall(r'href="#([^"]+)"', text)
    assert {"differences", "answers", "requirements", "run"} <= set(links) and all(f'id="{link}"' in text for link in links)


def test_networks_without_a_plan_have_no_requirements(plans: dict[str, Plan], undrawn: None, threads: Executor) -> None:
    # A network that is changed after its plan made it is one as any other.
    made = plans["as it is"].network().off("pump", seconds=300)
    told = report.compare({"A": made, "B": plan("").network()}, seeds=[1, 2], by="sample", executor=threads, progress=False)
    assert told.requirements.empty and 'id="requirements"' not in told.html and requiring.rows({"A": made}, told.requirements) == []


def test_the_chart_of_answers() -> None:
    table = pd.DataFrame([
        {"answer": "of what was put was delivered", "unit": "%", "A": 60.0, "A ±": 2.0, "B": 70.0, "B ±": np.nan, "better": "B"},
        {"answer": "median latency", "unit": "s", "A": np.nan, "A ±": np.nan, "B": 5.0, "B ±": 1.0, "better": ""},
        {"answer": "outage", "unit": "s", "A": np.nan, "A ±": np.nan, "B": np.nan, "B ±": np.nan, "better": ""},
    ])  # fmt: skip
    figure = plan_charts.compared(table, ["A", "B"])
    first, second = figure.axes
    assert first.get_title(loc="left") == "of what was put was delivered, %" and second.get_title(loc="left") == "median latency, s"
    dots = [(line.get_xdata()[0], style.to_hex(line.get_color())) for line in first.lines]
    assert dots == [(60.0, plan_charts._LINE), (70.0, style.TRANSMITS)]
    assert first.collections[0].get_segments()[0][:, 0].tolist() == [58.0, 62.0]
    assert len(plan_charts.compared(pd.concat([table] * 2), ["A", "B"], narrow=True).axes) == 4
    with pytest.raises(ValueError, match="no plan has an answer"):
        plan_charts.compared(table[2:], ["A", "B"])


def test_how_the_numbers_of_a_sample_spread(plans: dict[str, Plan], threads: Executor, tmp_path: Path, undrawn: None) -> None:
    sample = planning.sample(plans["as it is"], range(1, 9), executor=threads, progress=False)
    text = sample.write(tmp_path / "likely.html").read_text(encoding="utf-8")
    begin, end = text.index('id="spreads"'), text.index('id="map"', text.index('id="spreads"'))
    titles = re.findall("<figcaption>([^<]*)<", text[begin:end])
    varied = [name for name in ("ratio_of_put", "latency_median_seconds", "dropped", "days") if sample.runs[name].nunique() > 1]
    assert len(titles) >= len(varied) > 0 and "Delivered, part of what was put" in titles
    links = re.findall(r'href="#([^"]+)"', text)
    assert len(links) == 5 and all(f'id="{link}"' in text for link in links)
