"""Fifteen questions that a planner asks about a survey, each answered by one call or one line, and the page about it."""

from __future__ import annotations

import base64
import gzip
import re
import warnings
from collections.abc import Callable, Iterator
from concurrent.futures import ThreadPoolExecutor
from dataclasses import replace
from functools import partial
from pathlib import Path
from types import SimpleNamespace
from typing import Any

import pandas as pd
import pytest
import survey
from browser import CHROMIUM, Browser
from matplotlib.figure import Figure
from networks import FAILOVER
from PIL import Image

import foldcairn
from conftest import REPOSITORY
from foldcairn import planning
from foldcairn.draw import plot
from foldcairn.model.scenario import Scenario
from foldcairn.pages import meanings, page, report

needs_chromium = pytest.mark.skipif(
    CHROMIUM is None, reason="chromium is missing; tools/setup-python.sh --optional installs it (apt-get install chromium)"
)


@pytest.fixture(scope="module")
def given() -> Iterator[SimpleNamespace]:
    """The network of the survey, its run, and a short one for what takes many runs; threads, since a process for each costs more."""
    warnings.simplefilter("ignore")
    network = survey.survey()
    with ThreadPoolExecutor(2) as pool:
        yield SimpleNamespace(
            network=network, log=foldcairn.run(network, seed=7, progress=False), short=survey.survey(3, hosts=(101, 106)),
            other=survey.survey(3, hosts=(106, 101)), many={"executor": pool, "progress": False, "seeds": [1]},
        )  # fmt: skip


# The questions of docs/PLANNING.md, in their order, and what the answer of the line that stands there has.
QUESTIONS: dict[str, Callable[[Any], bool]] = {
    "What part of the packets arrives at whichever host serves?":
        lambda table: len(table) == 26 and table["ratio_of_put"].between(0, 1).all(),
    "How long do packets take?": lambda table: len(table) == 26 and (table["deliveries"] == 0).any(),
    "Which sources are worst?": lambda table: len(table) == 3,
    "When had all nodes joined?": lambda times: times[0] < 60,
    "How long is the outage when the host fails?": lambda table: table["outage_seconds"][0] > 90 and bool(table["ended"][0]),
    "How long does a battery last?": lambda table: len(table) == 34 and (table["days"] > 1).all(),
    "Which link matters most?": lambda table: table[["one", "other"]].values.tolist()[0] == [151, 152],
    "Which relay matters most?": lambda table: set(table["node"]) == {124, 152},
    "How often should a node transmit in a flood?": lambda told: {"sends 1", "sends 1 ±", "sends 2", "better"} <= set(told.table),
    "How many more sensors fit?": lambda table: table["streams_left"].tolist() == [6],
    "What part of the alarms comes within 30 seconds?":
        lambda table: len(table) == 26 and set(table.query("source in @survey.ALARMS")["due"]) <= {1, 2},
    "Which nodes collide in contention?": lambda found: any("equal modulo" in one and "109 and 125" in one for one in found),
    "Where are the nodes, and what do their links lose?": lambda figure: isinstance(figure, Figure),
    "What do the radios do in one round?": lambda figure: isinstance(figure, Figure),
    "Plan A or plan B?": lambda told: told.table[["A", "B"]].notna().any().all(),
}  # fmt: skip


def lines() -> dict[str, str]:
    """The table of the page: its questions, and their lines."""
    text = (REPOSITORY / "docs" / "PLANNING.md").read_text()
    table = text[text.index("| question | line |") :].split("\n\n", 1)[0]
    return dict(re.findall(r"^\| (.+?\?) \| `(.+)` \|$", table, re.MULTILINE))


def quick(given: SimpleNamespace) -> dict[str, Any]:
    """What the lines of the page name. What takes many runs has fewer of them: less to cut or to add, one seed, and two plans, whose page
    is tried below."""

    def importance(network: Scenario, what: str = "links", **more: Any) -> pd.DataFrame:
        return planning.importance(network, what, candidates=[(151, 152), (101, 102)] if what == "links" else [124, 152], **more, **given.many)

    def compare(plans: dict[str, Scenario], path: str = "", **more: Any) -> object:
        return report.compare(dict(list(plans.items())[:2]), **{**more, **given.many})

    answers = {name: getattr(planning, name) for name in planning.__all__}
    answers |= {"importance": importance, "capacity": partial(planning.capacity, sources=[112], **given.many)}
    return {
        "planning": SimpleNamespace(**answers), "report": SimpleNamespace(compare=compare), "plot": plot, "replace": replace,
        "log": given.log, "network": given.short, "other": given.other, "places": survey.places(),
    }  # fmt: skip


def test_the_page_has_the_questions() -> None:
    assert list(lines()) == list(QUESTIONS) and len(QUESTIONS) == 15


@pytest.mark.parametrize("question", QUESTIONS)
def test_a_question(question: str, given: SimpleNamespace) -> None:
    told = eval(lines()[question], quick(given))
    assert QUESTIONS[question](told), told


def test_the_survey_is_one_of_34_nodes_and_180_links(given: SimpleNamespace, tmp_path: Path) -> None:
    assert len(given.network.nodes) == 34 and len(given.network.links) == 180
    # The same from files, as a planner has them.
    nodes, links, streams = survey.write(tmp_path)
    read = foldcairn.Scenario.from_tables(nodes, links, streams, frames=10, profile=2)
    assert (read.links, read.prr, read.hosts) == (given.network.links, given.network.prr, given.network.hosts)


# The page about it.


@pytest.fixture(scope="module")
def words(tmp_path_factory: pytest.TempPathFactory) -> dict[str, object]:
    path = tmp_path_factory.mktemp("site") / "site.png"
    Image.new("RGB", (16, 10), "#e8e4d8").save(path)
    return {
        "title": "Vineyard", "site": "North slope", "plan": "one backup", "notes": "For the cooperative.\n\nRatios of <March>.",
        "positions": survey.places(), "battery": {"capacity_mah": 2500, "receive_ma": 20}, "background": path,
        "extent": (-15, 145, -10, 90),
    }  # fmt: skip


@pytest.fixture(scope="module")
def text(given: SimpleNamespace, words: dict[str, object]) -> str:
    return page.text(given.log, **words)


def unpacked(text: str, name: str) -> str:
    found = re.search(f'<script type="application/gzip" id="{name}">([^<]*)</script>', text)
    assert found
    return gzip.decompress(base64.b64decode(found[1])).decode()


def test_the_page_has_the_names_the_notes_and_ten_lines(text: str) -> None:
    assert "<h1>Vineyard</h1>" in text and "Site: North slope · Plan: one backup" in text
    assert "<p>For the cooperative.</p><p>Ratios of &lt;March&gt;.</p>" in text
    findings = re.search(r'<ol class="findings">(.*?)</ol>', text, re.DOTALL)
    assert findings and findings[1].count("<li>") == 11
    for told in ("All that follows is of one draw, seed ", "arrive at whichever host serves", "2500 mAh", "20 mA while it is on",
                 "3 times a node was switched on again", "Rounds were opened by node 101", "s after the first start"):  # fmt: skip
        assert told in findings[1], told
    assert "26 streams of 26 nodes that ask for a slot every 10 to 50 s" in text and "node 101 is switched off" in text
    assert len(text) < 10_000_000 and "Battery life in days (2500 mAh" in text and "docs/PLANNING.md" not in text


def test_what_a_column_means_stands_next_to_it(given: SimpleNamespace, text: str) -> None:
    tables = planning.tables(given.log)
    for name in report.SHOWN:
        told = meanings.of_table(name, tables[name])
        assert [column for column in tables[name] if str(column) not in told] == [], name
    assert "<dt>outage_seconds</dt><dd>from the last delivery to the first, or to the end of the run" in text


@needs_chromium
def test_a_browser_shows_the_page_and_prints_it(browser: Browser, text: str, tmp_path: Path) -> None:
    path = tmp_path / "page.html"
    path.write_text(text)
    browser.open(path.as_uri())
    shown = "getComputedStyle(document.querySelector('%s')).display"
    assert browser.evaluate(shown % "#show-hosts ~ .shown") == "none" and browser.evaluate(shown % ".printed") == "none"
    browser.evaluate("document.getElementById('show-hosts').click()")
    assert browser.evaluate(shown % "#show-hosts ~ .shown") == "block"
    assert browser.evaluate("fetch(document.getElementById('save-settings').href).then((answer) => answer.text())") == unpacked(text, "settings")
    # In print tables are open, buttons are gone, and nothing is wider than the page, which stands upright: 702 pixels between the margins.
    browser.call("Emulation.setEmulatedMedia", media="print")
    browser.call("Emulation.setDeviceMetricsOverride", width=702, height=1032, deviceScaleFactor=1, mobile=False)
    assert browser.evaluate(shown % "#show-joins ~ .shown") == "block" and browser.evaluate(shown % "#timeline") == "none"
    assert browser.evaluate(shown % ".buttons") == "none" and browser.evaluate(shown % ".printed") == "block"
    assert browser.evaluate("Math.max(...[...document.querySelectorAll('table, img, pre')].map((one) => one.getBoundingClientRect().right))") <= 702
    assert browser.evaluate("Math.max(...[...document.querySelectorAll('img')].map((one) => one.getBoundingClientRect().height))") <= 1032
    pdf = base64.b64decode(browser.call("Page.printToPDF", preferCSSPageSize=True)["data"])
    assert pdf.startswith(b"%PDF") and len(re.findall(rb"/Type\s*/Page\b", pdf)) > 10
    assert browser.console == []
    browser.call("Emulation.setEmulatedMedia", media="")
    browser.call("Emulation.clearDeviceMetricsOverride")


# Plans side by side.


@needs_chromium
def test_plans_side_by_side(browser: Browser, given: SimpleNamespace, tmp_path: Path) -> None:
    plans = {name: foldcairn.Scenario.read(FAILOVER.replace("off 6 1", f"off {frame} 1")).link(3, 1, 0.9) for name, frame in (("A", 6), ("B", 12))}
    told = report.compare(
        plans, tmp_path / "plans.html", executor=given.many["executor"], progress=False, seeds=[1, 2], site="North slope",
        notes="In B the host lasts longer.", positions={1: (0, 0), 2: (1, 0), 3: (0, 1)}, results=tmp_path / "kept",
    )  # fmt: skip
    assert len(told.runs) == 4 and len(list((tmp_path / "kept").iterdir())) == 4
    assert (tmp_path / "plans.html").read_text() == told.html and repr(told) == "<Comparison of A, B: 2 seeds>"
    browser.call("Page.navigate", url=(tmp_path / "plans.html").as_uri())
    browser.wait("document.readyState === 'complete' && document.images.length === 4")
    assert browser.evaluate("[...document.images].every((image) => image.complete && image.naturalWidth > 200)")
    heads = browser.evaluate("[...document.querySelectorAll('.answers thead th')].map((one) => one.textContent)")
    assert heads == ["", "A", "B", "better"]
    assert browser.evaluate("document.querySelectorAll('.answers tbody tr').length") == len(told.table) == 11
    assert "± " in browser.evaluate("document.querySelector('.answers tbody td').textContent")
    assert browser.evaluate("document.body.textContent.includes('The radios of plan B where its host fails')")
    # The map of both is the same, and what differs is named.
    heads = browser.evaluate("[...document.querySelectorAll('.figure h2')].map((one) => one.textContent)")
    assert heads[:2] == ["The answers, drawn", "The network, all plans"]
    differ = browser.evaluate("[...document.querySelectorAll('.differences td')].map((one) => one.textContent)")
    assert differ[:2] == ["At 24 s node 1 is switched off.", "At 48 s node 1 is switched off."]
    assert pd.isna(told.table["A"]).sum() < 6
