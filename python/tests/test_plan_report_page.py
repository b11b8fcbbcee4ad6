"""The report of a plan in a browser: how many pages it prints on, that nothing runs off a phone, and names that do harm elsewhere."""

from __future__ import annotations

import base64
import json
import re
from collections.abc import Iterator
from concurrent.futures import ThreadPoolExecutor
from dataclasses import replace
from pathlib import Path

import factory_hall
import pytest
from browser import CHROMIUM, Browser
from halls import HOSTILE
from plans import asked, pumps

from foldcairn.pages import plan_report
from foldcairn.plan import Plan

pytestmark = [
    pytest.mark.skipif(CHROMIUM is None, reason="there is no chromium"), pytest.mark.filterwarnings("ignore::foldcairn.scenario.ScenarioWarning"),
]  # fmt: skip
PAGES_MOST = 12
PHONE = 360


def opened(browser: Browser, path: Path, width: int = 1240, dark: bool = False) -> None:
    """Opens a page on a screen that is so wide."""
    browser.call("Emulation.setDeviceMetricsOverride", width=width, height=800, deviceScaleFactor=1, mobile=width < 700)
    browser.call("Emulation.setEmulatedMedia", features=[{"name": "prefers-color-scheme", "value": "dark" if dark else "light"}])
    browser.call("Page.navigate", url=path.as_uri())
    browser.wait(f"document.URL === {json.dumps(path.as_uri())} && document.readyState === 'complete'")


@pytest.fixture(autouse=True)
def _screen(browser: Browser) -> Iterator[None]:
    """Other tests have the screen as it was."""
    yield
    browser.call("Emulation.clearDeviceMetricsOverride")
    browser.call("Emulation.setEmulatedMedia", features=[])


@pytest.fixture(scope="module")
def hall(tmp_path_factory: pytest.TempPathFactory) -> Path:
    """The report of a factory hall of 48 nodes on two floors, with all that a report may have."""
    folder = tmp_path_factory.mktemp("hall")
    plan = Plan.read(factory_hall.write(folder, hours=0.1, seeds=1))
    with ThreadPoolExecutor(2) as pool:
        shown = plan_report.content(plan, charts=2, executor=pool, progress=False)
    assert shown.log is not None and len(shown.network.nodes) == 48
    path = folder / "report.html"
    path.write_text(plan_report.text(shown, notes="For the meeting."), encoding="utf-8")
    return path


def test_a_hall_of_48_nodes_prints_on_12_pages(browser: Browser, hall: Path) -> None:
    opened(browser, hall)
    told = browser.call("Page.printToPDF", preferCSSPageSize=True, printBackground=True)
    counts = [int(count) for count in re.findall(rb"/Type\s*/Pages\b[^>]*?/Count (\d+)", base64.b64decode(told["data"]))]
    assert 5 <= max(counts) <= PAGES_MOST
    style = hall.read_text(encoding="utf-8")
    assert 'content: "Page " counter(page) " of " counter(pages)' in style and "size: A4 portrait" in style


def test_nothing_runs_off_a_phone(browser: Browser, hall: Path) -> None:
    for width in (PHONE, 700, 1240):
        opened(browser, hall, width)
        assert browser.evaluate("document.scrollingElement.scrollWidth") <= width
    opened(browser, hall, PHONE)
    # What is wider is within what can be moved sideways; charts of rows are other ones, whose letters are not small.
    off = f"one.getBoundingClientRect().right > {PHONE + 1} && !one.closest('.wide')"
    assert browser.evaluate(f"[...document.querySelectorAll('body *')].filter(one => {off}).map(one => one.tagName)") == []
    # Of deadlines, batteries and one draw.
    narrow = "one.querySelector('source')?.srcset === one.querySelector('img').currentSrc"
    assert browser.evaluate(f"[...document.querySelectorAll('picture')].filter(one => {narrow}).length") == 3
    assert browser.console == []


def test_light_and_dark(browser: Browser, hall: Path) -> None:
    grounds = []
    for dark in (False, True):
        opened(browser, hall, dark=dark)
        grounds.append(browser.evaluate("getComputedStyle(document.body).backgroundColor"))
        # The first words, seen on their ground.
        assert browser.picture()[20:60, 200:500].std() > 5
    assert grounds == ["rgb(255, 255, 255)", "rgb(13, 17, 23)"]


def test_names_that_do_harm_elsewhere_are_words(browser: Browser, tmp_path: Path) -> None:
    """As names of nodes, of a stream, of a requirement and of the plan, of the site and in notes."""
    script, right_to_left, long, formula, wide = HOSTILE
    text = pumps(asked("it", streams=[script], share=0.9))
    plan = Plan.parse(text.replace('"tank"\nto = "hosts"', f'"tank"\nname = {json.dumps(script)}\nto = "hosts"'))
    again = {"gateway": script, "pump": right_to_left, "valve": long, "tank": formula}
    spelled = plan.text()
    for name, harm in again.items():
        spelled = spelled.replace(f'"{name}"', json.dumps(harm, ensure_ascii=False))
    made = Plan.parse(spelled.replace('"it"', json.dumps(script)))
    made.settings = replace(made.settings, name=script, site=wide)
    with ThreadPoolExecutor(2) as pool:
        shown = plan_report.content(made, seeds=8, charts=1, executor=pool, progress=False)
    path = tmp_path / "harm.html"
    path.write_text(plan_report.text(shown, notes=script), encoding="utf-8")
    for width in (1240, PHONE):
        opened(browser, path, width)
        assert browser.evaluate("document.scrollingElement.scrollWidth") <= width
    seen = browser.evaluate("document.body.textContent")
    assert all(harm in seen for harm in HOSTILE) and browser.evaluate("document.querySelectorAll('script').length") == 0
    assert browser.evaluate("document.title") == script and browser.console == []
