"""The page of a run: what is in it, and what a browser makes of it, where Chromium is there."""

from __future__ import annotations

import base64
import gzip
import json
import re
from pathlib import Path

import numpy as np
import pytest
from browser import CHROMIUM, Browser
from networks import FAILOVER, log_of

from foldcairn.__main__ import main
from foldcairn.answers import findings
from foldcairn.draw import style
from foldcairn.model.scenario import Scenario
from foldcairn.pages import page
from foldcairn.pages.settings import Settings
from foldcairn.runs import results

needs_chromium = pytest.mark.skipif(
    CHROMIUM is None, reason="chromium is missing; tools/setup-python.sh --optional installs it (apt-get install chromium)"
)


@pytest.fixture(scope="module")
def log() -> results.Log:
    return log_of(FAILOVER)


@pytest.fixture(scope="module")
def given(page_given: dict[str, object]) -> dict[str, object]:
    return page_given


@pytest.fixture(scope="module")
def text(failover_page: str) -> str:
    return failover_page


def unpacked(text: str, name: str) -> str:
    found = re.search(f'<script type="application/gzip" id="{name}">([^<]*)</script>', text)
    assert found
    return gzip.decompress(base64.b64decode(found[1])).decode()


@pytest.fixture(scope="module")
def address(text: str, tmp_path_factory: pytest.TempPathFactory) -> str:
    path = tmp_path_factory.mktemp("page") / "page.html"
    path.write_text(text)
    return path.as_uri()


def message(browser: Browser) -> str:
    """What the page says below the timeline."""
    return str(browser.evaluate("document.getElementById('message').textContent"))


def words(browser: Browser, kind: str) -> list[str]:
    """The words of the timeline of one kind: the steps, or the names of slots."""
    return list(browser.evaluate(f"[...document.querySelectorAll('#timeline {kind}')].map((one) => one.textContent)"))


def near(picture: np.ndarray, colour: str) -> int:
    """How many pixels have about this colour."""
    wanted = [int(colour[at : at + 2], 16) for at in (1, 3, 5)]
    return int((np.abs(picture - wanted).max(axis=2) < 6).sum())


def test_a_page_stands_alone(log: results.Log, text: str) -> None:
    assert "<h1>failover</h1>" in text and "Site: a room · Plan: one backup" in text
    assert '<div class="notes"><p>For &lt;us&gt;.</p><p>In two parts.</p></div>' in text
    # Nothing is loaded: no address is in it.
    visible = re.sub(r'<script type="application/gzip".*?</script>|src="data:[^"]*"', "", text, flags=re.DOTALL)
    assert not re.findall(r"""(?:src|href)=["'](?!#)|url\(|@import|fetch\(|XMLHttpRequest|https?://""", visible)
    assert text.count('id="plotly-script"') == 1 and len(text) < 5_000_000
    assert unpacked(text, "scenario") == log.scenario.text(warn=False)


def test_what_the_timeline_has(log: results.Log, text: str) -> None:
    run = json.loads(unpacked(text, "run"))
    assert run["nodes"] == [1, 2, 3] and run["seconds"] == 128
    for name, table in (("transmissions", log.transmissions), ("receptions", log.receptions)):
        bars = run[name]
        assert np.cumsum(bars["start"]).tolist() == table["start_ticks"].tolist()
        assert bars["length"] == (table["end_ticks"] - table["start_ticks"]).tolist()
        assert [run["nodes"][place] for place in bars["node"]] == table["node"].tolist()
        assert [run["steps"][packet] for packet in bars["packet"]] == table["step"].tolist()
    first = run["packets"][run["transmissions"]["packet"][0]]
    assert first == "opening, 0 data slots, 0 acknowledged, slot 0, step 0"
    names = [trace["name"] for trace in json.loads(unpacked(text, "figure"))["data"]]
    assert names == ["no power", "radio on, channel of rank 0", "radio on, channel of rank 1", "opens a round"]


def test_a_run_with_nothing_to_show(undrawn: None) -> None:
    made = Scenario(8, nodes={1: 0, 2: 0}, hosts={0: 1})
    told = page.text(results.log(made), title="<b>")
    assert "the table has no rows" in told and "<h1>&lt;b&gt;</h1>" in told


def test_the_same_page_is_made_again(text: str, tmp_path: Path, capsys: pytest.CaptureFixture[str]) -> None:
    """From what the page itself has: its scenario and its settings, by the command that it names."""
    scenario, settings, again = tmp_path / "run.scenario", tmp_path / "run.page.json", tmp_path / "report.html"
    scenario.write_text(unpacked(text, "scenario"))
    settings.write_text(unpacked(text, "settings"))
    assert "python3 -m foldcairn report run.scenario --page run.page.json --html report.html" in text
    command = ["report", str(scenario), "--page", str(settings), "--html", str(again), "--csv", str(tmp_path / "tables")]
    assert main(command) == 0
    assert capsys.readouterr().out == "" and again.read_text() == text
    assert (tmp_path / "tables" / "packets.csv").is_file()


def test_settings_of_a_command(log: results.Log, given: dict[str, object], tmp_path: Path, monkeypatch: pytest.MonkeyPatch) -> None:
    notes, places = tmp_path / "notes.txt", tmp_path / "places.csv"
    notes.write_text(str(given["notes"]))
    places.write_text("id,x,y\n1,0,0\n2,1,0\n3,0,1\n")
    (tmp_path / "failover.scenario").write_text(FAILOVER)
    found = []
    monkeypatch.setattr(page, "of_settings", lambda log, settings: found.append(settings) or "")
    command = ["report", str(tmp_path / "failover.scenario"), "--html", str(tmp_path / "x.html"), "--site", "a room", "--plan", "one backup",
               "--notes", str(notes), "--places", str(places), "--receivers", "hosts", "--capacity-mah", "2500", "--receive-ma", "20",
               "--background", str(given["background"]), "--extent=-1,2,-1,2"]  # fmt: skip
    assert main(command) == 0
    assert found == [Settings.of(log.scenario, **{**given, "receivers": "hosts"})]
    assert main([*command, "--receivers", "9"]) == 0 and found[1].receivers == [9]
    assert main(["report", str(tmp_path / "failover.scenario"), "--receivers", "9"]) == 1


def test_a_page_with_mains_a_target_and_cautions(tmp_path: Path, undrawn: None) -> None:
    """Each is in the summary, and the page that is made again from its settings has them too."""
    (tmp_path / "run.scenario").write_text(FAILOVER.replace("on 0 3\n", "on 0 3\non 0 4\n").replace("node 3 0\n", "node 3 0\nnode 4 0\n"))
    path = tmp_path / "page.html"
    words = ["report", str(tmp_path / "run.scenario"), "--mains", "1,2", "--target-days", "30", "--deadline", "50"]
    assert main([*words, "--html", str(path)]) == 0
    told = path.read_text()
    summary = told[told.index("<h2") : told.index('<h2 id="workload"')]
    assert "on mains: node 1, node 2)" in summary and "0 of 2 batteries last the 30 days that are asked for" in summary
    # The packet of 80 s is due after the end. That of 0 s is delivered at 37 s at node 2, and at no other of the three.
    assert "Within the deadline of 50 s 33.3 % of the 3 that were due by the end arrive." in summary
    assert "<h3>Cautions</h3>" in summary and "node 4 has no link to or from any other node" in summary and "never joined a host: node 4" in summary
    assert "None was due by a deadline of 130 s" in " ".join(findings.of(log_of(FAILOVER), deadline=130))
    (tmp_path / "run.page.json").write_text(unpacked(told, "settings"))
    assert main(["report", str(tmp_path / "run.scenario"), "--page", str(tmp_path / "run.page.json"), "--html", str(tmp_path / "again.html")]) == 0
    assert (tmp_path / "again.html").read_text() == told
    # A run of which nothing is to be remarked.
    assert "Cautions" not in page.text(results.log(LINE_OF_TWO))


def test_words_that_no_page_has(log: results.Log) -> None:
    with pytest.raises(ValueError, match="`battery` has 'mah', and not one of capacity_mah, transmit_ma"):
        page.text(log, battery={"mah": 3})
    with pytest.raises(ValueError, match="`deadline` is 0"):
        page.text(log, deadline=0)
    with pytest.raises(ValueError, match="these are no settings of a page"):
        Settings.read("[]")


LINE_OF_TWO = "frames 8\nsends 2\nnode 1 0\nnode 2 0\nhost 0 1\npair 1 2\non 0 1\non 0 2\nstream 0 2 0 4\nput 0 2 0 aa\nput 5 2 0 bb\n"
STEPS = "4 transmissions, 3 receptions, 7 steps shown"


@needs_chromium
def test_a_browser_shows_the_whole_run(browser: Browser, address: str) -> None:
    browser.open(address)
    assert message(browser) == "From 0.0000 s to 128.0000 s, 3 nodes"
    picture = browser.picture()
    assert min(near(picture, colour) for colour in style.RANKS[:2]) > 500 and near(picture, style.TRANSMITS) > 20
    # All pictures are there, and the scenario can be saved.
    assert browser.evaluate("[...document.images].every((image) => image.complete && image.naturalWidth > 200)")
    assert browser.evaluate("fetch(document.getElementById('save').href).then((answer) => answer.text())") == Scenario.read(
        FAILOVER
    ).text(warn=False)
    assert browser.console == []


@needs_chromium
def test_a_phone_shows_the_page_in_its_width(browser: Browser, address: str) -> None:
    """390 pixels: nothing makes the page wider, and what is wide moves within it; a link of the contents leaves the timeline as it is."""
    browser.call("Emulation.setDeviceMetricsOverride", width=390, height=844, deviceScaleFactor=1, mobile=True)
    browser.open(address + "#from=37.033&to=37.041")
    assert browser.evaluate("document.documentElement.scrollWidth") == 390
    assert browser.evaluate("[...document.querySelectorAll('.wide')].some((one) => one.scrollWidth > one.clientWidth)")
    links = browser.evaluate("[...document.querySelectorAll('.contents a')].map((one) => one.getAttribute('href'))")
    assert len(links) == 10 and browser.evaluate(f"{links}.every((one) => document.querySelector(one) !== null)")
    browser.evaluate("document.querySelector('.contents a[href=\"#tables\"]').click()")
    browser.wait("location.hash === '#tables'")
    assert message(browser).endswith(STEPS)
    browser.call("Emulation.clearDeviceMetricsOverride")


@needs_chromium
def test_zooming_to_one_slot_shows_the_steps(browser: Browser, address: str) -> None:
    # Slot 1 of the round at 37 s, in which the host is gone: node 3 transmits in steps 0 and 2, node 2 in 1 and 3.
    browser.open(address + "#from=37.033&to=37.041")
    assert message(browser).endswith(STEPS)
    assert sorted(words(browser, ".textpoint")) == ["0", "0", "1", "1", "2", "2", "3"]
    assert "slot 1: data 3.0" in words(browser, ".annotation")
    picture = browser.picture()
    assert min(near(picture, colour) for colour in (style.LISTENS, style.RECEIVES, style.TRANSMITS)) > 500
    assert browser.console == []


@needs_chromium
def test_zooming_with_the_mouse(browser: Browser, address: str) -> None:
    browser.open(address)
    browser.evaluate("document.getElementById('timeline').scrollIntoView()")
    area = "document.querySelector('#timeline .nsewdrag').getBoundingClientRect()"
    left, top, width, height = browser.evaluate(f"(({{x, y, width, height}}) => [x, y, width, height])({area})")

    def at(share: float) -> tuple[float, float]:
        return left + share * width, top + height / 2

    # From the run to 10 s around the round at 37 s, and from there to a part in which slot 1 is.
    browser.drag(at(32 / 128), at(42 / 128))
    browser.wait("document.getElementById('message').textContent.includes('transmissions')")
    start, end = (float(number) for number in re.findall(r"[\d.]+(?= s)", message(browser))[:2])
    assert start == pytest.approx(32, abs=0.3) and end == pytest.approx(42, abs=0.3)
    browser.evaluate("Plotly.relayout('timeline', {'xaxis.range[0]': 37.033, 'xaxis.range[1]': 37.041}).then(() => 0)")
    browser.wait(f"document.getElementById('message').textContent.endsWith({STEPS!r})")
    assert browser.evaluate("location.hash") == "#from=37.033&to=37.041"
    browser.evaluate("document.getElementById('slot-on').click()")
    browser.wait("document.getElementById('message').textContent.startsWith('From 37.0320')")
    browser.evaluate("document.getElementById('on').click()")
    browser.wait("document.getElementById('message').textContent.startsWith('From 36.9990')")
    browser.evaluate("document.getElementById('whole').click()")
    browser.wait("document.getElementById('message').textContent.startsWith('From 0.0000 s to 128.0000 s')")
    # From the whole run to its first round, and back to its last.
    browser.evaluate("document.getElementById('on').click()")
    browser.wait("document.getElementById('message').textContent.startsWith('From 20.9990')")
    browser.evaluate("document.getElementById('whole').click()")
    browser.wait("document.getElementById('message').textContent.startsWith('From 0.0000 s to 128.0000 s')")
    browser.evaluate("document.getElementById('back').click()")
    browser.wait("document.getElementById('message').textContent.startsWith('From 124.9990')")
    assert browser.console == []
