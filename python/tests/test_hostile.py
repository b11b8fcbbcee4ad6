"""Names that are more than letters to a browser, to matplotlib, to plotly, to a spreadsheet or to a terminal: of nodes, plans, sites,
titles and files. They are shown, and do nothing."""

from __future__ import annotations

import shlex
from html.parser import HTMLParser
from pathlib import Path

import pandas as pd
import pytest
from browser import CHROMIUM, Browser
from networks import FAILOVER, LINE

from foldcairn import planning
from foldcairn.__main__ import main
from foldcairn.common.visible import csv, visible
from foldcairn.draw import plot
from foldcairn.model.scenario import Scenario
from foldcairn.pages import page
from foldcairn.runs import results

# Each would set `broken` in a page that takes it for HTML.
TAG, IMAGE, QUOTE = "<script>broken = 1</script>", '"><img src=x onerror="broken = 1">', 'y" onload="broken = 1'
FRACTION, UNKNOWN, ESCAPE, FORMULA = r"$\frac$", r"$\nosuch$", "\x1b]0;broken\x07\x1b[31mred", "=1+1"
NAMES = [TAG, IMAGE, QUOTE, FRACTION, UNKNOWN, ESCAPE, FORMULA, "$", "a & b's <b>", "@x", "\udcff", "-"]


def named(text: str, *names: str) -> str:
    """A text whose nodes have these names, from node 1 on."""
    return "".join(f"#: name {node} {name}\n" for node, name in enumerate(names, 1)) + text


def network() -> Scenario:
    """A network of three nodes with a stream and reception ratios, and hostile names."""
    made = Scenario.read(named(FAILOVER, IMAGE, TAG, QUOTE))
    return made.pair(1, 3, 0.7).pair(1, 2, 0.8)


class Tags(HTMLParser):
    """The tags of a page that would run something: scripts, frames and all that has an attribute for an event."""

    def __init__(self) -> None:
        super().__init__()
        self.found: list[tuple[str, str]] = []

    def handle_starttag(self, tag: str, attrs: list[tuple[str, str | None]]) -> None:
        self.found += [(tag, name) for name, _ in attrs if name.startswith("on")]
        if tag in ("script", "iframe", "object", "embed", "b", "h1"):
            self.found.append((tag, ""))


@pytest.fixture(scope="module")
def pages(tmp_path_factory: pytest.TempPathFactory) -> dict[str, Path]:
    """One page of each kind, to which all words that it takes are hostile; the plan has its name of its file."""
    folder = tmp_path_factory.mktemp("pages")
    made = network()
    written = {name: folder / f"{name}.html" for name in ("run", "compare", "sample")}
    log = results.log(Scenario.read(named(FAILOVER, IMAGE, TAG, QUOTE)), warn=False)
    page.write(log, written["run"], title=TAG, site=IMAGE, plan=QUOTE, notes=TAG + "\n\n" + IMAGE)
    plans = [folder / f"{QUOTE}.scenario", folder / "other.scenario"]
    plans[0].write_text(log.scenario.text(warn=False))
    plans[1].write_text(LINE)
    words = ["--title", TAG, "--site", IMAGE, "--notes", str(folder / "notes"), "--seeds", "1-2", "-o", str(written["compare"])]
    (folder / "notes").write_text(TAG)
    assert main(["compare", str(plans[0]), f"<b>B</b>={plans[1]}", *words, "--jobs", "1"]) == 0
    planning.sample(made, [1, 2], progress=False).write(written["sample"], title=TAG)
    return written


@pytest.mark.parametrize("kind", ["run", "compare", "sample"])
def test_names_are_no_tags(pages: dict[str, Path], kind: str) -> None:
    tags = Tags()
    tags.feed(pages[kind].read_text())
    # The packed scripts of the page of a run, and the one that unpacks them.
    own = [("script", "")] * 6 if kind == "run" else []
    assert [one for one in tags.found if one not in (("b", ""), ("h1", ""))] == own
    assert tags.found.count(("h1", "")) == 1 and tags.found.count(("b", "")) == (10 if kind == "run" else 0)


@pytest.mark.skipif(CHROMIUM is None, reason="chromium is missing; tools/setup-python.sh --optional installs it (apt-get install chromium)")
@pytest.mark.parametrize("kind", ["run", "compare", "sample"])
def test_a_browser_runs_nothing_of_names(pages: dict[str, Path], kind: str, browser: Browser) -> None:
    browser.call("Page.navigate", url=pages[kind].as_uri())
    browser.wait("document.readyState === 'complete' && document.querySelector('h1') !== null")
    if kind == "run":
        browser.wait("document.body.dataset.ready === 'yes'")
        # The names of nodes, as plotly shows them.
        labels = browser.evaluate("[...document.querySelectorAll('#timeline .ytick text')].map((one) => one.textContent)")
        assert labels == [f"host 0, {IMAGE}", f"host 1, {TAG}", QUOTE]
    browser.wait("[...document.images].every((image) => image.complete)")
    assert browser.evaluate("typeof broken") == "undefined"
    assert browser.evaluate("document.querySelector('h1').textContent") == TAG == browser.evaluate("document.title")
    shown = browser.evaluate("document.body.textContent")
    assert QUOTE in shown and (IMAGE in shown or kind == "sample")
    assert browser.evaluate("document.querySelectorAll('.table td b, .figure b, .findings b').length") == 0


@pytest.mark.parametrize("names", [NAMES[at : at + 3] for at in range(0, len(NAMES), 3)])
def test_names_in_pictures(names: list[str], tmp_path: Path) -> None:
    """No part of a name is a formula of matplotlib, and an SVG text has none of the characters that XML forbids."""
    log = results.log(Scenario.read(named(FAILOVER, *names).encode("utf-8", "surrogateescape")), warn=False)
    # The first three have all nodes, the others the source of the packets alone.
    drawn = [
        plot.topology(log.scenario), plot.timeline(log), plot.energy(planning.radio_time(log)), plot.delivery(planning.delivery_ratio(log, "pair")),
        plot.latency(planning.latencies(log)), plot.outages(planning.outages(log, "stream")),
    ]  # fmt: skip
    for place, figure in enumerate(drawn):
        kept = plot.save(figure, tmp_path / f"{place}.svg").read_text()
        escaped = [visible(name).replace("&", "&amp;").replace("<", "&lt;").replace(">", "&gt;") for name in names]
        assert all(name in kept for name in (escaped if place < 3 else escaped[2:]))


def test_what_is_visible() -> None:
    assert visible("a\x1b[2J\tb\n\x7f\x9b\udcff\r") == "a␛[2J\tb\n␡��␍"


def test_names_in_csv() -> None:
    """Texts that a spreadsheet would compute get an apostrophe, and numbers do not."""
    table = pd.DataFrame({"=name": ["=1+1", "+x", "-x", "@x", "\tx", "x=1", "-"], "n": [-1.5] * 7, "kind": pd.Categorical(["=k"] * 7)})
    assert csv(table).splitlines()[:4] == ["'=name,n,kind", "'=1+1,-1.5,'=k", "'+x,-1.5,'=k", "'-x,-1.5,'=k"]
    assert csv(table).splitlines()[4:] == ["'@x,-1.5,'=k", "'\tx,-1.5,'=k", "x=1,-1.5,'=k", "'-,-1.5,'=k"]


def test_names_in_files_of_a_report(tmp_path: Path) -> None:
    (tmp_path / "run.scenario").write_text(named(FAILOVER, FORMULA, "@x", ESCAPE))
    assert main(["report", str(tmp_path / "run.scenario"), "--csv", str(tmp_path / "tables")]) == 0
    assert pd.read_csv(tmp_path / "tables" / "duty-cycle.csv")["node"].tolist() == ["'=1+1", "'@x", visible(ESCAPE)]
    for file in (tmp_path / "tables").iterdir():
        cells = file.read_text().replace("\n", ",").split(",")
        assert not [cell for cell in cells if cell.startswith(("=", "@", "+"))]


def test_no_escape_code_reaches_a_terminal(tmp_path: Path, capsys: pytest.CaptureFixture[str], monkeypatch: pytest.MonkeyPatch) -> None:
    monkeypatch.chdir(tmp_path)
    Path("links.csv").write_text("from,to,prr\n1,2,0.9\n1,3,0.9\n2,3,0.9\n")
    Path("run.scenario").write_text(named(FAILOVER, ESCAPE, "two", ESCAPE + "3"))
    Path(f"{ESCAPE}.scenario").write_text(named(LINE, ESCAPE, "two", ESCAPE + "3"))
    for words, status in (
        (["report", "run.scenario"], 0), (["report", "run.scenario", "--json"], 0), (["explain", "run.scenario"], 0),
        (["draw", "run.scenario", "--ratios", "links.csv"], 0), (["compare", "run.scenario", f"{ESCAPE}.scenario", "--seeds", "1", "--jobs", "1"], 0),
        (["importance", "run.scenario", "--of", "nodes", "--seeds", "1", "--jobs", "1"], 0), (["sweep", ".", "--jobs", "1"], 0),
        (["pcap", f"{ESCAPE}.scenario", "-o", f"{ESCAPE}.pcap"], 0), (["trace", "run.scenario", "-o", f"{ESCAPE}.json"], 0),
        (["report", f"{ESCAPE}.txt"], 3), (["timeline", "run.scenario", "--nodes", ESCAPE + "4"], 1),
    ):  # fmt: skip
        assert main(words) == status, words
        told = capsys.readouterr()
        # A bar goes back to the start of its line.
        written = told.out + told.err.replace("\r", "")
        assert written == visible(written) and written
    # What `draw` writes is still a scenario, and has the names.
    assert main(["draw", "run.scenario", "--ratios", "links.csv"]) == 0
    assert Scenario.read(capsys.readouterr().out).name(1) == visible(ESCAPE)


def test_a_file_name_that_is_pasted(tmp_path: Path, capsys: pytest.CaptureFixture[str]) -> None:
    path = tmp_path / "it's; touch broken.pcap"
    (tmp_path / "run.scenario").write_text(LINE)
    assert main(["pcap", str(tmp_path / "run.scenario"), "-o", str(path)]) == 0
    command = capsys.readouterr().out.split("read it by ")[1]
    assert shlex.split(command)[-2:] == ["-r", str(path)]


def test_two_hosts_at_once_have_their_names(tmp_path: Path) -> None:
    """Both hosts, also the one in the column of the other."""
    made = Scenario(60).node(1).node(2).node(3).host(0, 1).host(1, 2).pair(2, 3).on()
    made.stream(3, 4).every(8, 3)
    made.labels = {1: "cellar", 2: "roof", 3: "pump"}
    row = planning.hosts(results.log(made, warn=False), "at once").iloc[0]
    assert {row["host"], row["other_host"]} == {"cellar", "roof"}
