"""The planner's page in a browser, as a person uses it: what it shows is what the programs give, and hostile files get a sentence."""

from __future__ import annotations

import csv
import io
import re
from pathlib import Path

import pytest
from browser import Browser
from studio_page import PLAN, click, drop, key, needs_browser, node, place

from foldcairn.plan import Plan
from foldcairn.runs import program, results
from foldcairn.studio import joining, writing

pytestmark = needs_browser


def test_it_is_one_file_without_network(page: Browser) -> None:
    text = writing.text()
    assert len(text) < 6_000_000
    assert text == writing.text()
    assert not re.search(r"https?://(?!www\.w3\.org/2000/svg)", text)
    policy = re.search(r'Content-Security-Policy" content="([^"]+)"', text)
    assert policy and "default-src &#39;none&#39;" in policy[1] and "unsafe-inline" not in policy[1] and "connect" not in policy[1]
    assert page.evaluate("fetch('data:text/plain,x').then(() => 'fetched', () => 'refused')") == "refused"
    page.console.clear()


def test_the_answers_are_those_of_the_program(page: Browser, tmp_path: Path) -> None:
    page.wait("document.body.dataset.ready === 'all'")
    plan = Plan.parse(PLAN)
    text = page.evaluate("foldcairnPage.engine.ask('network', 3).then((answer) => answer.text)")
    assert text == "".join(line + "\n" for line in plan.network(3).network_text(warn=False).splitlines() if not line.startswith("#"))
    # What `fates` says of the packets to whichever host serves, by hand: in time are those whose slot ends by their deadline.
    fates = program.execute(["fates", "3"], text.encode(), program=program.find_planner()).decode()
    seconds, due, came = plan.settings.hours * 3_600, 0, 0
    stream = plan.streams["Press-2"]
    puts = iter(float(stream.start) + (stream.every or 0) * count for count in range(10_000))
    for line in fates.splitlines():
        words = line.split()
        if words[2:4] != ["12", "0"]:
            continue
        put = next(puts)
        if put + (stream.deadline or 0) > seconds + 1e-9:
            continue
        due += 1
        if words[6] == "sent" and words[11] == "1":
            ends = int(words[7]) * 5 + 1 + (int(words[9]) + 1) * 0.056
            came += ends - put <= (stream.deadline or 0) + 1e-9
    shown = page.evaluate("foldcairnPage.found.draws.get(' 0').find((draw) => draw.seed === 3).streams['Press-2']")
    assert due > 50
    assert shown == [came / due, due]


def test_a_node_is_dragged_and_the_answers_are_of_its_place(page: Browser) -> None:
    before, start = node(page, "Door-2"), place(page, "Door-2")
    generation = int(page.evaluate("document.body.dataset.generation"))
    page.drag(start, (start[0] - 120, start[1] - 40))
    page.wait(f"Number(document.body.dataset.generation) > {generation} && ['few', 'all'].includes(document.body.dataset.ready)")
    after = node(page, "Door-2")
    assert after["x"] < before["x"] - 3 and after["y"] > before["y"]
    assert page.evaluate("foldcairnPage.found.plan === foldcairnPage.store.state.plan")
    page.evaluate("document.activeElement.blur()")
    key(page, "z", 2)
    assert node(page, "Door-2")["x"] == before["x"]
    key(page, "y", 2)
    assert node(page, "Door-2")["x"] == after["x"]


def test_keyboard(page: Browser) -> None:
    page.evaluate("document.getElementById('map').focus()")
    key(page, "n")
    chosen = page.evaluate("foldcairnPage.store.state.selected")
    assert len(chosen) == 1
    before = node(page, chosen[0])
    key(page, "ArrowRight")
    assert node(page, chosen[0])["x"] == pytest.approx(before["x"] + 1)
    key(page, "Escape")
    count = page.evaluate("foldcairnPage.store.state.plan.node.length")
    key(page, "a")
    assert page.evaluate("foldcairnPage.store.state.plan.node.length") == count + 1
    page.evaluate("document.getElementById('map').focus()")
    key(page, "Delete")
    assert page.evaluate("foldcairnPage.store.state.plan.node.length") == count


def test_a_value_is_typed_and_a_wrong_one_gets_a_sentence(page: Browser) -> None:
    page.evaluate("foldcairnPage.store.set({ tab: 'plan', selected: ['Pump'] })")
    typed = "(value => { const one = document.getElementById('stream-7-deadline'); one.value = value; one.dispatchEvent(new Event('change')); })"
    page.evaluate(f"{typed}('25')")
    assert page.evaluate("foldcairnPage.store.state.plan.stream[7].deadline") == 25
    page.evaluate(f"{typed}('soon')")
    assert "`deadline` is \"soon\", and has to be a number above 0, in s" in page.evaluate("document.getElementById('message').textContent")
    assert page.evaluate("foldcairnPage.store.state.plan.stream[7].deadline") == 25


def _saved(page: Browser, button: str) -> str:
    """What a button of the files would save, in place of the file of a download; it waits for it for a minute."""
    for _ in range(60):
        text = page.evaluate(
            "(async () => { const old = URL.createObjectURL; foldcairnPage.store.set({ tab: 'files' });"
            " const saved = new Promise((told) => { URL.createObjectURL = (blob) => { told(blob.text()); return old(blob); }; });"
            f" [...document.querySelectorAll('button')].find((one) => one.textContent.startsWith({button!r})).click();"
            " const text = await Promise.race([saved, new Promise((told) => setTimeout(told, 1000, null))]);"
            " URL.createObjectURL = old; return text; })()"
        )
        if text is not None:
            return str(text)
    raise AssertionError(f"nothing is saved by {button}")


def test_files_come_in_and_go_out(page: Browser, tmp_path: Path) -> None:
    assert Plan.parse(_saved(page, "Plan file")) == Plan.parse(PLAN)
    assert "opened" in drop(page, {"other.toml": PLAN.replace("Door-2", "Gate 2")})
    assert node(page, "Gate 2")["x"] == 56
    assert "read" in drop(page, {"nodes.csv": (Path(__file__).parent / "cases/studio-nodes.csv").read_text()})
    assert node(page, "Press-1")["x"] == 7.5


def test_tables_answers_and_a_network_go_out(page: Browser) -> None:
    plan = Plan.parse(PLAN)
    nodes = list(csv.DictReader(io.StringIO(_saved(page, "nodes.csv"))))
    assert [(one["name"], float(one["x"])) for one in nodes] == [(name, node.x) for name, node in plan.nodes.items()]
    streams = list(csv.DictReader(io.StringIO(_saved(page, "streams.csv"))))
    assert [one["from"] for one in streams] == [stream.source for stream in plan.streams.values()]
    answers = list(csv.DictReader(io.StringIO(_saved(page, "Answers (CSV)"))))
    assert {one["name"] for one in answers if one["of"] == "requirement"} == {one.name for one in plan.requirements}
    assert {one["name"] for one in answers if one["of"] == "stream"} == set(plan.streams)
    # The network of seed 1 is one that the program takes, with the nodes of the plan.
    report = results.outcome(_saved(page, "Network text"), 1)
    assert len(report.scenario.nodes) == len(plan.nodes) and len(report.deliveries)


HOSTILE = {
    "no TOML": ({"a.toml": "[plan\n"}, "line 1"),
    "an unknown key": ({"a.toml": "[plan]\nnane = 'x'"}, "did you mean name?"),
    "out of range": ({"a.toml": "[plan]\nprofile = 9"}, "from 1 to 2"),
    "a prototype": ({"a.toml": "[__proto__]\nx = 1"}, "no table __proto__"),
    "deep": ({"a.toml": "x = " + "[" * 500}, "within each other"),
    "another file": ({"a.exe": "MZ"}, "no plan file"),
    "a name that is none": ({"a.toml": "[[node]]\nname = \"a\\u0000b\""}, "a name, without a semicolon"),
    "two of one name": ({"a.toml": "[[node]]\nname = 'a'\n[[node]]\nname = 'a'"}, "names have to differ"),
    "a table without columns": ({"nodes.csv": "a,b\n1,2\n"}, "is not read"),
}


@pytest.mark.parametrize("case", HOSTILE)
def test_hostile_files_get_a_sentence(window: Browser, case: str) -> None:
    files, told = HOSTILE[case]
    count = window.evaluate("foldcairnPage.store.state.plan.node.length")
    assert told in drop(window, files)
    assert window.evaluate("foldcairnPage.store.state.plan.node.length") == count


def test_a_name_is_text_and_never_markup(page: Browser) -> None:
    name = "<img src=x onerror=alert(1)></script>"
    assert "opened" in drop(page, {"evil.toml": PLAN.replace('name = "Factory hall"', f"name = '{name}'").replace('"Pump"', f"'{name}'")})
    page.evaluate("foldcairnPage.store.set({ tab: 'plan', selected: [] })")
    assert page.evaluate("document.querySelectorAll('img').length") == 0
    assert page.evaluate("document.getElementById('title').textContent") == name


def test_plans_side_by_side(page: Browser) -> None:
    page.evaluate("foldcairnPage.store.set({ tab: 'compare' })")
    page.wait("document.body.dataset.ready === 'all'")
    click(page, "Keep this plan")
    page.evaluate("document.getElementById('map').focus(), foldcairnPage.store.set({ selected: ['Press-1'] })")
    page.evaluate("foldcairnPage.drag.drop(20, -5)")
    page.wait("document.body.dataset.ready === 'all'")
    page.evaluate("foldcairnPage.showPanel()")
    rows = page.evaluate("[...document.querySelectorAll('#panel tbody tr')].map((row) => row.textContent)")
    assert any(row.startswith("Press-1") and " to " in row for row in rows)
    click(page, "Go back to A")
    assert node(page, "Press-1")["x"] == 6


def test_a_flood_is_played(page: Browser) -> None:
    page.evaluate("foldcairnPage.store.set({ tab: 'flood' })")
    page.evaluate("foldcairnPage.flood.draw()")
    assert page.evaluate("foldcairnPage.flood.message") == ""
    assert page.evaluate("foldcairnPage.map.over.querySelectorAll('.sender').length") >= 1
    # What the page plays is what `log SEED` of the program says of the network.
    plan = Plan.parse(PLAN)
    text = plan.network(1).network_text(warn=False).encode()
    heard = sum(line.startswith(b"heard ") for line in program.execute(["log", "1"], text, program=program.find_planner()).splitlines())
    assert page.evaluate("foldcairnPage.flood.told.floods.flatMap((one) => one.steps).reduce((sum, step) => sum + step.heard.length, 0)") == heard


def test_empty_plan_and_phone(page: Browser) -> None:
    page.evaluate("foldcairnPage.store.set({ tab: 'files' })")
    click(page, "Empty plan")
    page.evaluate("foldcairnPage.store.set({ tab: 'answers' })")
    page.wait("document.getElementById('panel').textContent.includes('double-click the map to add a node')")
    page.evaluate("foldcairnPage.store.undo()")
    page.call("Emulation.setDeviceMetricsOverride", width=390, height=844, deviceScaleFactor=1, mobile=True)
    assert page.evaluate("document.getElementById('panel').getBoundingClientRect().top < document.getElementById('map-place').getBoundingClientRect().top")
    assert page.evaluate("document.documentElement.scrollWidth") <= 390


def test_too_many_nodes_and_no_webassembly(window: Browser) -> None:
    nodes = "".join(f"[[node]]\nname = 'N-{number}'\nx = {number}\ny = 0\n" for number in range(65))
    drop(window, {"large.toml": f"{nodes}[losses]\nfrom = 'positions'\npreset = 'office'\n[[host]]\nnode = 'N-0'\n[[stream]]\nfrom = 'N-1'\nevery = 9\n"})
    window.evaluate("foldcairnPage.store.set({ tab: 'answers' })")
    window.wait("document.getElementById('panel').textContent.includes('a network has from 2 to 64')")
    script = window.call("Page.addScriptToEvaluateOnNewDocument", source="delete globalThis.WebAssembly")["identifier"]
    window.call("Page.navigate", url="about:blank")
    window.call("Page.navigate", url=window.page)  # type: ignore[attr-defined]
    window.wait("document.getElementById('panel')?.textContent.includes('This browser has no WebAssembly')")
    window.call("Page.removeScriptToEvaluateOnNewDocument", identifier=script)


def test_modules_are_joined_in_order() -> None:
    modules = {"a": 'import { b } from "./b.js";\nexport const a = b;\n', "b": "export function b() {}\n"}
    assert joining.order(modules, "a") == ["b", "a"]
    with pytest.raises(ValueError, match="does not export"):
        joining.order({**modules, "b": "function b() {}\n"}, "a")
    with pytest.raises(ValueError, match="import each other"):
        joining.order({**modules, "b": 'import { a } from "./a.js";\nexport function b() {}\n'}, "a")
