"""The map and the fields of the planner's page in a browser: what a person may do there, by mouse and by typing."""

from __future__ import annotations

import base64
import io
import json
import random
from typing import Any

import pytest
from browser import Browser
from PIL import Image
from studio_page import PLAN, click, drop, needs_browser, node, place

pytestmark = needs_browser

SHIFT = 8


def _press(page: Browser, at: tuple[float, float], modifiers: int = 0, count: int = 1) -> None:
    for kind in ("mouseMoved", "mousePressed", "mouseReleased"):
        page.call("Input.dispatchMouseEvent", type=kind, x=at[0], y=at[1], button="left", clickCount=count, modifiers=modifiers)


def _selected(page: Browser) -> list[str]:
    found: list[str] = page.evaluate("foldcairnPage.store.state.selected")
    return found


def _typed(page: Browser, field: str, value: Any) -> None:
    """A value that is typed into a field of the plan, and left."""
    one = f"document.getElementById('{field}')"
    page.evaluate(f"(one => {{ one.value = {json.dumps(str(value))}; one.dispatchEvent(new Event('change')); }})({one})")


def _scale(page: Browser) -> float:
    """The pixels of ten metres, between two nodes that are 26 m apart."""
    one, other = place(page, "Press-1"), place(page, "Press-2")
    return abs(one[0] - other[0]) + abs(one[1] - other[1])


def test_several_are_selected_and_moved_together(page: Browser) -> None:
    names = ["Press-1", "Press-2"]
    before = [node(page, name) for name in names]
    _press(page, place(page, names[0]))
    _press(page, place(page, names[1]), SHIFT)
    assert sorted(_selected(page)) == names
    start = place(page, names[1])
    page.drag(start, (start[0] + 60, start[1]))
    after = [node(page, name) for name in names]
    moved = [round(now["x"] - then["x"], 6) for now, then in zip(after, before, strict=True)]
    assert moved[0] == moved[1] > 0


def test_zoom_and_pan(page: Browser) -> None:
    before, at = _scale(page), place(page, "Press-1")
    click(page, "+")
    assert _scale(page) == pytest.approx(1.25 * before, rel=1e-3)
    page.evaluate("document.getElementById('fit').click()")
    assert _scale(page) == pytest.approx(before, rel=1e-3)
    box = page.evaluate("(box => [box.x + 20, box.y + box.height - 20])(document.getElementById('map').getBoundingClientRect())")
    page.drag((box[0], box[1]), (box[0] + 50, box[1] - 30))
    now = place(page, "Press-1")
    assert (now[0] - at[0], now[1] - at[1]) == pytest.approx((50, -30), abs=1)
    assert page.evaluate("foldcairnPage.store.before.length") == 0


def test_a_double_click_adds_a_node_and_undo_takes_it_away(page: Browser) -> None:
    count = page.evaluate("foldcairnPage.store.state.plan.node.length")
    box = page.evaluate("(box => [box.x + 40, box.y + box.height - 40])(document.getElementById('map').getBoundingClientRect())")
    for clicks in (1, 2):
        _press(page, (box[0], box[1]), count=clicks)
    assert page.evaluate("foldcairnPage.store.state.plan.node.length") == count + 1
    click(page, "Undo")
    assert page.evaluate("foldcairnPage.store.state.plan.node.length") == count


def test_floors_and_a_picture_of_the_floor_plan(page: Browser) -> None:
    made = io.BytesIO()
    Image.new("RGB", (40, 20), "white").save(made, "png")
    encoded = base64.b64encode(made.getvalue()).decode()
    plan = PLAN.replace("[floor]\n", '[floor]\npicture = "hall.png"\n', 1)
    plan += '\n[[node]]\nname = "Loft"\nx = 5\ny = 5\nfloor = 1\n'
    page.evaluate(
        f"(() => {{ const data = new DataTransfer(); data.items.add(new File([{json.dumps(plan)}], 'two.toml'));"
        f" const bytes = Uint8Array.from(atob('{encoded}'), (one) => one.charCodeAt(0));"
        " data.items.add(new File([bytes], 'hall.png', { type: 'image/png' }));"
        " document.getElementById('message').textContent = '';"
        " document.dispatchEvent(new DragEvent('drop', { dataTransfer: data, bubbles: true, cancelable: true })); })()"
    )
    page.wait("document.getElementById('message').textContent !== ''")
    assert page.evaluate("document.getElementById('message').textContent") == "two.toml opened"
    page.wait("foldcairnPage.picture !== null")
    click(page, "Floor 1")
    assert page.evaluate("document.querySelector('[data-name=\"Loft\"] .symbol').getBoundingClientRect().width > 0")
    assert page.evaluate("foldcairnPage.store.state.floor") == 1


def test_what_if_a_host_fails(page: Browser) -> None:
    """From the failure on nothing arrives at a plan's only host, so the share of each stream falls."""
    page.wait("document.body.dataset.ready === 'all'")
    read = "foldcairnPage.found.draws.get(' 0').find((draw) => draw.seed === 1).streams['Press-2'][0]"
    before = page.evaluate(read)
    page.evaluate("foldcairnPage.store.change({ ...foldcairnPage.store.state.plan, host: foldcairnPage.store.state.plan.host.slice(0, 1) }, 'one host')")
    page.evaluate(
        "(plan => foldcairnPage.store.change({ ...plan, event: [...plan.event,"
        " { ...foldcairnPage.given.event, node: plan.host[0].node, at: 600, off: true }] }, 'the host fails'))(foldcairnPage.store.state.plan)"
    )
    page.wait("document.body.dataset.ready === 'all'")
    after = page.evaluate(read)
    assert after < 0.6 * before


@pytest.mark.parametrize(("field", "value", "key"), [("plan-0-contend", 1, "contend"), ("plan-0-sends", 3, "sends"), ("plan-0-hours", 0.75, "hours")])
def test_settings_are_typed(page: Browser, field: str, value: float, key: str) -> None:
    page.evaluate("foldcairnPage.store.set({ tab: 'plan', selected: [] })")
    generation = int(page.evaluate("document.body.dataset.generation"))
    _typed(page, field, value)
    assert page.evaluate(f"foldcairnPage.store.state.plan.plan.{key}") == value
    page.wait(f"Number(document.body.dataset.generation) > {generation} && ['few', 'all'].includes(document.body.dataset.ready)")
    assert page.evaluate("foldcairnPage.found.error") == ""


def test_settings_that_do_not_fit_together_get_a_sentence(page: Browser) -> None:
    """The plan of these tests gives `contend`, which profile 1 has no room for."""
    page.evaluate("foldcairnPage.store.set({ tab: 'plan', selected: [] })")
    _typed(page, "plan-0-profile", 1)
    page.evaluate("foldcairnPage.store.set({ tab: 'answers' })")
    page.wait("document.getElementById('panel').textContent.includes('profile 1 has one contention slot; take profile 2')")


def test_the_slider_hides_weak_links(page: Browser) -> None:
    def brightness(threshold: float) -> float:
        page.evaluate(f"(one => {{ one.value = {threshold}; one.dispatchEvent(new Event('input')); }})(document.getElementById('threshold'))")
        page.evaluate("new Promise((done) => requestAnimationFrame(() => requestAnimationFrame(done)))")
        return float(page.picture().mean())

    page.wait("document.body.dataset.ready === 'all'")
    assert brightness(0.05) < brightness(1.0)


def test_bounds_are_those_of_the_program(page: Browser) -> None:
    """The host of rank 0 boots in frame 0, so it has its first round 5 frames of 5 s later."""
    page.evaluate("foldcairnPage.store.set({ tab: 'answers' })")
    page.wait("document.querySelector('.bounds') !== null")
    told = page.evaluate("document.querySelector('.bounds').textContent")
    assert "Bounds for every seed" in told and "Host has its first round from 25 s on, 5 frames after it boots at 0 s: whatever is lost." in told


def test_controls_have_names(page: Browser) -> None:
    """Each control has words for a screen reader, and each node on the map too."""
    for tab in ("answers", "plan", "compare", "flood", "files"):
        page.evaluate(f"foldcairnPage.store.set({{ tab: '{tab}', selected: ['Pump'] }})")
        nameless = page.evaluate(
            "[...document.querySelectorAll('button, input, select')].filter((one) => !one.textContent.trim() && !one.getAttribute('aria-label')"
            " && !(one.labels && one.labels.length)).map((one) => one.outerHTML)"
        )
        assert nameless == []
    assert page.evaluate("[...document.querySelectorAll('#map [data-name]')].every((one) => one.getAttribute('aria-label'))")


def test_light_and_dark(page: Browser) -> None:
    def brightness(scheme: str) -> float:
        page.call("Emulation.setEmulatedMedia", features=[{"name": "prefers-color-scheme", "value": scheme}])
        page.evaluate("new Promise((done) => requestAnimationFrame(() => requestAnimationFrame(done)))")
        return float(page.picture().mean())

    dark, light = brightness("dark"), brightness("light")
    page.call("Emulation.setEmulatedMedia", features=[])
    assert dark < 100 < 180 < light


def test_64_nodes_and_2000_links(page: Browser) -> None:
    """A large plan is opened, answered, and its labels lie apart."""
    chance = random.Random(3)
    names = [f"N-{number:02}" for number in range(64)]
    rows = [f'[[node]]\nname = "{name}"\nx = {12 * (place % 8) + chance.randint(0, 5)}\ny = {12 * (place // 8) + chance.randint(0, 5)}\n'
            for place, name in enumerate(names)]  # fmt: skip
    pairs = chance.sample([(one, other) for one in names for other in names if one < other], 1_000)
    links = [f'[[link]]\nfrom = "{one}"\nto = "{other}"\nratio = {chance.choice([0.5, 0.9, 0.99])}\nboth = true\n' for one, other in pairs]
    streams = [f'[[stream]]\nfrom = "{name}"\nevery = 60\ndeadline = 50\n' for name in names[1:33]]
    text = '[plan]\nhours = 0.25\nseeds = 8\n[losses]\nfrom = "survey"\n[[host]]\nnode = "N-00"\n' + "".join(rows + links + streams)
    assert "opened" in drop(page, {"large.toml": text})
    page.wait("['few', 'all'].includes(document.body.dataset.ready) && foldcairnPage.found.plan.node.length === 64")
    assert page.evaluate("foldcairnPage.found.error") == ""
    assert page.evaluate("foldcairnPage.found.draws.get(' 0').length") >= 8
    overlaps = page.evaluate(
        "(() => { const all = [...document.querySelectorAll('#map [data-name] text')].map((one) => one.getBoundingClientRect()).filter((box) => box.width);"
        " let found = 0; all.forEach((one, place) => all.slice(place + 1).forEach((other) => { if (one.left < other.right - 1 && other.left < one.right - 1"
        " && one.top < other.bottom - 1 && other.top < one.bottom - 1) found += 1; })); return found; })()"
    )
    assert overlaps == 0
