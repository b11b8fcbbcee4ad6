"""How the planner's page looks on three sizes, light and dark: nothing is cut or covered, buttons lie apart, and texts stand out."""

from __future__ import annotations

import re
from typing import Any

import pytest
from browser import Browser
from studio_page import drop, needs_browser, place

from foldcairn.studio import writing

SIZES = {"desk": (1400, 900, False), "tablet": (820, 1180, True), "phone": (390, 844, True)}
TABS = ("answers", "plan", "compare", "flood", "files")
# What lies over another one of these elements, or nearer than a pixel to it.
_NEAR = """(selector => {
  const all = [...document.querySelectorAll(selector)].filter((one) => one.checkVisibility())
    .map((one) => [one.textContent, one.getBoundingClientRect()]).filter(([, box]) => box.width && box.height);
  return all.flatMap(([one, box], place) => all.slice(place + 1).filter(([, other]) => box.left < other.right + 1 && other.left < box.right + 1
    && box.top < other.bottom + 1 && other.top < box.bottom + 1).map(([other]) => `${one} | ${other}`));
})"""
# Texts that have less room than they need.
_CUT = """[...document.querySelectorAll('button, label, summary, h1, h2, h3, li, dd, dt, legend')]
  .filter((one) => one.checkVisibility() && one.scrollWidth > one.clientWidth + 1 && one.clientWidth && getComputedStyle(one).display !== 'inline')
  .map((one) => one.textContent)"""


@needs_browser
@pytest.mark.parametrize("size", SIZES)
@pytest.mark.parametrize("scheme", ["light", "dark"])
def test_nothing_is_cut_or_covered(page: Browser, size: str, scheme: str) -> None:
    width, height, mobile = SIZES[size]
    page.call("Emulation.setDeviceMetricsOverride", width=width, height=height, deviceScaleFactor=1, mobile=mobile)
    page.call("Emulation.setEmulatedMedia", features=[{"name": "prefers-color-scheme", "value": scheme}])
    page.evaluate("new Promise((done) => requestAnimationFrame(() => requestAnimationFrame(() => { foldcairnPage.map.fit(); done(); })))")
    for tab in TABS:
        page.evaluate(f"foldcairnPage.store.set({{ tab: '{tab}', selected: ['Pump'] }})")
        assert page.evaluate("document.documentElement.scrollWidth") <= width, tab
        assert page.evaluate(f"{_NEAR}('button')") == [], tab
        assert page.evaluate(_CUT) == [], tab
        assert page.evaluate(f"{_NEAR}('#map [data-name] text')") == []
    page.call("Emulation.setEmulatedMedia", features=[])


def _luminance(colour: str) -> float:
    parts = [int(colour[place : place + 2], 16) / 255 for place in (1, 3, 5)]
    red, green, blue = (one / 12.92 if one <= 0.04045 else ((one + 0.055) / 1.055) ** 2.4 for one in parts)
    return 0.2126 * red + 0.7152 * green + 0.0722 * blue


def test_texts_stand_out_in_both_schemes() -> None:
    """By the rule of WCAG 2.2, 4.5 to 1 for texts and 3 to 1 for what is drawn."""
    css = (writing._PAGE / "page.css").read_text()
    light, dark = re.findall(r":root \{([^}]*)\}", css)
    colours: dict[str, Any] = dict(re.findall(r"--(\w+): (#[0-9a-f]{6})", light))
    for scheme in (colours, colours | dict(re.findall(r"--(\w+): (#[0-9a-f]{6})", dark))):
        for name, least in [("ink", 4.5), ("pale", 4.5), ("good", 4.5), ("fair", 4.5), ("bad", 4.5), ("accent", 4.5), ("link", 3), ("wall", 3)]:
            for ground in ("ground", "panel"):
                one, other = sorted((_luminance(scheme[name]), _luminance(scheme[ground])))
                assert (other + 0.05) / (one + 0.05) >= least, (name, ground)


@needs_browser
def test_answers_follow_a_node_that_is_dragged_and_held(page: Browser) -> None:
    """Its last place is drawn also where the mouse rests with its button down; numbers of another place are pale, and let go there they stay."""
    page.wait("document.body.dataset.ready === 'all'")
    start = place(page, "Door-2")
    page.evaluate(
        "(() => { globalThis.paled = []; new MutationObserver(() => paled.push(document.body.dataset.older)).observe(document.body, { attributes: true }); })()"
    )
    mouse = {"button": "left", "buttons": 1, "clickCount": 1}
    page.call("Input.dispatchMouseEvent", type="mousePressed", x=start[0], y=start[1], **mouse)
    for step in range(12):
        page.call("Input.dispatchMouseEvent", type="mouseMoved", x=start[0] - 8 * step, y=start[1] - 2 * step, **mouse)
    page.wait("foldcairnPage.drag.plan !== null && foldcairnPage.seen.plan === foldcairnPage.drag.plan && foldcairnPage.seen.done >= 8")
    assert page.evaluate("document.body.dataset.older") == "false" and page.evaluate("paled.includes('true')")
    generation, held = page.evaluate("foldcairnPage.found.generation"), node_of(page, "drag.plan", "Door-2")
    page.call("Input.dispatchMouseEvent", type="mouseReleased", x=start[0] - 88, y=start[1] - 22, **mouse)
    assert node_of(page, "store.state.plan", "Door-2") == held
    assert page.evaluate("foldcairnPage.found.generation") == generation
    page.wait("document.body.dataset.ready === 'all'")
    seeds = page.evaluate("foldcairnPage.found.draws.get(' 0').map((draw) => draw.seed)")
    assert seeds == list(range(1, 11))


def node_of(page: Browser, plan: str, name: str) -> list[float]:
    """Where a node is in a plan of the page."""
    found: list[float] = page.evaluate(f"(one => [one.x, one.y])(foldcairnPage.{plan}.node.find((one) => one.name === '{name}'))")
    return found


_NODES = "".join(f"[[node]]\nname = 'N{number}'\nx = {number}\ny = 0\n" for number in range(201))
FILES = {
    "too large": ("new File([new Uint8Array(17e6)], 'a.toml')", "16,777,216 are the most that are read"),
    "no UTF-8": ("new File([new Uint8Array([0x5b, 0xff, 0xfe, 0x5d])], 'a.toml')", "it is no text in UTF-8"),
    "a picture that is too large": ("new File([new Uint8Array(9e6)], 'a.png', { type: 'image/png' })", "8,388,608 are the most that are read"),
    "more nodes than ids": (f"new File([{_NODES!r}], 'a.toml')", "200"),
    "a link to nowhere": ('new File(["[[node]]\\nname = \'a\'\\n[[link]]\\nfrom = \'a\'\\nto = \'b\'\\nratio = 1.0\\n"], \'a.toml\')', "b"),
    "no number": ('new File(["[[node]]\\nname = \'a\'\\nx = nan\\ny = 0.0\\n"], \'a.toml\')', "`x`"),
    "an open quote": ("new File(['name,x,y\\n\"a,1,2\\n'], 'nodes.csv')", "a quote"),
    "nothing that is known": ("new File(['x'], 'a.svg')", "no plan file"),
}


@needs_browser
@pytest.mark.parametrize("case", FILES)
def test_files_that_are_none_get_a_sentence(window: Browser, case: str) -> None:
    made, told = FILES[case]
    before = window.evaluate("foldcairnPage.store.before.length")
    window.evaluate(
        f"(() => {{ const data = new DataTransfer(); data.items.add({made}); document.getElementById('message').textContent = '';"
        " document.dispatchEvent(new DragEvent('drop', { dataTransfer: data, bubbles: true, cancelable: true })); })()"
    )
    window.wait("document.getElementById('message').textContent !== ''")
    assert told in window.evaluate("document.getElementById('message').textContent")
    assert window.evaluate("document.getElementById('message').className") == "bad"
    assert window.evaluate("foldcairnPage.store.before.length") == before


@needs_browser
def test_an_empty_file_is_an_empty_plan_that_says_what_to_do(page: Browser) -> None:
    assert drop(page, {"empty.toml": ""}) == "empty.toml opened"
    page.evaluate("foldcairnPage.store.set({ tab: 'answers' })")
    page.wait("document.getElementById('panel').textContent.includes('double-click the map to add a node, or open a plan file')")
