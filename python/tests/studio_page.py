"""A browser with the planner's page, and what a person does on it, for tests. Tested, not proved."""

from __future__ import annotations

import json
import os
from collections.abc import Iterator
from pathlib import Path
from typing import Any

import pytest
from browser import CHROMIUM, Browser
from studio_modules import NODE

needs_browser = pytest.mark.skipif((CHROMIUM is None or NODE is None) and os.environ.get("CI") != "true", reason="there is no chromium")

# Of the example, with few draws: the gate has little time. The package itself is imported later, so that its coverage is whole.
_EXAMPLE = Path(__file__).resolve().parents[1] / "src/foldcairn/studio/page/example.toml"
PLAN = _EXAMPLE.read_text(encoding="utf-8").replace("seeds = 60", "seeds = 10").replace("hours = 1.0", "hours = 0.5").split("[[requirement]]")[0]
PLAN += '\n[[requirement]]\nname = "In time"\nshare = 0.2\n[[requirement]]\nname = "Host"\noutage = 900\nwhen = "Host fails"\n'


@pytest.fixture(scope="module")
def window(tmp_path_factory: pytest.TempPathFactory) -> Iterator[Browser]:
    """A browser with the page of the plan."""
    from foldcairn import studio

    folder = tmp_path_factory.mktemp("studio")
    (folder / "plan.toml").write_text(PLAN)
    page = studio.write(folder / "plan.toml", folder / "studio.html")
    with Browser(folder, 1400, 900) as one:
        one.page = page.as_uri()  # type: ignore[attr-defined]
        yield one
        assert one.console == [], one.console


@pytest.fixture()
def page(window: Browser) -> Browser:
    """The page anew, with the answers of its plan."""
    window.call("Emulation.setDeviceMetricsOverride", width=1400, height=900, deviceScaleFactor=1, mobile=False)
    window.call("Page.navigate", url="about:blank")
    window.call("Page.navigate", url=window.page)  # type: ignore[attr-defined]
    window.wait("['few', 'all'].includes(document.body?.dataset.ready)")
    return window


def place(page: Browser, name: str) -> tuple[float, float]:
    """Where a node is in the window."""
    box = f"document.querySelector('[data-name=\"{name}\"] .symbol').getBoundingClientRect()"
    found: list[float] = page.evaluate(f"(box => [box.x + box.width / 2, box.y + box.height / 2])({box})")
    return found[0], found[1]


def node(page: Browser, name: str) -> dict[str, Any]:
    """A node of the plan as the page has it."""
    found: dict[str, Any] = page.evaluate(f"foldcairnPage.store.state.plan.node.find((one) => one.name === '{name}') ?? {{}}")
    return found


def key(page: Browser, key: str, modifiers: int = 0) -> None:
    """Presses a key; `modifiers` is 2 for Control and 8 for Shift."""
    code = ord(key.upper()) if len(key) == 1 else {"Delete": 46, "ArrowRight": 39, "Escape": 27}[key]
    for kind in ("keyDown", "keyUp"):
        page.call("Input.dispatchKeyEvent", type=kind, key=key, code=key if len(key) > 1 else f"Key{key.upper()}", windowsVirtualKeyCode=code,
                  modifiers=modifiers, text=key if len(key) == 1 and kind == "keyDown" and not modifiers else "")  # fmt: skip


def click(page: Browser, text: str) -> None:
    """Clicks the button with a text."""
    page.evaluate(f"[...document.querySelectorAll('button')].find((one) => one.textContent === {json.dumps(text)}).click()")


def drop(page: Browser, files: dict[str, str]) -> str:
    """Drops files onto the page, and gives what it says."""
    page.evaluate(
        f"(() => {{ const data = new DataTransfer(); for (const [name, text] of Object.entries({json.dumps(files)})) data.items.add(new File([text], name));"
        " document.getElementById('message').textContent = '';"
        " document.dispatchEvent(new DragEvent('drop', { dataTransfer: data, bubbles: true, cancelable: true })); })()"
    )
    page.wait("document.getElementById('message').textContent !== ''")
    return str(page.evaluate("document.getElementById('message').textContent"))
