#!/usr/bin/env python3
"""Times the planner's page in headless Chromium, on a plan of 64 nodes and 32 streams over an hour: the first picture, the frames a second while
a node is dragged, and how long after the last movement the answers of 8 seeds are shown. The least (of frames the most) of several runs, and the median.

Usage: bench/studio.py [RUNS] [--profile 1|2] [--write FILE], 7 runs in profile 1 without them; --write writes the plan and measures nothing. Tested, not
proved.
"""

from __future__ import annotations

import argparse
import os
import pathlib
import random
import statistics
import sys
import tempfile
import time
from typing import Any

TOP = pathlib.Path(__file__).resolve().parent.parent
sys.path[:0] = [str(TOP / "python/src"), str(TOP / "python/tests")]

WIDTH, HEIGHT = 1400, 900
# What a mouse does in a drag: so many movements, of so many pixels each.
MOVES, STEP = 60, 2
MOVED = "N-27"


def plan(profile: int) -> str:
    """The plan: nodes on a grid of 9 m that is shaken, two hosts and relays on mains power, and batteries that send."""
    chance = random.Random(7)
    contend = "contend = 3\n" if profile == 2 else ""
    lines = [f'[plan]\nname = "64 nodes"\nprofile = {profile}\n{contend}hours = 1.0\nseeds = 64\n']
    lines.append('[losses]\nfrom = "positions"\npreset = "factory-heavy-clutter"\nleast = 0.0\n')
    lines.append("[floor]\nextent = [0, 0, 72, 72]\n")
    for number in range(64):
        x, y = (round(9 * place + 4 + chance.uniform(-3, 3), 1) for place in (number % 8, number // 8))
        lines.append(f'[[node]]\nname = "N-{number:02}"\nx = {x}\ny = {y}\n{"" if number < 32 else "powered = " + chr(34) + "mains" + chr(34)}\n')
    lines += ['[[host]]\nnode = "N-36"\n', '[[host]]\nnode = "N-45"\nrank = 1\n']
    lines += [f'[[stream]]\nfrom = "N-{number:02}"\nevery = {chance.choice([30, 45, 60])}\ndeadline = 30\n' for number in range(32)]
    lines.append('[[requirement]]\nname = "In time"\nshare = 0.95\n')
    return "\n".join(lines)


def main() -> int:
    """Measures, and prints a line for each thing."""
    reader = argparse.ArgumentParser(description=__doc__)
    reader.add_argument("runs", nargs="?", type=int, default=7)
    reader.add_argument("--profile", type=int, default=1)
    reader.add_argument("--write")
    chosen = reader.parse_args()
    text = plan(chosen.profile)
    if chosen.write:
        pathlib.Path(chosen.write).write_text(text)
        return 0
    from browser import Browser

    from foldcairn import studio

    found: dict[str, list[float]] = {"first picture, s": [], "first answers, s": [], "frames a second": [], "8 seeds after the last movement, s": []}
    with tempfile.TemporaryDirectory() as home:
        folder = pathlib.Path(home)
        (folder / "plan.toml").write_text(text)
        page = studio.write(folder / "plan.toml", folder / "studio.html")
        print(f"page: {page.stat().st_size / 1e6:.2f} MB; load {os.getloadavg()[0]:.1f}")
        for _ in range(chosen.runs):
            with Browser(folder, WIDTH, HEIGHT) as browser:
                one_run(browser, page.as_uri(), found)
    for name, values in found.items():
        best = max(values) if name.startswith("frames") else min(values)
        print(f"{name}: {best:.2f}, median {statistics.median(values):.2f}")
    print(f"load {os.getloadavg()[0]:.1f}")
    return 0


def one_run(browser: Any, address: str, found: dict[str, list[float]]) -> None:
    """Opens the page, drags a node, and lets it go."""
    browser.call("Emulation.setDeviceMetricsOverride", width=WIDTH, height=HEIGHT, deviceScaleFactor=1, mobile=False)
    browser.call(
        "Page.addScriptToEvaluateOnNewDocument",
        source="globalThis.times = {}; const until = setInterval(() => { const now = performance.now();"
        " if (!times.picture && document.querySelectorAll('#map [data-name]').length === 64)"
        " requestAnimationFrame(() => setTimeout(() => { times.picture ??= performance.now(); }));"
        " if (['few', 'all'].includes(document.body?.dataset.ready)) { times.answers = now; clearInterval(until); } }, 5);",
    )
    browser.call("Page.navigate", url=address)
    browser.wait("document.body?.dataset.ready === 'all'")
    found["first picture, s"].append(browser.evaluate("times.picture") / 1000)
    found["first answers, s"].append(browser.evaluate("times.answers") / 1000)
    # Frames in which the map was drawn, by how often its ground is.
    browser.evaluate(
        "(() => { globalThis.drawn = []; const old = foldcairnPage.map.ground.draw; foldcairnPage.map.ground.draw = function (map, shown) {"
        " drawn.push(performance.now()); return old.call(this, map, shown); }; })()"
    )
    box = f"document.querySelector('[data-name=\"{MOVED}\"] .symbol').getBoundingClientRect()"
    x, y = browser.evaluate(f"(box => [box.x + box.width / 2, box.y + box.height / 2])({box})")

    def mouse(kind: str, at: float) -> None:
        browser.call("Input.dispatchMouseEvent", type=kind, x=at, y=y, button="left", buttons=1, clickCount=1)

    mouse("mouseMoved", x)
    mouse("mousePressed", x)
    start = browser.evaluate("performance.now()")
    for step in range(MOVES):
        mouse("mouseMoved", x + STEP * (step + 1))
        time.sleep(0.016)
    end = browser.evaluate("performance.now()")
    count = browser.evaluate(f"drawn.filter((at) => at > {start} && at <= {end}).length")
    found["frames a second"].append(1000 * count / (end - start))
    # When the table of the answers has those of 8 draws of the place at which the mouse was let go.
    browser.evaluate(
        "(() => { globalThis.last = null; const generation = Number(document.body.dataset.generation);"
        " const after = () => { const found = foldcairnPage.found;"
        " if (found.plan === foldcairnPage.store.state.plan && document.body.dataset.older === 'false' && Number(document.body.dataset.done) >= 8"
        " && document.body.dataset.generation === String(found.generation)) requestAnimationFrame(() => { last = performance.now(); });"
        " else setTimeout(after, 4); }; globalThis.begin = () => { globalThis.begun = performance.now(); after(); }; })()"
    )
    browser.evaluate("document.getElementById('map').addEventListener('pointerup', () => begin(), { once: true, capture: true })")
    mouse("mouseReleased", x + STEP * MOVES)
    browser.wait("last !== null")
    found["8 seeds after the last movement, s"].append(browser.evaluate("last - begun") / 1000)


if __name__ == "__main__":
    sys.exit(main())
