#!/usr/bin/env python3
"""Draws the picture of the planner's page in docs/pictures: headless Chromium opens the page of the example, and waits for all draws.

Usage: tools/studio_picture.py [FILE], docs/pictures/studio.png without it. Another Chromium or other fonts give other bytes. Tested, not proved.
"""

from __future__ import annotations

import base64
import pathlib
import sys
import tempfile

TOP = pathlib.Path(__file__).resolve().parent.parent
sys.path[:0] = [str(TOP / "python/src"), str(TOP / "python/tests")]
from browser import Browser  # noqa: E402

from foldcairn import studio  # noqa: E402

WIDTH, HEIGHT = 1400, 860


def main() -> int:
    """Writes the picture."""
    target = pathlib.Path(sys.argv[1]) if len(sys.argv) > 1 else TOP / "docs/pictures/studio.png"
    with tempfile.TemporaryDirectory() as home:
        page = studio.write(None, pathlib.Path(home, "studio.html"))
        with Browser(pathlib.Path(home), WIDTH, HEIGHT) as browser:
            browser.call("Emulation.setDeviceMetricsOverride", width=WIDTH, height=HEIGHT, deviceScaleFactor=1, mobile=False)
            browser.call("Emulation.setEmulatedMedia", features=[{"name": "prefers-color-scheme", "value": "light"}])
            browser.call("Page.navigate", url=page.as_uri())
            browser.wait("document.body?.dataset.ready === 'all'")
            browser.wait("document.getElementById('progress').textContent.includes('draws')")
            target.write_bytes(base64.b64decode(browser.call("Page.captureScreenshot", format="png")["data"]))
    return 0


if __name__ == "__main__":
    sys.exit(main())
