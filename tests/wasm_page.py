#!/usr/bin/env python3
"""Whether foldcairn.wasm runs in a browser, from a page that is opened as a file: headless Chromium runs an example at once and in two
workers, samples with progress, and ends a call.

Usage: tests/wasm_page.py FOLDER, which has foldcairn.wasm and foldcairn.js. Status 0 where all is as it is due. Tested, not proved.
"""

from __future__ import annotations

import base64
import json
import pathlib
import subprocess
import sys
import tempfile

TOP = pathlib.Path(__file__).resolve().parent.parent
sys.path.insert(0, str(TOP / "python/tests"))
from browser import Browser  # noqa: E402

PAGE = """<!doctype html><meta charset="utf-8"><title>Foldcairn</title><body>
<script>%(script)s</script>
<script>
const bytes = Uint8Array.from(atob("%(module)s"), (letter) => letter.charCodeAt(0));
const { scenario, network, report, sample } = %(given)s;
const text = (answer) => new TextDecoder().decode(answer.output);
const said = [];
(async () => {
  const module = await Foldcairn.compile(bytes);
  said.push(["at once", text(Foldcairn.run(module, ["run"], scenario)) === report]);
  const pool = new Foldcairn.Pool(module, 2);
  const answers = await Promise.all([1, 2, 3].map(() => pool.run(["run"], scenario)));
  said.push(["in workers", answers.every((answer) => text(answer) === report)]);
  let done = 0;
  said.push(["sample", text(await pool.sample(network, 1, 20, { part: 5, progress: (seeds) => { done = seeds; } })) === sample && done === 20]);
  const control = new AbortController();
  setTimeout(() => control.abort(new Error("enough")), 100);
  const reason = await pool.run(["sample", "1", "100000000"], network, { signal: control.signal }).catch((error) => error.message);
  said.push(["ended", reason === "enough"]);
  pool.close();
})().catch((error) => said.push([String(error), false])).finally(() => {
  document.body.dataset.ready = "yes";
});
</script>
"""


def page(folder: pathlib.Path) -> str:
    """The page, with the module and its script in it."""
    network = (TOP / "tests/worked/three-in-a-line.network").read_text()
    sample = subprocess.run([TOP / "bin/foldcairn-plan-x86_64-linux", "sample", "1", "20"], input=network, capture_output=True, text=True)
    given = {
        "scenario": (TOP / "examples/packets-along-a-line.scenario").read_text(),
        "report": (TOP / "examples/expected/packets-along-a-line.report").read_text(),
        "network": network,
        "sample": sample.stdout,
    }
    module = base64.b64encode((folder / "foldcairn.wasm").read_bytes()).decode()
    return PAGE % {"script": (folder / "foldcairn.js").read_text(), "module": module, "given": json.dumps(given).replace("</", "<\\/")}


def main() -> int:
    """Opens the page, and compares what it says."""
    with tempfile.TemporaryDirectory() as home:
        file = pathlib.Path(home, "page.html")
        file.write_text(page(pathlib.Path(sys.argv[1])), encoding="utf-8")
        with Browser(pathlib.Path(home)) as browser:
            browser.call("Page.navigate", url=file.as_uri())
            browser.wait("document.body?.dataset.ready === 'yes'")
            said = browser.evaluate("said")
    print(", ".join(f"{name}: {'right' if right else 'WRONG'}" for name, right in said))
    return int(len(said) != 4 or not all(right for _, right in said))


if __name__ == "__main__":
    sys.exit(main())
