"""Chromium without a window, for tests of pages: opens a page without network, tells what its console says, does what a user
does with the mouse, and takes pictures. It is spoken to through a pipe, by the protocol of its developer tools."""

from __future__ import annotations

import base64
import fcntl
import io
import itertools
import json
import os
import select
import shutil
import signal
import subprocess
import time
from pathlib import Path
from types import TracebackType
from typing import Any

import numpy as np
from PIL import Image

CHROMIUM = shutil.which("chromium") or shutil.which("chromium-browser") or shutil.which("google-chrome")
# How long the browser may take for one answer, or a page for what is waited for, in seconds; the machine may be busy.
_PATIENCE = 240.0


class Browser:
    """A browser with one page. `console` has what the page wrote there, and what went wrong in its scripts."""

    def __init__(self, folder: Path, width: int = 1240, height: int = 1300) -> None:
        self.console: list[str] = []
        self._numbers = itertools.count(1)
        self._rest = b""
        # The browser reads commands at 3 and writes answers at 4.
        there, self._commands = (fcntl.fcntl(end, fcntl.F_DUPFD, 10) for end in os.pipe())
        self._answers, back = (fcntl.fcntl(end, fcntl.F_DUPFD, 10) for end in os.pipe())

        def connect() -> None:
            os.dup2(there, 3)
            os.dup2(back, 4)

        words = [
            str(CHROMIUM), "--headless=new", "--no-sandbox", "--disable-gpu", "--no-first-run", "--remote-debugging-pipe",
            f"--user-data-dir={folder / 'profile'}", "--host-resolver-rules=MAP * ~NOTFOUND", "--hide-scrollbars",
            f"--window-size={width},{height}", "about:blank",
        ]  # fmt: skip
        self._process = subprocess.Popen(
            words, pass_fds=(3, 4), preexec_fn=connect, stdout=subprocess.DEVNULL, stderr=subprocess.DEVNULL,
            start_new_session=True, env={**os.environ, "HOME": str(folder)},
        )  # fmt: skip
        os.close(there)
        os.close(back)

    def __enter__(self) -> Browser:
        try:
            target = self._call("Target.createTarget", {"url": "about:blank"})["targetId"]
            self._session = self._call("Target.attachToTarget", {"targetId": target, "flatten": True})["sessionId"]
            for part in ("Runtime", "Log", "Page"):
                self.call(f"{part}.enable")
        except BaseException:
            self.__exit__(None, None, None)
            raise
        return self

    def __exit__(self, kind: type[BaseException] | None, error: BaseException | None, trace: TracebackType | None) -> None:
        os.killpg(self._process.pid, signal.SIGKILL)
        self._process.wait()
        os.close(self._commands)
        os.close(self._answers)

    def call(self, method: str, **arguments: Any) -> Any:
        """The answer to a command about the page."""
        return self._call(method, arguments, self._session)

    def _call(self, method: str, arguments: dict[str, Any], session: str | None = None) -> Any:
        number = next(self._numbers)
        command = {"id": number, "method": method, "params": arguments, **({"sessionId": session} if session else {})}
        os.write(self._commands, json.dumps(command).encode() + b"\0")
        while True:
            told = self._told()
            if told.get("id") == number:
                assert "error" not in told, told["error"]
                return told["result"]

    def _told(self) -> dict[str, Any]:
        """The next answer or event; of events, what concerns the console is kept."""
        until = time.monotonic() + _PATIENCE
        while b"\0" not in self._rest:
            ready, _, _ = select.select([self._answers], [], [], max(0, until - time.monotonic()))
            assert ready, "the browser does not answer"
            block = os.read(self._answers, 1 << 20)
            assert block, "the browser is gone"
            self._rest += block
        message, self._rest = self._rest.split(b"\0", 1)
        told: dict[str, Any] = json.loads(message)
        if told.get("method") in ("Runtime.consoleAPICalled", "Runtime.exceptionThrown", "Log.entryAdded"):
            self.console.append(json.dumps(told["params"])[:500])
        return told

    def evaluate(self, expression: str) -> Any:
        """The value of an expression of JavaScript in the page."""
        told = self.call("Runtime.evaluate", expression=expression, returnByValue=True, awaitPromise=True)
        assert "exceptionDetails" not in told, told["exceptionDetails"]
        return told["result"].get("value")

    def wait(self, expression: str) -> None:
        """Waits until an expression is true."""
        until = time.monotonic() + _PATIENCE
        while not self.evaluate(expression):
            assert time.monotonic() < until, f"it never came to {expression}; the console has {self.console}"
            time.sleep(0.05)

    def open(self, address: str) -> None:
        """Opens a page, and waits until its timeline is shown."""
        self.call("Page.navigate", url="about:blank")
        self.call("Page.navigate", url=address)
        self.wait("document.body?.dataset.ready === 'yes'")
        self.evaluate("document.getElementById('timeline').scrollIntoView()")

    def drag(self, start: tuple[float, float], end: tuple[float, float]) -> None:
        """Draws the mouse with its button down from one point of the window to another."""
        middle = (start[0] + end[0]) / 2, (start[1] + end[1]) / 2
        for kind, (x, y) in (("mouseMoved", start), ("mousePressed", start), ("mouseMoved", middle), ("mouseMoved", end), ("mouseReleased", end)):
            self.call("Input.dispatchMouseEvent", type=kind, x=x, y=y, button="left", buttons=1, clickCount=1)

    def picture(self) -> np.ndarray:
        """The window as rows of pixels, red, green and blue."""
        data = base64.b64decode(self.call("Page.captureScreenshot", format="png")["data"])
        return np.asarray(Image.open(io.BytesIO(data)).convert("RGB")).astype(int)
