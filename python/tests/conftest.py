"""What all tests share: the program, and programs that are broken.

The program is that of the environment variable FOLDCAIRN, else the one that the repository has built, else the one that it has
stored.
"""

from __future__ import annotations

import gc
import os
import warnings
from collections.abc import Callable, Iterator
from concurrent.futures import ProcessPoolExecutor, ThreadPoolExecutor
from pathlib import Path

import pytest
from browser import Browser
from gate import pytest_configure, pytest_sessionfinish, pytest_terminal_summary
from hypothesis import HealthCheck, settings
from measured import pytest_collection, pytest_runtestloop
from studio_page import page, window

__all__ = [
    "EXAMPLES", "REPOSITORY", "page", "pytest_collection", "pytest_configure", "pytest_runtestloop", "pytest_sessionfinish",
    "pytest_terminal_summary", "window",
]  # fmt: skip

REPOSITORY = Path(__file__).resolve().parents[2]
EXAMPLES = REPOSITORY / "examples"

_PROGRAMS = [REPOSITORY / "crates" / "foldcairn" / "out" / "foldcairn", REPOSITORY / "bin" / "foldcairn-x86_64-linux"]
if not os.environ.get("FOLDCAIRN"):
    _present = [path for path in _PROGRAMS if path.is_file()]
    if not _present:
        pytest.exit("there is no program: run ./foldcairn once, or set the environment variable FOLDCAIRN to a program", 2)
    os.environ["FOLDCAIRN"] = str(_present[0])

# A run takes some milliseconds, and the machine may be busy: so there is no deadline, and the same examples come each time.
settings.register_profile("foldcairn", deadline=None, derandomize=True, suppress_health_check=[HealthCheck.too_slow])
settings.load_profile("foldcairn")


def pytest_collection_finish() -> None:
    """What is imported by now stays, so it is never looked through for what could go; and that is done more rarely."""
    gc.collect()
    gc.freeze()
    gc.set_threshold(10_000, 20, 20)


@pytest.fixture(autouse=True)
def _quiet() -> None:
    """Warnings are tested where they are meant."""
    warnings.simplefilter("ignore")


@pytest.fixture(autouse=True)
def _threads(request: pytest.FixtureRequest, monkeypatch: pytest.MonkeyPatch) -> None:
    """Threads where no executor is given, since a process for each processor costs more than most tests; a test with the mark
    `processes` has two processes."""
    from foldcairn.many import executors

    if request.node.get_closest_marker("processes") is None:
        monkeypatch.setattr(executors, "ProcessPoolExecutor", lambda jobs, **_: ThreadPoolExecutor(2))
    else:
        monkeypatch.setattr(executors, "ProcessPoolExecutor", lambda jobs, **words: ProcessPoolExecutor(2, **words))


@pytest.fixture
def fake(tmp_path: Path) -> Callable[[str], Path]:
    """Makes a program of a shell script."""

    def make(script: str) -> Path:
        path = tmp_path / "fake"
        path.write_text(f"#!/bin/sh\n{script}\n")
        path.chmod(0o755)
        return path

    return make


@pytest.fixture
def undrawn(monkeypatch: pytest.MonkeyPatch) -> None:
    """Pages whose pictures are made and not drawn, which takes most of the time of a page: for tests of their words."""
    from foldcairn.draw import style

    monkeypatch.setattr(style, "rendered", lambda figure, kind: b"<svg/>")


@pytest.fixture(scope="session")
def page_given(tmp_path_factory: pytest.TempPathFactory) -> dict[str, object]:
    """All that a page can be given."""
    from PIL import Image

    path = tmp_path_factory.mktemp("site") / "site.png"
    Image.new("RGB", (16, 10), "#e8e4d8").save(path)
    return {
        "title": "failover", "site": "a room", "plan": "one backup", "notes": "For <us>.\n\nIn two parts.", "receivers": {(3, 0): "hosts"},
        "positions": {1: (0, 0), 2: (1, 0), 3: (0, 1)}, "battery": {"capacity_mah": 2500, "receive_ma": 20}, "background": path,
        "extent": (-1, 2, -1, 2),
    }  # fmt: skip


@pytest.fixture(scope="session")
def failover_page(page_given: dict[str, object]) -> str:
    """The page of the worked failover with all of that, which is made once."""
    from networks import FAILOVER, log_of

    from foldcairn.pages import page

    return page.text(log_of(FAILOVER), **page_given)


@pytest.fixture(scope="session")
def browser(tmp_path_factory: pytest.TempPathFactory) -> Iterator[Browser]:
    """One Chromium for all pages."""
    with Browser(tmp_path_factory.mktemp("chromium")) as started:
        yield started
