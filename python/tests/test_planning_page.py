"""docs/PLANNING.md: its code runs in order and prints what the page shows below it; and how long its tables take."""

from __future__ import annotations

import re
import time
from concurrent.futures import ThreadPoolExecutor
from pathlib import Path

import matplotlib
import pages
import pytest
from conftest import REPOSITORY

from foldcairn import planning
from foldcairn.many import executors

PAGE = REPOSITORY / "docs" / "PLANNING.md"


@pytest.fixture(scope="module")
def folder(tmp_path_factory: pytest.TempPathFactory) -> Path:
    """Where the code of the page writes its pictures."""
    return tmp_path_factory.mktemp("page")


@pytest.fixture(scope="module")
def page(folder: Path) -> tuple[str, dict[str, object]]:
    """The page with what its code prints now, and the names that the code makes. Threads, since processes that are forked from all
    the tests cost more; the answers are the same."""
    with pytest.MonkeyPatch.context() as patched:
        patched.setattr(executors, "ProcessPoolExecutor", lambda jobs, **_: ThreadPoolExecutor(2))
        return pages.run(PAGE, folder)


def test_the_page_shows_what_its_code_prints(page: tuple[str, dict[str, object]]) -> None:
    assert page[0].splitlines() == PAGE.read_text(encoding="utf-8").splitlines()


def test_the_page_has_the_pictures_that_its_code_draws(page: tuple[str, dict[str, object]], folder: Path) -> None:
    drawn = {path.name: path.read_bytes() for path in folder.iterdir()}
    kept = {path.name: path.read_bytes() for path in pages.PICTURES.iterdir()}
    assert set(drawn) == set(kept) == set(re.findall(r"\]\(pictures/planning/([^)]*)\)", page[0]))
    # Other versions of matplotlib write other bytes for the same picture.
    assert drawn == kept or not matplotlib.__version__.startswith("3.6.")


def test_all_code_of_the_page_is_run() -> None:
    text = PAGE.read_text(encoding="utf-8")
    assert len(pages.blocks(text)) == text.count("```python") >= 15


def test_the_network_takes_at_most_25_lines(page: tuple[str, dict[str, object]]) -> None:
    first = pages.blocks(PAGE.read_text(encoding="utf-8"))[0]
    assert len([line for line in first.splitlines() if line.strip()]) <= 25
    network = page[1]["network"]
    assert len(network.nodes) == 25 and network.seconds == 1_800


def test_all_tables_of_the_network_take_at_most_5_seconds(page: tuple[str, dict[str, object]]) -> None:
    begun = time.process_time()
    planning.tables(page[1]["log"])
    assert time.process_time() - begun < 5
