"""The five commands of docs/PLANNING.md, from a plan file to a report, for the factory hall, with a shorter run and few draws."""

from __future__ import annotations

import re
from pathlib import Path

import factory
import pytest
from conftest import REPOSITORY

from foldcairn.__main__ import main

HOURS = "hours = 0.1"


def commands() -> list[list[str]]:
    """The words of each command of the page."""
    page = (REPOSITORY / "docs" / "PLANNING.md").read_text(encoding="utf-8")
    block = page.partition("## A plan in five commands")[2].partition("```sh\n")[2].partition("```")[0]
    return [line.split()[1:] for line in block.splitlines()]


def plan_of(folder: Path) -> None:
    """The factory with a shorter run, in which all that happens is as much earlier."""
    text = re.sub(r"^hours = 1\.0", HOURS, factory.PLAN, flags=re.MULTILINE).replace("seeds = 100", "seeds = 2")
    for old, new in (("[600.0, 2400.0]", "[60.0, 240.0]"), ("for = 300.0", "for = 30.0"), ("at = 720.0", "at = 72.0"), ("at = 1200.0", "at = 120.0")):
        assert old in text
        text = text.replace(old, new)
    factory.write(folder, text)


def test_they_are_five() -> None:
    assert [words[0] for words in commands()] == ["new", "verify", "search", "failures", "report"]


@pytest.mark.filterwarnings("ignore")
def test_the_factory_by_commands(tmp_path: Path, monkeypatch: pytest.MonkeyPatch, capsys: pytest.CaptureFixture[str]) -> None:
    monkeypatch.chdir(tmp_path)
    made, verify, search, failures, report = commands()
    assert main(made) == 0 and (tmp_path / "hall" / "plan.toml").is_file()
    plan_of(tmp_path / "hall")
    capsys.readouterr()
    assert main([*verify, "--seeds", "1", "--jobs", "2"]) in (10, 11)
    assert "of 4 requirements:" in capsys.readouterr().out
    assert main([*failures, "--seeds", "1", "--jobs", "2", "--nodes", "A-101,R-201,L-01"]) in (10, 11)
    assert main([*search, "--seeds", "1", "--jobs", "2"]) in (0, 10, 11)
    assert main([*report, "--seeds", "1", "--charts", "1", "--jobs", "2"]) == 0 and "</html>" in (tmp_path / "report.html").read_text(encoding="utf-8")
    assert "of 3 nodes:" in capsys.readouterr().out and (tmp_path / "failures.svg").is_file() and list((tmp_path / "kept").glob("*.json"))
