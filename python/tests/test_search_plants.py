"""Searches that run: three made plants, whose best is known by verifying each setting; a search that is stopped; the command and the picture."""

from __future__ import annotations

import json
import os
import signal
import subprocess
import sys
import time
from collections.abc import Iterator
from concurrent.futures import Executor, ThreadPoolExecutor
from dataclasses import replace
from pathlib import Path

import pandas as pd
import pytest
import search_plants
from conftest import REPOSITORY

import foldcairn
from foldcairn import planning, plot
from foldcairn.__main__ import main
from foldcairn.plan import Plan, Requirement
from foldcairn.requirements import verdicts
from foldcairn.search import Found, shown, space


@pytest.fixture(scope="module")
def threads() -> Iterator[Executor]:
    with ThreadPoolExecutor(2) as pool:
        yield pool


@pytest.fixture(scope="module")
def results(threads: Executor) -> dict[str, Found]:
    """What is found in each plant."""
    return {name: planning.search(search_plants.plant(name), seeds=16, executor=threads, progress=False) for name in search_plants.NAMES}


def enumerated(made: Plan, threads: Executor) -> pd.DataFrame:
    """Each setting verified on its own, with its life by the same draws: a row for each, the best first."""
    rows = []
    for setting in space.Space.of(made).all():
        applied = space.applied(made, setting)
        table = verdicts(replace(applied, requirements=[*made.requirements, Requirement("life", years=1.0)]), 16, executor=threads, progress=False)
        rows.append({**setting, "met": (table["verdict"].iloc[:-1] == "met").all(), "life": table["value"].iloc[-1]})
    return pd.DataFrame(rows).sort_values(["met", "life"], ascending=False, ignore_index=True)


@pytest.mark.parametrize("name", search_plants.NAMES)
def test_the_best_of_a_plant_is_that_of_all_its_settings(name: str, results: dict[str, Found], threads: Executor) -> None:
    known, told = enumerated(search_plants.plant(name), threads), results[name]
    assert len(told.table) == len(known) and bool(known["met"][0]) and told.status == 0
    assert told.setting == known.drop(columns=["met", "life"]).iloc[0].to_dict()
    # None that is called met or not met is the other.
    both = told.table.merge(known, on=list(told.setting))
    assert both.loc[both["verdict"] == "met", "met"].all() and not both.loc[both["verdict"] == "not met", "met"].any()


def test_the_best_is_what_verify_says(results: dict[str, Found], threads: Executor) -> None:
    """The verdicts are those of `planning.verdicts` for the best plan, digit by digit, but for what would help."""
    told = results["hosts"]
    assert told.best is not None and told.verdicts is not None
    again = planning.verdicts(told.best, 16, executor=threads, progress=False)
    pd.testing.assert_frame_equal(told.verdicts.drop(columns="helps"), again.drop(columns="helps"))


def test_the_picture_has_each_setting_that_was_run(results: dict[str, Found], threads: Executor, tmp_path: Path) -> None:
    """Of parts of draws no share is drawn; of shares each setting has a sign, and the best its name."""
    with pytest.raises(ValueError, match="no setting has both a life and a share of packets"):
        plot.search(results["relays"])
    made = search_plants.plant("relays")
    for one in made.requirements:
        one.part = None
    told = planning.search(made, {"contend": [1, 4]}, seeds=64, executor=threads, progress=False)
    path = plot.save(plot.search(told, title="Relays"), tmp_path / "relays.svg")
    text = path.read_text()
    assert "Relays" in text and space.shown(told.setting) in text and "years until the first battery is empty" in text
    drawn = plot.search(told).axes[0]
    count = sum(len(one.get_offsets()) for one in drawn.collections if hasattr(one, "get_offsets") and one.get_label() and not one.get_label().startswith("_"))
    assert count == told.table["margin"].notna().sum()


def test_words_of_a_terminal(results: dict[str, Found]) -> None:
    lines = shown.table(results["intervals"]).splitlines()
    assert lines[0].split() == ["sends", "contend", "interval", "verdict", "fails", "first", "life", "margin", "%", "of", "draws"]
    assert lines[21] == ".. and 16 more" and lines[-1].startswith("of 36 settings: 1 met, ")
    assert lines[23].startswith("the best that meets all requirements: sends ")


# The command.


@pytest.fixture
def file(tmp_path: Path) -> str:
    path = tmp_path / "plan.toml"
    path.write_text(search_plants.plant("intervals").text())
    return str(path)


def test_command(file: str, tmp_path: Path, capsys: pytest.CaptureFixture[str]) -> None:
    """The table, the best plan as a file, and tables for others; options are in place of keys of the plan."""
    best, table, picture = tmp_path / "best.toml", tmp_path / "settings.csv", tmp_path / "picture.svg"
    words = ["search", file, "--sends", "2", "--contend", "0", "--interval", "0.3,0.5", "--seeds", "8", "--jobs", "1"]
    words += ["--best", str(best), "--save", str(table)]
    assert main(words) == 0
    assert "the best that meets all requirements: sends 2, contend 0, interval 0.5" in capsys.readouterr().out
    read = pd.read_csv(table)
    assert read["interval"].tolist() == [0.5, 0.3] and read["verdict"].tolist() == ["met", "outdone"]
    made = Plan.read(best)
    assert (made.settings.sends, made.settings.contend, made.streams["tank"].interval) == (2, 0, 10) and made.search.sends == [1, 2, 3]
    assert main([*words, "--picture", str(picture)]) == 1 and "no setting has both a life and a share" in capsys.readouterr().err


def test_command_where_nothing_is_met(file: str, tmp_path: Path, capsys: pytest.CaptureFixture[str]) -> None:
    best = tmp_path / "best.toml"
    assert main(["search", file, "--sends", "1", "--contend", "0", "--interval", "1", "--seeds", "8", "--jobs", "1", "--best", str(best)]) == 10
    assert "none meets all requirements; the nearest: " in capsys.readouterr().out and not best.exists()


@pytest.mark.parametrize("words, said", [
    (["--sends", "9"], "`sends` is [9], and has to be a list of whole numbers from 1 to 4"), (["--sends", ""], "`sends` has no value"),
    (["--backups", "tnak"], "`backups` is 'tnak', and no node has this name; did you mean tank?"), (["--settings", "x"], "`settings` is 'x'"),
    (["--relays", "tank"], "`relays` has tank, which is a node already"), (["--best", "FILE"], "plan.toml is the plan itself; name another file"),
])  # fmt: skip
def test_command_that_fails(words: list[str], said: str, file: str, capsys: pytest.CaptureFixture[str]) -> None:
    assert main(["search", file, *(file if word == "FILE" else word for word in words)]) == 1
    assert said in capsys.readouterr().err


def test_the_page_shows_what_comes(tmp_path: Path, monkeypatch: pytest.MonkeyPatch, capsys: pytest.CaptureFixture[str]) -> None:
    """The plan of docs/SEARCH.md, which has the network of docs/REQUIREMENTS.md, and what is said of it."""
    network, page = ((REPOSITORY / "docs" / name).read_text() for name in ("REQUIREMENTS.md", "SEARCH.md"))
    text = network.partition("```toml pump.toml\n")[2].partition("[[requirement]]")[0] + page.partition("```toml\n")[2].partition("```")[0]
    (tmp_path / "pump.toml").write_text(text)
    monkeypatch.chdir(tmp_path)
    assert main(["search", "pump.toml", "--jobs", "2"]) == 0
    assert capsys.readouterr().out == page.partition("```text\n")[2].partition("```")[0]


def test_a_kill_and_what_goes_on(file: str, tmp_path: Path) -> None:
    """A search that is killed leaves whole draws; the next one takes them, and says what one says that ran through."""
    words = [sys.executable, "-m", "foldcairn", "search", file, "--jobs", "1", "--seeds", "8", "--contend", "0"]
    environment = {**os.environ, "PYTHONPATH": str(Path(foldcairn.__file__).parents[1])}
    folder = tmp_path / "kept"
    stopped = subprocess.Popen([*words, "--resume", str(folder)], env=environment, stdout=subprocess.DEVNULL, stderr=subprocess.DEVNULL)
    until = time.monotonic() + 600
    while len(list(folder.glob("*.json"))) < 20 and time.monotonic() < until:
        time.sleep(0.02)
    stopped.send_signal(signal.SIGKILL)
    stopped.wait()
    kept = {path.name: path.stat().st_mtime_ns for path in folder.glob("*.json")}
    assert len(kept) >= 20
    for name, more in (("two.json", ["--resume", str(folder)]), ("three.json", [])):
        subprocess.run([*words, "--save", str(tmp_path / name), *more], env=environment, check=False, capture_output=True)
    two, three = ((tmp_path / name).read_bytes() for name in ("two.json", "three.json"))
    assert two == three and len(json.loads(two)["settings"]) == 12
    after = {path.name: path.stat().st_mtime_ns for path in folder.glob("*.json")}
    assert kept.items() <= after.items() and len(after) > len(kept)
