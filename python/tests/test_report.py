"""The command `python3 -m foldcairn report`."""

from __future__ import annotations

import io
import json
import sys
from dataclasses import replace
from pathlib import Path

import pandas as pd
import pytest
from networks import FAILOVER, LINE, log_of

import foldcairn
from foldcairn import __main__, planning
from foldcairn.__main__ import main
from foldcairn.model.scenario import Scenario
from foldcairn.pages import page as pages, report, sample_page, titles as titling
from foldcairn.runs import losses, program, results, running


def test_all_tables_as_text(tmp_path: Path, capsys: pytest.CaptureFixture[str]) -> None:
    path = tmp_path / "failover.scenario"
    path.write_text(FAILOVER)
    assert __main__.main(["report", str(path)]) == 0
    told = capsys.readouterr()
    assert told.err == ""
    assert told.out.startswith("Which host serves when\n\n rank  host  host_boot  first_seconds")
    assert "Outages at changes of hosts, by stream\n\n from_host  to_host  source  stream  off_seconds" in told.out
    rows = [line.split() for line in told.out.splitlines()]
    # The rows of the two hosts, and the one of the outage.
    assert ["0", "1", "1", "21.000", "21.000", "1", "3", "21.068", "1", "1", "21.067", "0.000"] in rows
    assert ["1", "2", "1", "109.000", "125.000", "2", "2", "109.068", "1", "1", "109.067", "0.000"] in rows
    assert ["1", "2", "24.000", "21.000", "109.000", "37.035", "125.035", "True", "88.000", "101.035"] in rows


def test_from_standard_input_with_tables_that_have_no_rows(capsys: pytest.CaptureFixture[str], monkeypatch: pytest.MonkeyPatch) -> None:
    class Input:
        buffer = io.BytesIO(LINE.encode())

    monkeypatch.setattr(sys, "stdin", Input)
    assert __main__.main(["report", "-"]) == 0
    assert "Outages at changes of hosts\n\nnone\n" in capsys.readouterr().out


@pytest.fixture(scope="module")
def expected() -> dict[str, pd.DataFrame]:
    return planning.tables(log_of(FAILOVER))


@pytest.fixture
def once(monkeypatch: pytest.MonkeyPatch) -> None:
    """The command takes the run that other tests have made; that it runs the file by itself is seen above."""
    monkeypatch.setattr(results, "log", lambda text: log_of(text.decode()))


def test_all_tables_as_files(expected: dict[str, pd.DataFrame], once: None, tmp_path: Path, capsys: pytest.CaptureFixture[str]) -> None:
    path, folder = tmp_path / "failover.scenario", tmp_path / "a" / "tables"
    path.write_text(FAILOVER)
    assert __main__.main(["report", str(path), "--csv", str(folder)]) == 0
    assert capsys.readouterr().out == ""
    assert sorted(file.stem for file in folder.iterdir()) == sorted(expected)
    packets = pd.read_csv(folder / "packets.csv")
    assert packets["fate"].tolist() == ["delivered", "delivered"]
    assert packets["sent_seconds"].tolist() == pytest.approx([37.034, 125.034])


def test_all_tables_as_json(expected: dict[str, pd.DataFrame], once: None, tmp_path: Path, capsys: pytest.CaptureFixture[str]) -> None:
    path = tmp_path / "failover.scenario"
    path.write_text(FAILOVER)
    assert __main__.main(["report", str(path), "--json"]) == 0
    read = json.loads(capsys.readouterr().out)
    assert read.pop("versions") == program.versions()
    assert {name: len(rows) for name, rows in read.items()} == {name: len(table) for name, table in expected.items()}
    assert read["packets"][1]["sent_seconds"] == pytest.approx(125.034, abs=1e-12)


def test_a_text_that_is_rejected(tmp_path: Path, capsys: pytest.CaptureFixture[str]) -> None:
    path, folder = tmp_path / "wrong.scenario", tmp_path / "tables"
    path.write_text(LINE + "rate 1 0 21\n")
    assert __main__.main(["report", str(path), "--csv", str(folder)]) == 1
    told = capsys.readouterr()
    assert told.out == "" and "line 14" in told.err and "from -20 to 20 ppm" in told.err
    assert not folder.exists()


def test_a_file_that_cannot_be_read(tmp_path: Path, capsys: pytest.CaptureFixture[str], monkeypatch: pytest.MonkeyPatch) -> None:
    for words, says in (
        (["report", str(tmp_path / "nowhere")], f"there is no file '{tmp_path / 'nowhere'}'"),
        (["report", str(tmp_path)], f"'{tmp_path}' is a folder, not a file"),
        (["explain", str(tmp_path)], "is a folder, not a file"),
        (["compare", "A=" + str(tmp_path), "B=" + str(tmp_path)], "is a folder, not a file"),
    ):
        assert __main__.main(words) == 3
        told = capsys.readouterr()
        assert says in told.err and told.out == "" and "Errno" not in told.err

    def denied(*_: object) -> bytes:
        raise PermissionError(13, "Permission denied")

    monkeypatch.setattr(Path, "read_bytes", denied)
    assert __main__.main(["report", "kept"]) == 3
    assert capsys.readouterr().err == "foldcairn: the file 'kept' can't be read: Permission denied\n"


DRAW = "one draw, seed"


@pytest.fixture
def network(tmp_path: Path, monkeypatch: pytest.MonkeyPatch) -> Scenario:
    """A line of three nodes whose second link loses much, in the files line.scenario, links.csv and line.network."""
    monkeypatch.chdir(tmp_path)
    made = Scenario.read(LINE.replace("frames 12", "frames 40")).every(4, 3, start=40)
    Path("line.scenario").write_text(made.text(warn=False))
    Path("links.csv").write_text("from,to,prr\n2,3,0.5\n3,2,0.5\n")
    made.pair(2, 3, 0.5)
    Path("line.network").write_text(made.network_text(warn=False))
    return made


@pytest.mark.parametrize(
    ("words", "seed"),
    [
        (["line.scenario", "--ratios", "links.csv"], 1), (["line.scenario", "--ratios", "links.csv", "--seed", "3"], 3), (["line.network"], 1),
        (["line.network", "--seed", "3"], 3), (["drawn.scenario"], 4),
    ],
)  # fmt: skip
def test_ratios_are_drawn_once_and_that_is_said(
    words: list[str], seed: int, network: Scenario, capsys: pytest.CaptureFixture[str], undrawn: None
) -> None:  # fmt: skip
    """What is told is a run with the losses of the seed, and each table says so in its title."""
    Path("drawn.scenario").write_text(losses.draw(network, 4).text(warn=False))
    drawn = words == ["drawn.scenario"]
    log = results.log(Path("drawn.scenario"), warn=False) if drawn else running.by_seed(network, seed)
    expected = planning.tables(log)
    assert main(["report", *words]) == 0
    told = capsys.readouterr().out
    titles = [line for line in told.splitlines() if DRAW in line]
    assert len(titles) == len(report.SHOWN) and all(line.endswith(f"({DRAW} {seed})") for line in titles)
    without = replace(log, origin=replace(log.origin, seed=None))
    assert told == report.shown(expected, {name: f"{title} ({DRAW} {seed})" for name, title in titling.titles(without, None, {}).items()})
    assert expected["delivery-by-stream"]["ratio_of_put"][0] < 1
    assert main(["report", *words, "--json", "--html", "line.html"]) == 0
    assert json.loads(capsys.readouterr().out)["seed"] == seed
    page = Path("line.html").read_text()
    head = page[page.index("<h1>") : page.index("<h2")]
    assert f"<b>One draw, seed {seed}</b> (1 where none is named)" in head and f"The radios ({DRAW} {seed})" in page


def test_what_was_not_drawn_says_so(network: Scenario, capsys: pytest.CaptureFixture[str], undrawn: None) -> None:
    assert main(["report", "line.scenario", "--html", "line.html"]) == 0
    page = Path("line.html").read_text()
    assert "draw" not in page[page.index("<h1>") : page.index("<h2")] and "(one draw" not in page
    # A run in Python by hand, without its losses.
    assert "<b>No losses were drawn:</b> the reception ratios" in pages.text(results.log(network, warn=False))
    Path("whole.csv").write_text("from,to,prr\n2,3,1\n")
    for words in (["line.scenario"], ["line.scenario", "--ratios", "whole.csv"]):
        assert main(["report", *words]) == 0 and DRAW not in capsys.readouterr().out


def test_the_timeline_and_tables_of_one_seed_say_so(network: Scenario, capsys: pytest.CaptureFixture[str]) -> None:
    Path("drawn.scenario").write_text(losses.draw(network, 4).text(warn=False))
    assert main(["timeline", "drawn.scenario"]) == 0 and f"{DRAW} 4" in Path("timeline.svg").read_text()
    assert main(["timeline", "line.scenario"]) == 0 and DRAW not in Path("timeline.svg").read_text()
    for words in (["capacity", "line.network", "--every", "20"], ["importance", "line.network", "--seeds", "1-1"],
                  ["compare", "A=line.network", "B=line.network", "--seeds", "1", "--by", "sample"]):  # fmt: skip
        assert main([*words, "--jobs", "1"]) == 0
        assert capsys.readouterr().out.startswith("One draw, seed 1\n\n")
    assert "Means over one draw, seed 1; it gives no interval" in Path("plans.html").read_text()
    assert main(["importance", "line.network", "--seeds", "1-2", "--jobs", "1"]) == 0
    assert "draw" not in capsys.readouterr().out
    assert "one draw, seed 5" in foldcairn.run(network, seed=5, progress=False)._repr_html_()
    assert "It was run with one draw, seed 9. " in sample_page.text(planning.sample(network, [9], progress=False), "One", {})


@pytest.mark.parametrize(
    ("words", "says"),
    [
        (["line.scenario", "--seed", "2"], "line.scenario has no reception ratios, so there is nothing to draw by `--seed`: name them by `--ratios`"),
        (["drawn.scenario", "--seed", "2"], "the losses of drawn.scenario are drawn already, by seed 4: leave `--ratios` and `--seed` out"),
        (["drawn.scenario", "--ratios", "links.csv"], "are drawn already, by seed 4"), (["line.scenario", "--ratios", "none.csv"], "none.csv"),
    ],
)
def test_a_draw_that_cannot_be(words: list[str], says: str, network: Scenario, capsys: pytest.CaptureFixture[str]) -> None:
    Path("drawn.scenario").write_text(losses.draw(network, 4).text(warn=False))
    assert main(["report", *words]) == 1
    told = capsys.readouterr()
    assert says in told.err and told.out == ""


def test_too_many_losses(network: Scenario, capsys: pytest.CaptureFixture[str], monkeypatch: pytest.MonkeyPatch) -> None:
    def fails(*_: object, **__: object) -> None:
        raise losses.TooManyLosses(7, 3)

    # A program without the words `run SEED` and `log SEED` has its losses drawn first.
    monkeypatch.setattr(running, "takes_seed", lambda: False)
    monkeypatch.setattr(losses, "draw", fails)
    assert main(["report", "line.network"]) == 1
    assert str(losses.TooManyLosses(7, 3)) in capsys.readouterr().err
