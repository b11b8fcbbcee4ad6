"""Tables as files for other tools: CSV, JSON, Excel, Parquet and the line protocol, and the option `--save` of all commands that write tables."""

from __future__ import annotations

import importlib.util
import json
from pathlib import Path

import numpy as np
import pandas as pd
import pytest
from conftest import EXAMPLES
from networks import FAILOVER, log_of
from plans import asked, pumps

from foldcairn import planning, report
from foldcairn.__main__ import main
from foldcairn.common.arguments import ArgumentError
from foldcairn.pages import saving
from foldcairn.runs import program

openpyxl = pytest.importorskip("openpyxl", reason="openpyxl is missing; tools/setup-python.sh --optional installs it")
LINE = EXAMPLES / "packets-along-a-line.scenario"


def tables() -> dict[str, pd.DataFrame]:
    """Two tables with all that cells may have: a formula, a control character, signs of the line protocol, and what is missing."""
    nodes = pd.DataFrame({"node": ["A 1", "B,2=x"], "joined_seconds": [1.5, np.nan], "rounds": [3, 4], "ended": [True, False], "why": ['=1+1 "x"', None]})
    notes = pd.DataFrame({"text": ["\x1b[31m", "-2"], "count": pd.array([7, pd.NA], dtype="Int64")})
    return {"nodes": nodes, "notes": notes}


def test_a_file_for_each_table_of_csv(tmp_path: Path) -> None:
    written = report.save(tables(), tmp_path / "new" / "hall.csv")
    assert [path.name for path in written] == ["hall-nodes.csv", "hall-notes.csv"]
    assert written[0].read_text().splitlines() == ["node,joined_seconds,rounds,ended,why", 'A 1,1.5,3,True,"\'=1+1 ""x"""', '"B,2=x",,4,False,']
    assert written[1].read_text() == "text,count\n␛[31m,7\n'-2,\n"
    assert report.save({"nodes": tables()["nodes"]}, tmp_path / "one.CSV") == [tmp_path / "one.CSV"]


def test_one_object_of_json(tmp_path: Path) -> None:
    (path,) = report.save(tables(), tmp_path / "hall.json", versions={"package": "1"}, seed=3)
    read = json.loads(path.read_text())
    assert list(read) == ["versions", "seed", "nodes", "notes"] and read["seed"] == 3 and read["versions"] == {"package": "1"}
    assert read["nodes"][1] == {"node": "B,2=x", "joined_seconds": None, "rounds": 4, "ended": False, "why": None}


def test_a_workbook(tmp_path: Path) -> None:
    """Texts are texts: a spreadsheet computes nothing of them."""
    (path,) = report.save(tables(), tmp_path / "hall.xlsx", versions={"package": "1"}, seed=3)
    book = openpyxl.load_workbook(path)
    assert book.sheetnames == ["nodes", "notes", "versions"]
    rows = [[cell.value for cell in row] for row in book["nodes"].iter_rows()]
    assert rows == [["node", "joined_seconds", "rounds", "ended", "why"], ["A 1", 1.5, 3, True, '=1+1 "x"'], ["B,2=x", None, 4, False, None]]
    assert book["nodes"]["E2"].data_type == "s" and book["nodes"].freeze_panes == "A2" and book["nodes"]["A1"].font.bold
    assert [[cell.value for cell in row] for row in book["notes"].iter_rows()] == [["text", "count"], ["␛[31m", 7], ["-2", None]]
    assert [[cell.value for cell in row] for row in book["versions"].iter_rows()] == [["of", "is"], ["package", "1"], ["seed", "3"]]


def test_a_sheet_that_is_full(tmp_path: Path, monkeypatch: pytest.MonkeyPatch) -> None:
    monkeypatch.setattr(saving, "_ROWS_MOST", 1)
    with pytest.raises(ArgumentError, match="the table nodes has 2 rows, and a sheet has room for 1: save it as .csv or .parquet"):
        report.save(tables(), tmp_path / "hall.xlsx")
    assert not list(tmp_path.iterdir())


def test_lines_for_grafana(tmp_path: Path) -> None:
    """The signs that mean something are escaped, whole numbers say so, and what is missing is left out (docs.influxdata.com, line protocol)."""
    (path,) = report.save(tables(), tmp_path / "hall.lp", name="Plant 3")
    assert path.read_text().splitlines() == [
        r'nodes,plan=Plant\ 3,node=A\ 1 joined_seconds=1.5,rounds=3i,ended=true,why="=1+1 \"x\""',
        r"nodes,plan=Plant\ 3,node=B\,2\=x rounds=4i,ended=false",
        r'notes,plan=Plant\ 3,row=0 text="␛[31m",count=7i',
        r'notes,plan=Plant\ 3,row=1 text="-2"',
    ]


def test_rows_with_the_same_tags_have_numbers(tmp_path: Path) -> None:
    twice = pd.DataFrame({"node": [1, 1], "frame": [5, 6], "empty": [np.nan, np.inf]})
    (path,) = report.save({"rounds": twice}, tmp_path / "rounds.lp")
    assert path.read_text() == "rounds,node=1,row=0 frame=5i\nrounds,node=1,row=1 frame=6i\n"


def test_endings_that_are_none(tmp_path: Path, monkeypatch: pytest.MonkeyPatch) -> None:
    with pytest.raises(ArgumentError, match=r"hall.xls: the ending of a file of tables is one of .csv, .json, .*, not .xls; did you mean .xlsx"):
        report.save(tables(), tmp_path / "hall.xls")
    with pytest.raises(ArgumentError, match="not none"):
        report.save(tables(), tmp_path / "hall")
    monkeypatch.setattr(importlib.util, "find_spec", lambda name: None)
    for ending, needs in ((".parquet", r"pyarrow: pip install pyarrow \(Debian 12"), (".xlsx", "openpyxl: apt-get install python3-openpyxl")):
        with pytest.raises(ArgumentError, match=f"files {ending} need the module {needs}"):
            report.save(tables(), tmp_path / f"hall{ending}")
    assert not list(tmp_path.iterdir())


def test_parquet(tmp_path: Path, monkeypatch: pytest.MonkeyPatch) -> None:
    """What pandas is given, and where pyarrow is there what it reads again."""
    given: list[pd.DataFrame] = []
    if importlib.util.find_spec("pyarrow") is None:
        monkeypatch.setattr(importlib.util, "find_spec", lambda name: name)
        monkeypatch.setattr(pd.DataFrame, "to_parquet", lambda table, sink, **_: given.append(table))
    written = report.save(tables(), tmp_path / "hall.parquet")
    assert [path.name for path in written] == ["hall-nodes.parquet", "hall-notes.parquet"]
    nodes = given[0] if given else pd.read_parquet(written[0])
    assert nodes["node"].tolist() == ["A 1", "B,2=x"] and nodes["rounds"].dtype == "int64" and pd.isna(nodes["why"][1])


# The option.


def names(folder: Path) -> set[str]:
    return {path.name for path in folder.iterdir()}


def test_the_option_of_report(tmp_path: Path, monkeypatch: pytest.MonkeyPatch, capsys: pytest.CaptureFixture[str]) -> None:
    path = tmp_path / "failover.scenario"
    path.write_text(FAILOVER)
    monkeypatch.chdir(tmp_path)
    assert main(["report", str(path), "--save", "all/hall.csv", "--save", "all/hall.lp", "--save", "all/hall.json"]) == 0
    expected = planning.tables(log_of(FAILOVER))
    assert names(tmp_path / "all") == {*(f"hall-{name}.csv" for name in expected), "hall.lp", "hall.json"}
    assert "Which host serves when" in capsys.readouterr().out
    read = json.loads((tmp_path / "all" / "hall.json").read_text())
    assert read["versions"] == program.versions() and set(read) == {"versions", *expected}
    assert "hosts,plan=failover,rank=0,host=1,host_boot=1 " in (tmp_path / "all" / "hall.lp").read_text()


def test_the_option_of_verify(tmp_path: Path, capsys: pytest.CaptureFixture[str]) -> None:
    path = tmp_path / "plan.toml"
    path.write_text(pumps(asked("levels", tag="level", share=0.9)))
    main(["verify", str(path), "--seeds", "1", "--jobs", "1", "--save", str(tmp_path / "told.xlsx"), "--save", str(tmp_path / "told.lp")])
    assert openpyxl.load_workbook(tmp_path / "told.xlsx").sheetnames == ["verdicts", "versions"]
    assert (tmp_path / "told.lp").read_text().startswith(r"verdicts,plan=Pump\ house,requirement=levels,when=as\ planned verdict=")
    assert "of 1 requirement" in capsys.readouterr().out


@pytest.mark.parametrize("words, table", [
    (["sample", "NETWORK", "--seeds", "2"], "hall-"), (["capacity", "NETWORK"], "hall.csv"), (["sweep", "NETWORK", "--seeds", "1"], "hall.csv"),
    (["compare", "A=NETWORK", "B=NETWORK", "--seeds", "1-2", "-o", "plans.html", "--by", "sample"], "hall.csv"),
    (["importance", "NETWORK", "--only", "1-2", "--seeds", "1-2"], "hall.csv"),
])  # fmt: skip
def test_the_option_of_commands_of_many_runs(
    words: list[str], table: str, tmp_path: Path, monkeypatch: pytest.MonkeyPatch, undrawn: None, capsys: pytest.CaptureFixture[str]
) -> None:
    monkeypatch.chdir(tmp_path)
    Path("line.network").write_text(LINE.read_text().replace("frames 14", "frames 64") + "ratios\nratio 0 1 2 900000\n")
    assert main([word.replace("NETWORK", "line.network") for word in words] + ["--jobs", "1", "--save", "hall.csv"]) == 0
    assert any(name.startswith(table) for name in names(tmp_path)) and capsys.readouterr().out


def test_a_file_that_can_not_be_is_said_before_anything_runs(capsys: pytest.CaptureFixture[str]) -> None:
    with pytest.raises(SystemExit) as ended:
        main(["report", str(LINE), "--save", "hall.docx"])
    assert ended.value.code == 2 and "the ending of a file of tables is one of .csv" in capsys.readouterr().err
