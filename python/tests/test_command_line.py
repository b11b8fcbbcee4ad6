"""`python3 -m foldcairn`: each command once as it is meant, and what it says where it fails."""

from __future__ import annotations

import io
import json
import os
import re
import subprocess
import sys
from pathlib import Path

import pandas
import pytest

import foldcairn
from conftest import EXAMPLES, REPOSITORY
from foldcairn import planning
from foldcairn.__main__ import _drawing, main
from foldcairn.cli import commands
from foldcairn.many import sweep
from foldcairn.model.scenario import Scenario
from foldcairn.runs import losses, program, results

LINE = EXAMPLES / "packets-along-a-line.scenario"


@pytest.fixture
def ratios(tmp_path):
    path = tmp_path / "ratios.csv"
    path.write_text("from,to,prr\n1,2,0.8\n2,1,0.7\n3,2,0.5\n")
    return str(path)


def test_help(capsys):
    for words in (["--help"], ["draw", "--help"], ["sweep", "--help"], ["explain", "--help"]):
        with pytest.raises(SystemExit) as ended:
            main(words)
        assert ended.value.code == 0
        assert "usage: python3 -m foldcairn" in capsys.readouterr().out
    with pytest.raises(SystemExit) as ended:
        main([])
    assert ended.value.code == 2


def test_a_python_without_the_packages():
    """Without its site packages, as another Python on the PATH may be."""
    source = Path(program.__file__).parents[2]
    code = f"import runpy, sys; sys.path.insert(0, {str(source)!r}); runpy.run_module('foldcairn', run_name='__main__')"
    ended = subprocess.run([sys.executable, "-S", "-I", "-c", code], capture_output=True, text=True)
    assert ended.returncode == 1
    assert re.fullmatch(r"foldcairn: .* lacks the module (\w+): apt-get install python3-\1, or pip install \1\n", ended.stderr)


def test_the_front_end_lists_each_command(capsys):
    with pytest.raises(SystemExit):
        main(["--help"])
    commands = re.findall(r"^    (\w+)", capsys.readouterr().out, re.MULTILINE)
    rows = [row.split("|") for row in (REPOSITORY / "tools" / "commands.txt").read_text().splitlines()]
    assert sorted(commands) == sorted(row[1] for row in rows if row[0] == "command" and row[3] == "package")


def test_the_command_names_itself(monkeypatch, capsys):
    monkeypatch.setenv("FOLDCAIRN_CALLED", "foldcairn")
    with pytest.raises(SystemExit):
        main(["report", "--help"])
    assert "usage: foldcairn report" in capsys.readouterr().out


def test_draw(capsys, ratios):
    assert main(["draw", str(LINE), "--ratios", ratios, "--seed", "5"]) == 0
    text = capsys.readouterr().out
    program.execute(["run"], text)
    scenario = Scenario.read(LINE.read_text()).link(1, 2, 0.8).link(2, 1, 0.7).link(3, 2, 0.5)
    assert text == losses.draw(scenario, 5).text(warn=False)
    assert "lose " in text


def test_draw_with_a_table_of_other_links(capsys, tmp_path):
    path = tmp_path / "ratios.csv"
    path.write_text("from,to,prr\n1,4,0.8\n")
    assert main(["draw", str(LINE), "--ratios", str(path)]) == 1
    assert "the table of links, row 1: the scenario has no link from 1 to 4" in capsys.readouterr().err


def test_sweep_of_a_folder(capsys, tmp_path):
    assert main(["sweep", str(EXAMPLES), "--results", str(tmp_path), "--jobs", "2"]) == 0
    table = pandas.read_csv(io.StringIO(capsys.readouterr().out))
    assert len(table) == len(list(EXAMPLES.glob("*.scenario"))) == len(list(tmp_path.iterdir()))
    assert table[table.file == str(LINE)].deliveries.tolist() == [6]


def test_sweep_of_seeds(capsys, ratios):
    assert main(["sweep", str(LINE), "--ratios", ratios, "--seeds", "3-5", "--jobs", "2"]) == 0
    table = pandas.read_csv(io.StringIO(capsys.readouterr().out))
    assert table.seed.tolist() == [3, 4, 5]
    assert set(table.status) == {"ok"}


def test_sweep_of_nothing(capsys, tmp_path):
    assert main(["sweep", str(tmp_path)]) == 1
    assert "there is no file *.scenario" in capsys.readouterr().err


@pytest.mark.parametrize(
    ("words", "says"),
    [
        (["sweep", str(LINE)], "is a single scenario: give --ratios CSV to draw its losses by seeds, or name a folder"),
        (["sweep", "nowhere"], "nowhere is no folder"),
        (["sweep", str(EXAMPLES), "--ratios", "r.csv"], "is no file; with --ratios a scenario is named"),
        (["sweep", str(LINE), "--ratios", "r.csv", "--seeds", "a-b"], "`--seeds` is 'a-b', and has to be a number or two with a dash"),
        (["sweep", str(LINE), "--ratios", "r.csv", "--seeds", "5-1"], "`--seeds` is '5-1', and has no seed"),
        (["timeline", str(LINE), "--nodes", "1,x"], "the scenario has no node x; it has 4 nodes: 1, 2, 3, 4"),
        (["pcap", str(LINE), "--from", "nan"], "`start_seconds` is nan, and has to be a number"),
    ],
)
def test_words_that_make_no_sense(words, says, capsys, tmp_path, monkeypatch):
    monkeypatch.chdir(tmp_path)
    assert main(words) == 1
    told = capsys.readouterr()
    assert says in told.err and told.out == "" and "Traceback" not in told.err
    assert list(tmp_path.iterdir()) == []


def test_a_sweep_whose_workers_die(capsys, monkeypatch):
    def stopped(*_: object, **__: object):
        raise sweep.SweepStopped("the executor broke down, with 3 cases still to make")

    monkeypatch.setattr(sweep, "sweep", stopped)
    assert main(["sweep", str(EXAMPLES)]) == 1
    assert capsys.readouterr().err == "foldcairn: the executor broke down, with 3 cases still to make\n"


def test_a_sweep_of_planning_numbers_as_json(capsys, tmp_path):
    (tmp_path / "line.scenario").write_text(LINE.read_text())
    assert main(["sweep", str(tmp_path), "--measure", "planning", "--json", "--jobs", "1"]) == 0
    read = json.loads(capsys.readouterr().out)
    assert read["versions"] == program.versions()
    (case,) = read["cases"]
    expected = planning.summary(results.log(LINE))
    assert case["status"] == "ok" and case["ratio_of_put"] == expected["ratio_of_put"] == 1
    assert set(expected) < set(case)
    # What there is not is null.
    assert case["outage_seconds"] is None


def test_versions(capsys):
    with pytest.raises(SystemExit) as ended:
        main(["--version"])
    assert ended.value.code == 0
    assert capsys.readouterr().out.startswith(f"foldcairn {foldcairn.__version__}\nprogram {os.environ['FOLDCAIRN']}, SHA-256 ")


def test_the_list_of_commands_has_whole_sentences(capsys):
    with pytest.raises(SystemExit):
        main(["--help"])
    listed = " ".join(capsys.readouterr().out.split())
    assert "a track for each node, for ui.perfetto.dev or chrome://tracing" in listed
    # A `%` is none of argparse's.
    assert "intervals of 95 % and quantiles over the seeds compare" in listed and "{" not in listed
    assert commands.first_sentence("Of 3.5 s. And more.") == "Of 3.5 s"
    assert commands.first_sentence("One alone.") == "One alone"


def test_explain(capsys, tmp_path):
    path = tmp_path / "text"
    path.write_text("frames 2\nsends 5\n")
    assert main(["explain", str(path)]) == 1
    assert "line 2: `sends 5`: the first number" in capsys.readouterr().err
    assert main(["explain", str(EXAMPLES / "three-in-a-line.flood"), "--command", "flood"]) == 0
    assert capsys.readouterr().out == "accepted, and nothing to remark\n"
    path.write_text(LINE.read_text().replace("on 0 3\n", ""))
    assert main(["explain", str(path)]) == 0
    assert "warning: node 3 is never switched on" in capsys.readouterr().out
    assert main(["explain", str(tmp_path / "none")]) == 3
    assert capsys.readouterr().err == f"foldcairn: there is no file '{tmp_path / 'none'}'\n"


def test_what_ends_a_command_before_its_time(capsys, monkeypatch):
    def raising(error: BaseException):
        def call(*_: object, **__: object):
            raise error

        return call

    ends = [
        (KeyboardInterrupt(), 130, "foldcairn: stopped\n"),
        (ModuleNotFoundError("no plotly", name="plotly"), 1, f"foldcairn: {sys.executable} lacks the module plotly: "),
        (OSError(28, "No space left on device", "report.html"), 1, "foldcairn: No space left on device: 'report.html'"),
    ]
    for error, status, says in ends:
        monkeypatch.setattr(results, "log", raising(error))
        assert main(["report", str(LINE)]) == status
        assert capsys.readouterr().err.startswith(says)


def test_losses_that_do_not_fit(capsys, monkeypatch, ratios):
    def draw(*_: object, **__: object):
        raise losses.TooManyLosses(7, 19_000)

    monkeypatch.setattr(losses, "draw", draw)
    assert main(["draw", str(LINE), "--ratios", ratios]) == 1
    assert "they are used up in frame 7: shorten the run to 7 frames" in capsys.readouterr().err


def test_the_case_of_a_seed(ratios):
    made = _drawing(str(LINE), ratios, 3)
    assert made.seed == 3 and made.scenario.prr[3, 2] == 0.5 and made.drawn().seed == 3


def test_versions_without_a_program(capsys, monkeypatch):
    monkeypatch.setenv("FOLDCAIRN", "/nowhere")
    with pytest.raises(SystemExit) as ended:
        main(["--version"])
    assert ended.value.code == 1 and "names no program that can be run" in capsys.readouterr().err
    assert program.checksum(Path("/nowhere/foldcairn")) == ""
