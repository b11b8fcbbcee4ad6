"""The program is found, run, and each of its ends is an answer or an exception that says so."""

from __future__ import annotations

import os
import pickle
import signal
import subprocess
import sys
import time

import pytest

from conftest import EXAMPLES, REPOSITORY
from foldcairn import front_end
from foldcairn.common import version
from foldcairn.runs import program

SCENARIO = EXAMPLES / "packets-along-a-line.scenario"
REPORT = EXAMPLES / "expected" / "packets-along-a-line.report"
STATUSES = {
    2: program.BadUsage,
    3: program.InputUnreadable,
    4: program.OutputUnwritable,
    5: program.OutOfMemory,
    6: program.BadWords,
    126: program.NotBuilt,
    127: program.ToolchainMissing,
}


@pytest.mark.parametrize("path", sorted(EXAMPLES.glob("*.scenario")), ids=lambda path: path.stem)
def test_worked_scenarios(path):
    expected = EXAMPLES / "expected" / path.stem
    assert program.execute(["run"], path.read_bytes()) == expected.with_suffix(".report").read_bytes()
    assert program.execute(["bus"], path.read_text()) == expected.with_suffix(".bus-report").read_bytes()


@pytest.mark.parametrize("path", sorted(EXAMPLES.glob("*.flood")), ids=lambda path: path.stem)
def test_worked_floods(path):
    assert program.execute(["flood"], path.read_bytes()) == (EXAMPLES / "expected" / f"{path.stem}.report").read_bytes()


def test_other_commands():
    deadlines = EXAMPLES / "one-slot-three-streams.deadlines"
    expected = (EXAMPLES / "expected" / "one-slot-three-streams.report").read_bytes()
    assert program.execute(["deadlines"], deadlines.read_bytes()) == expected
    assert program.execute(["demo", "7", "2", "1"]) == b"deliveries 0\ndrops 0\nsent 0\non 512000000\n"
    assert program.execute(["log"], SCENARIO.read_bytes()).startswith(REPORT.read_bytes())


def test_find_prefers_the_variable(monkeypatch, fake):
    path = fake("exit 0")
    monkeypatch.setenv("FOLDCAIRN", str(path))
    assert program.find() == path
    monkeypatch.setenv("FOLDCAIRN", "/nowhere/foldcairn")
    with pytest.raises(program.NotFound, match="FOLDCAIRN names no program.*/nowhere/foldcairn"):
        program.find()
    monkeypatch.delenv("FOLDCAIRN")
    assert program.find() == REPOSITORY / "foldcairn"


def test_find_looks_at_the_path_last(monkeypatch, tmp_path):
    monkeypatch.delenv("FOLDCAIRN")
    monkeypatch.setattr(front_end, "__file__", str(tmp_path / "site" / "foldcairn" / "front_end.py"))
    monkeypatch.setenv("PATH", str(tmp_path))
    with pytest.raises(program.NotFound, match="set the environment variable FOLDCAIRN"):
        program.find()
    (tmp_path / "foldcairn").write_text("#!/bin/sh\n")
    (tmp_path / "foldcairn").chmod(0o755)
    assert program.find() == tmp_path / "foldcairn"


def test_find_takes_what_was_installed_with_the_package(monkeypatch, tmp_path):
    monkeypatch.delenv("FOLDCAIRN")
    package = tmp_path / "site" / "foldcairn"
    monkeypatch.setattr(front_end, "__file__", str(package / "front_end.py"))
    monkeypatch.setenv("PATH", "/nowhere")
    (package / "installed").mkdir(parents=True)
    (package / "installed" / "foldcairn").write_text("#!/bin/sh\n")
    assert front_end.path() is None
    (package / "installed" / "foldcairn").chmod(0o755)
    assert program.find() == package / "installed" / "foldcairn"


def test_the_command_becomes_the_front_end(monkeypatch):
    begun = []
    handled = []
    monkeypatch.setattr(front_end.os, "execv", lambda script, words: begun.append((script, words)))
    monkeypatch.setattr(front_end.signal, "signal", lambda *change: handled.append(change))
    monkeypatch.setattr(sys, "argv", ["foldcairn", "report", "a file"])
    monkeypatch.setenv("FOLDCAIRN_PYTHON", "")
    front_end.main()
    assert begun == [(REPOSITORY / "foldcairn", [str(REPOSITORY / "foldcairn"), "report", "a file"])]
    assert handled == [(signal.SIGPIPE, signal.SIG_DFL)]
    # By it the front end finds back to this Python.
    assert os.environ["FOLDCAIRN_PYTHON"] == sys.executable
    monkeypatch.setattr(front_end, "path", lambda: None)
    with pytest.raises(SystemExit, match="installed without its programs"):
        front_end.main()


def test_the_version_where_there_is_no_repository(monkeypatch, tmp_path):
    assert version.version() == (REPOSITORY / "VERSION").read_text().strip()
    monkeypatch.setattr(version, "__file__", str(tmp_path / "site" / "foldcairn" / "version.py"))
    monkeypatch.setattr(version.metadata, "version", {"foldcairn": "7.8"}.__getitem__)
    assert version.version.__wrapped__() == "7.8"

    def missing(name):
        raise version.metadata.PackageNotFoundError(name)

    monkeypatch.setattr(version.metadata, "version", missing)
    assert version.version.__wrapped__() == "unknown"


def test_the_front_end_starts_without_the_libraries():
    code = "import sys, foldcairn.front_end; sys.exit(any(name in sys.modules for name in ('numpy', 'pandas', 'networkx')))"
    subprocess.run([sys.executable, "-c", code], check=True, env={"PYTHONPATH": str(REPOSITORY / "python" / "src")})


@pytest.mark.parametrize("status", sorted(STATUSES))
def test_each_status_is_an_exception(status, fake):
    with pytest.raises(STATUSES[status]) as raised:
        program.execute(["run"], b"", program=fake(f"echo because >&2; exit {status}"))
    assert raised.value.words == ("run",)
    assert raised.value.status == status
    assert raised.value.stderr == "because\n"
    assert "because" in str(raised.value)


@pytest.mark.parametrize(
    ("ends", "kind"), [("< /", program.InputUnreadable), ("> /dev/full", program.OutputUnwritable)], ids=["folder", "full"]
)
def test_streams_that_fail(ends, kind, fake):
    with pytest.raises(kind):
        program.execute(["run"], SCENARIO.read_bytes(), program=fake(f"exec {os.environ['FOLDCAIRN']} \"$@\" {ends}"))


def test_words_that_are_not_utf_8():
    with pytest.raises(program.BadWords):
        program.execute(["demo", "\udcff", "2", "1"])


def test_an_unknown_status(fake):
    with pytest.raises(program.ProgramError, match="unknown exit status 77"):
        program.execute(["run"], b"", program=fake("exit 77"))


def test_words_that_are_no_command():
    with pytest.raises(program.BadUsage, match="`runs` is no command; usage: "):
        program.execute(["runs"])


def test_a_missing_program(tmp_path):
    with pytest.raises(program.NotFound, match="no-such-program can't be run: No such file"):
        program.execute(["run"], b"", program=tmp_path / "no-such-program")
    (tmp_path / "text").write_text("no program")
    with pytest.raises(program.NotFound, match="can't be run: Permission denied"):
        program.execute(["run"], b"", program=tmp_path / "text")


@pytest.mark.parametrize("kill", ["kill -KILL $$", "sh -c 'kill -KILL $$'; exit $?"], ids=["itself", "below a shell"])
def test_a_killed_program(kill, fake):
    with pytest.raises(program.Killed, match="ended by SIGKILL") as raised:
        program.execute(["run"], b"", program=fake(kill))
    assert raised.value.signal == signal.SIGKILL


@pytest.mark.parametrize("script", ["exec sleep 60", "sleep 6; exit 0"], ids=["itself", "below a shell"])
def test_a_program_that_takes_too_long(script, fake):
    begun = time.monotonic()
    with pytest.raises(program.Killed, match="longer than 0.2 seconds"):
        program.execute(["run"], b"", program=fake(script), timeout=0.2)
    assert time.monotonic() - begun < 5


def test_the_script_of_a_repository_shows_how_far_it_is(tmp_path, capfd):
    (tmp_path / "crates.txt").write_text("")
    (tmp_path / "foldcairn").write_text("#!/bin/sh\necho 3 of 51 crates proved >&2\nexit 127\n")
    (tmp_path / "foldcairn").chmod(0o755)
    with pytest.warns(UserWarning, match="the program is not built yet"), pytest.raises(program.ToolchainMissing):
        program.execute(["run"], b"", program=tmp_path / "foldcairn")
    assert capfd.readouterr().err == "3 of 51 crates proved\n"


def test_out_of_memory(fake):
    path = fake(f"ulimit -v 6000; exec {os.environ['FOLDCAIRN']} \"$@\"")
    with pytest.raises(program.OutOfMemory, match="out of memory"):
        program.execute(["run"], (EXAMPLES / "energy-of-a-night.scenario").read_bytes(), program=path)


@pytest.mark.parametrize(
    ("shortened", "why"),
    [
        ("head -c -1", "its last line has no end"),
        ("head -n -1", "has 3 of 4 `energy` lines"),
        ("head -n 2", "has 0 of 4 `energy` lines"),
        ("head -c 0", "has 0 of 4 `energy` lines"),
    ],
)
def test_cut_output(shortened, why, fake, tmp_path):
    path = fake(f"{os.environ['FOLDCAIRN']} \"$@\" | {shortened}")
    with pytest.raises(program.CutOutput, match=why):
        program.execute(["run"], SCENARIO.read_bytes(), program=path)
    kept = tmp_path / "report"
    kept.write_text("of an earlier run")
    with pytest.raises(program.CutOutput, match=why):
        program.execute_to_file(["run"], SCENARIO.read_bytes(), kept, program=path)
    assert kept.read_text() == "of an earlier run"
    assert sorted(path.name for path in tmp_path.iterdir()) == ["fake", "report"]


def test_output_to_a_file(tmp_path):
    for command in ("run", "log"):
        path = program.execute_to_file([command], SCENARIO.read_bytes(), tmp_path / "answer")
        assert path.read_bytes() == program.execute([command], SCENARIO.read_bytes())
    with pytest.raises(program.Refused, match="line 1"):
        program.execute_to_file(["run"], b"nonsense\n", tmp_path / "answer")
    assert [path.name for path in tmp_path.iterdir()] == ["answer"]


def test_a_refusal_has_its_parts_and_can_be_pickled():
    with pytest.raises(program.Refused) as raised:
        program.execute(["run"], "frames 2\nsends 5\n")
    for error in (raised.value, pickle.loads(pickle.dumps(raised.value))):
        assert (error.line, error.kind, error.text_of_line, error.status) == (2, "Range", "sends 5", 1)
        assert error.explanation.startswith("line 2: `sends 5`: the first number,")
    for kind in STATUSES.values():
        assert str(pickle.loads(pickle.dumps(kind("message", ["run"], 5, "")))) == "message"
    assert pickle.loads(pickle.dumps(program.Killed("message", ["run"], -9, "", 9))).signal == 9


def test_status_1_without_a_fault(fake):
    with pytest.raises(program.ProgramError, match="named no fault"):
        program.execute(["run"], b"", program=fake("exit 1"))


def test_input_that_is_not_read(fake):
    big = b"# comment\n" * 200_000
    with pytest.raises(program.InputUnreadable):
        program.execute(["run"], big, program=fake("exit 3"))
    with pytest.raises(program.Refused, match="the text has 5,000,000 bytes, and at most 4,194,304 are read"):
        program.execute(["run"], b"#" * 5_000_000)


def test_the_package_says_that_it_is_not_proved():
    for path in sorted((REPOSITORY / "python" / "src" / "foldcairn").rglob("*.py")):
        head = path.read_text().partition('"""')[2].partition('"""')[0]
        assert "proved" in head, path
