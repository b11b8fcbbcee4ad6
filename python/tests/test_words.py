"""What `python3 -m foldcairn` says to words, inputs and outputs that are wrong, and to networks where a scenario was due."""

from __future__ import annotations

import errno
import io
import json
import os
import re
import subprocess
import sys
from pathlib import Path

import pandas
import pytest
from conftest import EXAMPLES, REPOSITORY

from foldcairn.__main__ import main
from foldcairn.model.scenario import Scenario
from foldcairn.runs import losses, program, results, running

LINE = EXAMPLES / "packets-along-a-line.scenario"
# Three nodes in a line, each link with a ratio of 70 %: with seed 7 nothing arrives, with seed 8 two of the three packets, at two nodes.
NETWORK = REPOSITORY / "tests" / "worked" / "three-in-a-line.network"


def said(words: list[str], capsys: pytest.CaptureFixture[str]) -> tuple[int, str, str]:
    """The status, and what is written to both outputs."""
    try:
        status = main(words)
    except SystemExit as ended:
        status = int(ended.code or 0)
    told = capsys.readouterr()
    assert "Traceback" not in told.err and "[Errno" not in told.err
    return status, told.out, told.err


# Words.


@pytest.mark.parametrize(
    ("words", "says"),
    [
        (["sampel", "x"], r"error: COMMAND is 'sampel', and not one of new, import, .*, explain; did you mean sample\?"),
        (["Report", "x"], r"error: COMMAND is 'Report', and not one of .*; did you mean report\?"),
        (["quux"], r"error: COMMAND is 'quux', and not one of [a-z, ]*\n$"),
        (["sample", "x", "--sed", "3"], r"usage: python3 -m foldcairn sample .*error: '--sed' is no word of this command; did you mean --seeds\?"),
        (["timeline", "x", "--node=3"], r"no word of this command; did you mean --nodes\?|No such file|there is no file"),
        (["timeline", "x", "y"], r"error: 'y' is no word of this command\n$"),
        (["importance", "x", "--of", "link"], r"error: --of is 'link', and not one of links, nodes; did you mean links\?"),
        (["explain", "x", "--command", "dealines"], r"--command is 'dealines', and not one of run, flood, deadlines; did you mean deadlines\?"),
        ([], r"error: the following arguments are required: COMMAND"),
    ],
)  # fmt: skip
def test_words_that_are_nearly_others(words: list[str], says: str, capsys: pytest.CaptureFixture[str]) -> None:
    status, out, err = said(words, capsys)
    assert status in (2, 3) and out == "" and re.search(says, err, re.DOTALL), err
    assert status == 3 or len(re.findall("^usage:", err, re.MULTILINE)) == 1


def test_names_that_are_nearly_others(tmp_path: Path, capsys: pytest.CaptureFixture[str]) -> None:
    path = tmp_path / "named.scenario"
    path.write_text("#: name 1 S1\n#: name 2 A-101\n" + LINE.read_text())
    status, _, err = said(["timeline", str(path), "--nodes", "s1", "-o", str(tmp_path / "x.svg")], capsys)
    assert status == 1 and "the scenario has no node s1; it has 4 nodes: S1, A-101; did you mean S1?" in err
    status, _, err = said(["report", str(path), "--receivers", "A101"], capsys)
    assert status == 1 and "did you mean A-101?" in err


def test_a_warning_comes_once(capsys: pytest.CaptureFixture[str]) -> None:
    for _ in range(2):
        status, _, err = said(["sample", str(NETWORK), "--seeds", "2", "--jobs", "1", "--capacity-mah", "2.6"], capsys)
        assert status == 0 and err.count("if 2.6 is in Ah, write 2600") == 1


# Inputs.


@pytest.mark.parametrize("command", ["report", "timeline", "topology", "explain", "pcap", "trace", "sample", "capacity", "importance", "compare", "draw"])
def test_inputs_that_cannot_be_read(command: str, tmp_path: Path, capsys: pytest.CaptureFixture[str], monkeypatch: pytest.MonkeyPatch) -> None:
    monkeypatch.chdir(tmp_path)
    (tmp_path / "plans").mkdir()
    for name, says in (("plans", "foldcairn: 'plans' is a folder, not a file\n"), ("none", "foldcairn: there is no file 'none'\n")):
        assert said([command, name, *["none"] * (command == "compare")], capsys) == (3, "", says)
    (tmp_path / "large").write_bytes(b"# \n" * 1_500_000)
    status, out, err = said([command, "large", *["none"] * (command == "compare")], capsys)
    assert (status, out, err) == (1, "", "foldcairn: 'large' has more than 4,194,304 bytes, which are the most that are read\n")


def test_files_beside_the_input(tmp_path: Path, capsys: pytest.CaptureFixture[str], monkeypatch: pytest.MonkeyPatch) -> None:
    monkeypatch.chdir(tmp_path)
    for words, says in (
        (["report", str(LINE), "--html", "x.html", "--notes", "none"], "No such file or directory: 'none'"),
        (["topology", str(LINE), "--places", "none"], "No such file or directory: 'none'"),
        (["topology", str(LINE), "--ratios", "."], "the table of links, .: it is a folder, and no CSV file"),
        (["topology", str(LINE), "--ratios", "http://127.0.0.1:9/links.csv"], "it is an address, and nothing is fetched; save it as a file"),
    ):
        status, out, err = said(words, capsys)
        assert status == 1 and out == "" and says in err
    assert list(tmp_path.iterdir()) == []


@pytest.mark.parametrize(
    ("settings", "says"),
    [
        ("[1]", "it is no object"), ("{", "Expecting property name"), ('{"title": 3}', "`title`"), ('{"positions": "abc"}', "`positions`"),
        ('{"positions": [[1, 2]]}', "`positions`"), ('{"battery": [3]}', "`battery`"), ('{"battery": {"capacity_mah": "much"}}', "`battery`"),
        ('{"extent": 5}', "`extent`"), ('{"ratios": [[1, 2, "x"]]}', "`ratios`"), ('{"ratios": [[1, 2, 3.5]]}', "`ratios`"),
        ('{"later_ratios": [5]}', "`later_ratios`"), ('{"labels": {"1": "a"}}', "`labels`"), ('{"keep_alive": [["a", 1]]}', "`keep_alive`"),
        ('{"seed": "one"}', "`seed`"), ('{"background": "%%"}', "`background`"), ('{"receivers": {"by": 1}}', "`receivers`"),
        ('{"receivers": {"by stream": [[1]]}}', "`receivers`"), ('{"receivers": 1.5}', "`receivers`"), ('{"places": 1}', "places"),
        ('{"notes": null}', "`notes`"),
    ],
)  # fmt: skip
def test_settings_that_are_none(settings: str, says: str, tmp_path: Path, capsys: pytest.CaptureFixture[str]) -> None:
    path = tmp_path / "page.json"
    path.write_text(settings)
    status, out, err = said(["report", str(LINE), "--page", str(path), "--html", str(tmp_path / "x.html")], capsys)
    assert status == 1 and out == "" and err.startswith("foldcairn: these are no settings of a page: ") and says in err, err
    assert not (tmp_path / "x.html").exists()


# Outputs.


def ended(words: list[str], **given: object) -> subprocess.CompletedProcess[bytes]:
    """A process of its own, whose standard output is as given."""
    environment = {**os.environ, "PYTHONPATH": str(Path(program.__file__).parents[2])}
    return subprocess.run([sys.executable, "-m", "foldcairn", *words], stderr=subprocess.PIPE, env=environment, **given)  # type: ignore[call-overload]


def test_outputs_that_cannot_be_written() -> None:
    """A disk that is full, a reader that is gone, and an output that was closed before: status 4, as of the programs, and one sentence."""
    with open("/dev/full", "wb") as full:
        told = ended(["explain", str(LINE)], stdout=full)
    assert (told.returncode, told.stderr) == (4, b"foldcairn: the output could not be written whole: No space left on device\n")
    reading, writing = os.pipe()
    os.close(reading)
    told = ended(["report", str(LINE)], stdout=writing)
    os.close(writing)
    assert (told.returncode, told.stderr) == (4, b"foldcairn: the output could not be written whole: Broken pipe\n")
    told = ended(["explain", str(LINE)], preexec_fn=lambda: os.close(1))
    assert (told.returncode, told.stderr) == (4, b"foldcairn: the output could not be written whole: it is closed\n")


def test_outputs_that_break(capsys: pytest.CaptureFixture[str], monkeypatch: pytest.MonkeyPatch) -> None:
    """The same in this process."""

    class Broken(io.StringIO):
        def write(self, _: str) -> int:
            raise BrokenPipeError(errno.EPIPE, "Broken pipe")

    for output, says in ((Broken(), "Broken pipe"), (None, "it is closed")):
        with monkeypatch.context() as patched:
            patched.setattr(sys, "stdout", output)
            status = main(["explain", str(LINE)])
        assert status == 4 and capsys.readouterr().err == f"foldcairn: the output could not be written whole: {says}\n"


def test_a_stop_while_the_libraries_are_read() -> None:
    source = Path(program.__file__).parents[2]
    code = (
        "import runpy, sys\n"
        "class Stop:\n"
        "    def find_spec(self, name, *_):\n"
        "        if name == 'pandas': raise KeyboardInterrupt\n"
        f"sys.meta_path.insert(0, Stop()); sys.path.insert(0, {str(source)!r}); runpy.run_module('foldcairn', run_name='__main__')"
    )
    told = subprocess.run([sys.executable, "-c", code], capture_output=True)
    assert (told.returncode, told.stdout, told.stderr) == (130, b"", b"foldcairn: stopped\n")


# Networks.


def test_networks_are_drawn_by_a_seed(tmp_path: Path, capsys: pytest.CaptureFixture[str], monkeypatch: pytest.MonkeyPatch) -> None:
    monkeypatch.chdir(tmp_path)
    for command, output in (("timeline", "x.svg"), ("pcap", "x.pcap"), ("trace", "x.json")):
        status, _, err = said([command, str(NETWORK), "-o", output, "--seed", "8"], capsys)
        assert status == 0 and "seed" not in err
        written = (tmp_path / output).read_bytes()
        for seed, is_same in (("8", True), ("9", False)):
            assert said([command, str(NETWORK), "-o", "y" + output[1:], "--seed", seed], capsys)[0] == 0
            assert ((tmp_path / ("y" + output[1:])).read_bytes() == written) == is_same
        status, _, err = said([command, str(NETWORK), "-o", output], capsys)
        assert status == 0 and "warning: the losses are drawn by seed 1, which is one of many; --seed N takes another, and `sample` says" in err
        status, _, err = said([command, str(LINE), "-o", output, "--seed", "1"], capsys)
        assert status == 1 and "`--seed` is 1, and" in err and "has no reception ratios to draw losses by" in err
    assert said(["topology", str(NETWORK), "-o", "map.svg"], capsys)[0] == 0


def test_losses_of_a_network_that_do_not_fit(capsys: pytest.CaptureFixture[str], monkeypatch: pytest.MonkeyPatch) -> None:
    def draw(*_: object, **__: object) -> None:
        raise losses.TooManyLosses(7, 19_000)

    # A program without the words `run SEED` and `log SEED` has its losses drawn first.
    monkeypatch.setattr(running, "takes_seed", lambda: False)
    monkeypatch.setattr(losses, "draw", draw)
    status, _, err = said(["timeline", str(NETWORK), "--seed", "1"], capsys)
    assert status == 1 and "they are used up in frame 7: shorten the run to 7 frames" in err


def test_a_network_is_explained_drawn_and_swept(tmp_path: Path, capsys: pytest.CaptureFixture[str]) -> None:
    status, out, _ = said(["explain", str(NETWORK)], capsys)
    assert status == 0 and out == "accepted, and nothing to remark\n"
    wrong = tmp_path / "wrong.network"
    wrong.write_text(NETWORK.read_text() + "ratio 0 1 3 5\n")
    status, _, err = said(["explain", str(wrong)], capsys)
    assert status == 1 and "`ratio 0 1 3 5`: there is no link from 1 to 3" in err
    status, out, _ = said(["draw", str(NETWORK), "--seed", "8"], capsys)
    assert status == 0 and out == losses.draw(Scenario.read(NETWORK), 8).text(warn=False)
    status, _, err = said(["draw", str(LINE)], capsys)
    assert status == 1 and "has no reception ratios to draw losses by: give --ratios CSV, or a network text" in err
    status, out, _ = said(["sweep", str(NETWORK), "--seeds", "7-8", "--jobs", "1"], capsys)
    table = pandas.read_csv(io.StringIO(out))
    assert status == 0 and table["seed"].tolist() == [7, 8] and table["deliveries"].tolist() == [0, 4] and "ratios" not in table
    status, out, _ = said(["sample", str(NETWORK), "--seeds", "7-8", "--jobs", "1", "--json"], capsys)
    assert status == 0 and json.loads(out)["network"][0]["mean"] == pytest.approx(len(results.outcome(NETWORK, 8).deliveries) / 12)
