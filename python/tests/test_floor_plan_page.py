"""docs/FLOOR-PLAN.md and the surveys of docs/FROM-A-TESTBED.md: their tables, their Python, and the nightly job of examples/workshop.

What the commands of FLOOR-PLAN write is compared by tests/documents.sh.
"""

from __future__ import annotations

import json
import os
import re
import shutil
import subprocess
from pathlib import Path
from xml.etree import ElementTree

import pages
import pytest
from conftest import REPOSITORY

from foldcairn.propagation import PRESETS, curve, survey

GUIDE, TESTBED, WORKSHOP = (REPOSITORY / path for path in ("docs/FLOOR-PLAN.md", "docs/FROM-A-TESTBED.md", "examples/workshop"))


def test_the_presets_of_the_page() -> None:
    rows = re.findall(r"^\| `([a-z-]+)` \| ([\d.]+) \| ([\d.]+) dB \| ([\d.]+) dB, ([\d.]+) dB \| ([\w-]+)", GUIDE.read_text(), re.MULTILINE)
    assert [name for name, *_ in rows] == list(PRESETS)
    for name, *numbers, source in rows:
        one = PRESETS[name]
        assert [float(number) for number in numbers] == [one.exponent, one.deviation_db, one.first_floor_db, one.floor_db]
        assert source in one.source


def test_the_numbers_of_the_page_on_surveys() -> None:
    said = r"Of 18 of 20 packets the ratio is ([\d.]+), .* between ([\d.]+) and ([\d.]+); of 1,800 of 2,000 it is ([\d.]+), between ([\d.]+) and ([\d.]+)\. "
    found = re.search(said, TESTBED.read_text())
    assert found is not None
    assert found.groups() == tuple(f"{number:.2f}" for counts in ((18, 20), (1800, 2000)) for number in survey.beta(*counts))
    # Links at the end of their range: 4 dB above the noise nothing is lost, and with 8 dB more noise all is.
    assert curve.ratio_of_snr(4, 384) > 0.999 and curve.ratio_of_snr(4 - 8, 384) < 0.001


def test_the_python_of_the_page_on_surveys(tmp_path: Path) -> None:
    assert len(pages.blocks(TESTBED.read_text())) == 1
    assert pages.run(TESTBED, tmp_path)[0] == TESTBED.read_text()


def run(folder: Path, command: str) -> subprocess.CompletedProcess[str]:
    """Runs a command of the job, with `foldcairn` of this repository on the path."""
    programs = folder / "programs"
    programs.mkdir(exist_ok=True)
    if not (programs / "foldcairn").exists():
        (programs / "foldcairn").symlink_to(REPOSITORY / "foldcairn")
    return subprocess.run(
        ["sh", "-c", command], cwd=folder / "workshop", env={**os.environ, "PATH": f"{programs}:{os.environ['PATH']}"}, capture_output=True, text=True
    )


@pytest.fixture
def site(tmp_path: Path) -> Path:
    shutil.copytree(WORKSHOP, tmp_path / "workshop")
    return tmp_path


def test_the_nightly_job(site: Path) -> None:
    job = (site / "workshop" / "gitlab-ci.yml").read_text()
    (command,) = re.findall(r"^  script:\n    - (.*)$", job, re.MULTILINE)
    done = run(site, command)
    assert done.returncode == 0, done.stderr
    junit = ElementTree.parse(site / "workshop" / re.findall(r"junit: (.*)$", job, re.MULTILINE)[0]).getroot()
    suite = junit if junit.tag == "testsuite" else junit.find("testsuite")
    assert suite is not None and len(suite.findall("testcase")) == 4 and [suite.get("failures"), suite.get("errors")] == ["0", "0"]
    assert len(json.loads((site / "workshop" / "verdicts.json").read_text())["verdicts"]) == 4
    kept = {path.name for path in (site / "workshop" / "draws").iterdir()}
    # Another threshold takes the draws that are there, and the job fails where it is not met.
    plan = site / "workshop" / "plan.toml"
    plan.write_text(plan.read_text().replace("outage = 180", "outage = 100"))
    done = run(site, "./nightly.sh")
    assert done.returncode == 10 and "not met" in done.stdout, done.stderr
    assert b'failures="1"' in (site / "workshop" / "verdicts.xml").read_bytes()
    assert {path.name for path in (site / "workshop" / "draws").iterdir()} == kept
