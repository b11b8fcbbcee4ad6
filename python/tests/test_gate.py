"""With CI=true a skipped test fails, and too much processor time is said; lines are measured by marks as they are by a tracer."""

from __future__ import annotations

import importlib.util
import os
import subprocess
import sys
import threading
from pathlib import Path
from types import SimpleNamespace

import gate
import measured
import pytest


@pytest.mark.parametrize(("environment", "status", "skips"), [({"CI": "true"}, 1, True), ({"CI": "true"}, 0, False), ({"CI": ""}, 0, True)])
def test_a_skipped_test(environment: dict[str, str], status: int, skips: bool, tmp_path: Path) -> None:
    path = tmp_path / "test_one.py"
    path.write_text("import pytest\n\ndef test_one():\n" + ("    pytest.importorskip('no_such_module')\n" if skips else "    pass\n"))
    (tmp_path / "pytest.ini").write_text("[pytest]\n")
    variables = {**os.environ, **environment, "PYTHONPATH": str(Path(__file__).parent)}
    words = [sys.executable, "-m", "pytest", "-q", "-p", "gate", "-p", "no:cacheprovider", "-p", "no:cov", "-c", "pytest.ini", str(path)]
    ended = subprocess.run(words, capture_output=True, text=True, cwd=tmp_path, env=variables)
    assert ended.returncode == status, ended.stdout
    assert "processor time: " in ended.stdout
    assert ("no test may be skipped" in ended.stdout) == (skips and bool(status))


@pytest.mark.parametrize(("ci", "most", "said"), [("true", -1, True), ("true", 10_000, False), ("", -1, False)])
def test_too_much_processor_time_is_said(ci: str, most: int, said: bool, monkeypatch: pytest.MonkeyPatch) -> None:
    lines: list[str] = []
    reporter = SimpleNamespace(
        stats={}, write_line=lines.append, write_sep=lambda mark, words, **colours: lines.append(words)
    )  # fmt: skip
    monkeypatch.setenv("CI", ci)
    monkeypatch.setattr(gate, "MOST", most)
    gate.pytest_terminal_summary(reporter)  # type: ignore[arg-type]
    assert lines[0].startswith("processor time: ") and any("and -1 s are what they may take" in line for line in lines) == said
    assert gate._BEFORE and len(lines) == 1 + said


# All forms of statements that the package has, each with a line that is run and one that is not, where it can.
FORMS = '''\
"""Words."""
from __future__ import annotations
import functools

@functools.cache
@functools.lru_cache(
    maxsize=3,
)
def forms(x):
    """Words."""
    if x > 2:
        y = 1
    elif x > 1:
        y = 2
    elif x > 9:
        y = 0
    else:
        y = (3 +
             4)
    for i in range(3):
        if i == 1: continue
        y += i
    else:
        y += 1
    while True:
        y += 1
        if y > 9:
            break
    try:
        if x == 0:
            raise KeyError(
                "x")
        y = 1
    except (ValueError,
            TypeError):
        y = 2
    except KeyError as error:
        y = 3
    except:
        y = 5
    else:
        y = 6
    finally:
        y += 1
    with open("/dev/null") as a, \\
         open("/dev/null") as b:
        y += 1
    for y in (x, "a"):
        match y:
            case 1 | 2:
                y = 3
            case int(z) if z > 5:
                y = z
            case [_, _]:
                y = 4
    match x:
        case 7:
            return 7
        case _:
            del y
    assert x < 9, (
        "never")
    return [
        lambda: (
            x
        ),
        x]

class Some:
    x: int = 1
    y: int
    def run(self):
        pass
    @property
    def shown(self):
        global SEEN
        SEEN = 3
        return [a for a in
                range(3)]
    @staticmethod
    def never():
        return 1

def some():
    yield 1
    ...
    if False:
        return
    yield 2

if __name__ == "never":
    x = 1
x: int
forms(0), forms(1), forms(2), forms(3)
Some().run(), Some().shown
list(some())
try:
    1 / 0
except ZeroDivisionError: z = 1
'''


def test_marks_find_the_lines_that_the_tracer_finds(tmp_path: Path) -> None:
    coverage = pytest.importorskip("coverage")
    path, seen = tmp_path / "forms.py", set[int]()
    path.write_text(FORMS)
    covered = coverage.Coverage(include=[str(path)], data_file=None, config_file=False)
    covered.start()
    try:
        exec(compile(FORMS, str(path), "exec"), {"__name__": "traced"})
    finally:
        covered.stop()
    exec(measured.marked(FORMS, str(path)), {"__name__": "marked", measured.NOTE: seen.add})
    told = coverage.Coverage(data_file=None, config_file=False)
    told.get_data().add_lines({str(path): seen})
    # The statements, and those that were not run.
    (_, statements, _, missing, _), (_, _, _, other, _) = (one.analysis2(str(path)) for one in (covered, told))
    assert other == missing and len(statements) == 75 and len(missing) == 9


def test_a_module_with_marks(tmp_path: Path, monkeypatch: pytest.MonkeyPatch) -> None:
    """It is found as it is without, no other is, and its lines are there, also those of a thread."""
    (tmp_path / "foldcairn").mkdir()
    (tmp_path / "foldcairn" / "__init__.py").write_text("x = 1\n")
    monkeypatch.setattr(measured, "LINES", {})
    finder = measured.Finder()
    assert finder.find_spec("json", None) is None and finder.find_spec("foldcairn.none", [str(tmp_path)]) is None
    spec = finder.find_spec("foldcairn", [str(tmp_path)])
    assert spec is not None and spec.loader is not None
    thread = threading.Thread(target=spec.loader.exec_module, args=[importlib.util.module_from_spec(spec)])
    thread.start()
    thread.join()
    assert measured.LINES == {str(tmp_path / "foldcairn" / "__init__.py"): {1}}
