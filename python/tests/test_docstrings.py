"""tools/docstrings.py: what is checked of a module's functions, classes, methods and properties, on a module that is made for it."""

from __future__ import annotations

import importlib.util
import sys
from pathlib import Path
from types import ModuleType

import pytest
from conftest import REPOSITORY

pytest.importorskip("numpydoc")

MODULE = '''
"""A module."""
from dataclasses import dataclass
__all__ = ["whole", "bare", "Made", "Given", "Wrong", "NUMBER"]
NUMBER = 1


def whole(count: int) -> int:
    """Gives one more.

    Parameters
    ----------
    count : int
        A number.

    Returns
    -------
    int
        The next one.
    """
    return count + 1


def bare(count: int) -> int:
    """Gives one more."""
    return count + 1


@dataclass(frozen=True, slots=True)
class Made:
    """What users make, without a word of its field."""

    count: int

    @property
    def twice(self) -> int:
        """Two times the count."""
        return 2 * self.count

    def more(self) -> int:
        """One more."""
        return self.count + 1

    def _own(self) -> int:
        return 0


class Given:
    """What a call gives.

    Attributes
    ----------
    count : int
        A number.
    """

    def __init__(self, count: int) -> None:
        self.count = count


class Wrong(ValueError):
    """What is raised."""

    def __init__(self, count: int) -> None:
        super().__init__(count)
'''


@pytest.fixture
def tool() -> ModuleType:
    """The script as a module."""
    found = importlib.util.spec_from_file_location("docstrings_tool", REPOSITORY / "tools" / "docstrings.py")
    assert found is not None and found.loader is not None
    made = importlib.util.module_from_spec(found)
    found.loader.exec_module(made)
    return made


def test_what_is_wrong_in_a_module(tool: ModuleType, tmp_path: Path, monkeypatch: pytest.MonkeyPatch, capsys: pytest.CaptureFixture[str]) -> None:
    """A function needs its sections, a class that users make the parameters, and a method what it returns; a property one line is enough for."""
    (tmp_path / "made_for_docstrings.py").write_text(MODULE)
    monkeypatch.syspath_prepend(tmp_path)
    monkeypatch.setattr(tool, "PACKAGE", "made_for_docstrings")
    names = [name.partition(".")[2] for name in tool.names_of("made_for_docstrings")]
    assert names == ["whole", "bare", "Made", "Made.twice", "Made.more", "Given", "Wrong"]
    assert tool.main(["made_for_docstrings"]) == 1
    told = [tuple(line.split()[1:3]) for line in capsys.readouterr().out.splitlines()]
    where = "made_for_docstrings"
    assert sorted(told) == [(f"{where}.Made.more:", "RT01"), (f"{where}.Made:", "PR01"), (f"{where}.bare:", "PR01"), (f"{where}.bare:", "RT01")]
    sys.modules.pop("made_for_docstrings")


def test_public_modules_are_found(tool: ModuleType) -> None:
    modules = tool.public_modules()
    assert modules[0] == "foldcairn" and {"foldcairn.planning", "foldcairn.scenario", "foldcairn.sweep", "foldcairn.plan"} <= set(modules)
    assert not {"foldcairn.cli", "foldcairn.answers", "foldcairn.front_end"} & set(modules)
