"""What tests of the propagation model share: its table of cases, which other implementations have to agree with too, and nodes in a line."""

from __future__ import annotations

import json
from pathlib import Path
from typing import Any

import pytest

from foldcairn.propagation import LinkModel, Losses

TABLE: dict[str, Any] = json.loads((Path(__file__).parent / "cases" / "propagation.json").read_text(encoding="utf-8"))


def cases(section: str) -> list[Any]:
    """The cases of a section."""
    found: list[Any] = TABLE[section]["cases"]
    return found


def near(section: str, value: Any) -> Any:
    """What a value of a section is compared with, by the tolerance of the section."""
    return pytest.approx(value, rel=TABLE[section].get("relative", 0.0), abs=TABLE[section].get("absolute", 0.0))


LINE = Losses(exponent=3, deviation_db=0, bytes=40)


def line(*metres: float, losses: Losses = LINE, rows: Any = (), **more: Any) -> LinkModel:
    """Nodes A, B, .. on one line, so many metres from its start."""
    names = [chr(ord("A") + place) for place in range(len(metres))]
    return LinkModel(names, [[at, 0.0] for at in metres], None, losses, rows, **more)
