"""Plan files and tables with mistakes that are drawn at random: each is read, or told as what is wrong with a plan, and nothing else."""

from __future__ import annotations

import random
from pathlib import Path

import pytest

from foldcairn.plan import Plan, PlanError, example

VALUES = (
    '""', "-1", "1e400", "nan", "inf", "[]", "{}", "true", '"x"', "9" * 30, "[1, 2]", "2026-01-01", '"\\u0000"', "0", "0.0", "[[1, 2], 3]", "{a = 1}", "''",
)  # fmt: skip
LETTERS = ("", *"\"'[]=,;#\x00\x7f0-é\n{}")


def changed(chance: random.Random, name: str, text: str) -> str:
    """A text with one mistake: another value, a line twice or gone, or another letter."""
    lines = text.split("\n")
    place = chance.randrange(len(lines))
    match chance.randint(0, 3):
        case 0 if name == "plan.toml":
            place = chance.choice([number for number, line in enumerate(lines) if "=" in line and not line.startswith("#")])
            lines[place] = f"{lines[place].partition('=')[0]}= {chance.choice(VALUES)}"
        case 1:
            lines.insert(chance.randrange(len(lines)), lines[place])
        case 2:
            del lines[place]
        case _:
            at = chance.randrange(len(text))
            return text[:at] + chance.choice(LETTERS) + text[at + 1 :]
    return "\n".join(lines)


@pytest.mark.parametrize("piece", range(4))
def test_mistakes_at_random(piece: int, tmp_path: Path) -> None:
    chance, read = random.Random(piece), 0
    for _ in range(15):
        files = dict(example.FILES)
        for name in chance.choices(["plan.toml", *files], k=chance.randint(1, 2)):
            files[name] = changed(chance, name, files[name])
        for name, text in files.items():
            (tmp_path / name).write_text(text, encoding="utf-8")
        try:
            plan = Plan.read(tmp_path / "plan.toml")
            plan.network(1)
            assert Plan.parse(plan.text()) == plan
            read += 1
        except PlanError as error:
            assert str(error) and "\n" not in str(error)
    assert read < 15
