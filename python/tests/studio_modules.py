"""Calls functions of the page's modules by node, for tests. Tested, not proved."""

from __future__ import annotations

import json
import os
import shutil
import subprocess
from pathlib import Path
from typing import Any

import pytest

HERE = Path(__file__).resolve().parent
MODULES = HERE.parent / "src/foldcairn/studio/page/js"
NODE = shutil.which("node")
needs_node = pytest.mark.skipif(NODE is None and os.environ.get("CI") != "true", reason="there is no node")


class Raised(Exception):
    """What a function of a module threw."""


def calls(asked: list[tuple[str, str, list[Any]]]) -> list[Any]:
    """What functions, each named by its module and name, give for their arguments: a value, or `Raised`."""
    lines = "".join(json.dumps({"module": module, "name": name, "args": args}) + "\n" for module, name, args in asked)
    ran = subprocess.run([str(NODE), HERE / "studio_calls.mjs", MODULES], input=lines, capture_output=True, text=True)
    assert ran.returncode == 0, ran.stderr
    answers = [json.loads(line) for line in ran.stdout.splitlines()]
    assert len(answers) == len(asked)
    return [Raised(one["error"]) if "error" in one else plain(one.get("value")) for one in answers]


def call(module: str, name: str, *args: Any) -> Any:
    """The value of one function. Raises `Raised` where it throws."""
    found = calls([(module, name, list(args))])[0]
    if isinstance(found, Raised):
        raise found
    return found


def plain(value: Any) -> Any:
    """A value with the numbers that JSON has not."""
    if isinstance(value, dict) and list(value) == ["$"]:
        text = value["$"]
        return float(text.replace("Infinity", "inf")) if text in ("Infinity", "-Infinity", "NaN") else int(text) if text.lstrip("-").isdigit() else text
    if isinstance(value, dict):
        return {key: plain(one) for key, one in value.items()}
    return [plain(one) for one in value] if isinstance(value, list) else value
