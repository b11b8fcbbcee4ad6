"""The version of this package. Tested, not proved."""

from __future__ import annotations

from functools import cache
from importlib import metadata
from pathlib import Path


@cache
def version() -> str:
    """The version of the repository that this file is in, else that of the package as it was installed, else "unknown"."""
    for folder in Path(__file__).resolve().parents:
        if (folder / "crates.txt").is_file() and (folder / "VERSION").is_file():
            return (folder / "VERSION").read_text(encoding="utf-8").strip()
    try:
        return metadata.version("foldcairn")
    except metadata.PackageNotFoundError:
        return "unknown"
