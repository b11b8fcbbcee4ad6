"""Makes the wheel one of programs: it gets the stored programs, the front end, the pages and the examples, and the tag of the
platform that the programs run on. An editable install needs none of it, since it finds those of the repository."""

from __future__ import annotations

import importlib.util
import subprocess
import tempfile
from pathlib import Path
from typing import Any

from hatchling.builders.hooks.plugin.interface import BuildHookInterface

_HERE = Path(__file__).resolve().parent
# The C library that the programs are linked with, and each later one.
_TAG = "py3-none-manylinux_2_34_x86_64"


class CustomBuildHook(BuildHookInterface):
    """Called by hatchling before and after it makes a wheel."""

    def initialize(self, version: str, build_data: dict[str, Any]) -> None:
        """Adds what is installed with the package. Raises `CalledProcessError` where the stored programs are of other sources."""
        self._remove_bytecode()
        if version == "editable":
            return
        self.folder = tempfile.TemporaryDirectory()
        installed = Path(self.folder.name) / "installed"
        subprocess.run([_HERE.parent / "tools" / "installed.sh", installed], check=True)
        build_data["force_include"][str(installed)] = "foldcairn/installed"
        build_data["pure_python"] = False
        build_data["tag"] = _TAG

    def finalize(self, version: str, build_data: dict[str, Any], artifact_path: str) -> None:
        """Removes what `initialize` made."""
        if version != "editable":
            self.folder.cleanup()

    def _remove_bytecode(self) -> None:
        """Python keeps the bytecode of this file next to it, and a build is to leave nothing in the repository."""
        kept = Path(importlib.util.cache_from_source(str(_HERE / "hatch_build.py")))
        kept.unlink(missing_ok=True)
        if kept.parent.is_dir() and not any(kept.parent.iterdir()):
            kept.parent.rmdir()
