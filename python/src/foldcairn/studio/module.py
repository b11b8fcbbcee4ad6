"""Finds the programs as a WebAssembly module, with the script that calls it. Tested, not proved.

`FOLDCAIRN_WASM` names a folder with `foldcairn.wasm` and `foldcairn.js`. Without it they are those beside the front end of this package, or of the PATH: in a
repository the stored module in `bin/`, and the script in `tools/export/wasm`; in an installed copy both in `bin/`.
"""

from __future__ import annotations

import os
import shutil
from pathlib import Path

from .. import front_end

_NAME, _SCRIPT = "foldcairn.wasm", "foldcairn.js"


class NotThere(ValueError):
    """This copy has no WebAssembly module."""


def read() -> bytes:
    """The bytes of the module. Raises `NotThere` where there is none, and `OSError` where it can't be read."""
    return _found(_NAME).read_bytes()


def script() -> str:
    """The script that calls it. Raises what `read` raises."""
    return _found(_SCRIPT).read_text(encoding="utf-8")


def _found(name: str) -> Path:
    given = os.environ.get("FOLDCAIRN_WASM")
    on_path = shutil.which("foldcairn")
    front = front_end.path() or (Path(on_path).resolve() if on_path else None)
    folders = [Path(given)] if given else [] if front is None else [front.parent / "bin", front.parent / "tools/export/wasm"]
    for folder in folders:
        if (folder / name).is_file():
            return folder / name
    raise NotThere(
        f"this copy of Foldcairn has no {name}: `make wasm` writes it into dist/wasm of the repository, and the variable FOLDCAIRN_WASM names that folder"
    )
