"""Finds the front end, the script `foldcairn`, and is the command `foldcairn` of an installed package. Tested, not proved.

It imports nothing of the package and none of the libraries that it stands on, so that the programs start at once.
"""

from __future__ import annotations

import os
import signal
import sys
from pathlib import Path
from typing import NoReturn


def path() -> Path | None:
    """The front end of the repository that this package is in, else the one that was installed in this package's folder, else
    None."""
    here = Path(__file__).resolve()
    for folder in (*(parent for parent in here.parents if (parent / "crates.txt").is_file()), here.parent / "installed"):
        script = folder / "foldcairn"
        if script.is_file() and os.access(script, os.X_OK):
            return script
    return None


def missing(error: ModuleNotFoundError) -> str:
    """What to do about a module that is not there."""
    name = (error.name or "").partition(".")[0]
    return f"{sys.executable} lacks the module {name}: apt-get install python3-{name}, or pip install {name}"


def main() -> NoReturn:
    """Starts the front end on the words of this call, in place of this process. The front end hands the package's words back to
    this Python."""
    script = path()
    if script is None:
        sys.exit("foldcairn: this package was installed without its programs")
    os.environ["FOLDCAIRN_PYTHON"] = sys.executable
    # Python ignores it, and what it starts would too: a shell whose reader is gone would say so for each line.
    signal.signal(signal.SIGPIPE, signal.SIG_DFL)
    os.execv(script, [str(script), *sys.argv[1:]])
