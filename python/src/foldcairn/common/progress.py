"""How far long work is: a bar on a terminal, a line a minute elsewhere. Tested, not proved."""

from __future__ import annotations

import sys
from typing import Any, TextIO

from tqdm import tqdm

_TERMINAL_SECONDS, _FILE_SECONDS = 0.5, 60.0


def bar(total: int, unit: str, stream: bool | TextIO = True, there: int = 0) -> Any:
    """A bar of tqdm for so many things, on standard error (True), on a stream, or nowhere (False), of which some were `there` before;
    `update` says that one more is done, and it is closed by `close` or at the end of `with`."""
    sink = sys.stderr if stream is True else stream or None
    terminal = sink is not None and sink.isatty()
    return tqdm(
        total=total, initial=there, unit=f" {unit}", file=sink, disable=sink is None, mininterval=_TERMINAL_SECONDS if terminal else _FILE_SECONDS,
        maxinterval=_FILE_SECONDS, dynamic_ncols=terminal,
    )  # fmt: skip
