"""How a process ends that a signal stops: by an exception, so that each `with` block puts away what is half made. Tested, not proved.

Ctrl-C does so by itself. SIGTERM, as `kill` sends it, and SIGHUP, when a terminal is closed, would end a process where it stands, and
leave its temporary files, its workers and the programs that it runs.
"""

from __future__ import annotations

import contextlib
import ctypes
import multiprocessing
import os
import signal
import sys
import threading
from collections.abc import Iterator
from types import FrameType

_SIGNALS = (signal.SIGTERM, signal.SIGHUP)
# For how many seconds what is half made may be put away; programs that were started have five of them to end.
_GRACE_SECONDS = 10
# The call of prctl by which a process gets a signal when that ends which started it.
_PR_SET_PDEATHSIG = 1


class Ended(SystemExit):
    """A signal ends this process; `signal` is its number. The exit status is that of a shell, 128 and the number."""

    def __init__(self, number: int) -> None:
        super().__init__(128 + number)
        self.signal = number


def _raise(number: int, _: FrameType | None) -> None:
    """Raises `Ended`, once: what comes next would disturb the putting away, which has its time."""
    for one in _SIGNALS:
        signal.signal(one, signal.SIG_IGN)
    signal.signal(signal.SIGALRM, signal.SIG_DFL)
    signal.alarm(_GRACE_SECONDS)
    raise Ended(number)


@contextlib.contextmanager
def by_exception() -> Iterator[None]:
    """Makes SIGTERM and SIGHUP raise `Ended` in this block. A signal that is ignored, as by `nohup`, or that has a handler stays so; and
    in a thread other than the main one, which can't have handlers, nothing changes."""
    if threading.current_thread() is not threading.main_thread():
        yield
        return
    ours = [one for one in _SIGNALS if signal.getsignal(one) is signal.SIG_DFL]
    for one in ours:
        signal.signal(one, _raise)
    try:
        yield
    finally:
        # Where one came it is on its way to the end of the process, and others stay ignored.
        for one in ours:
            if signal.getsignal(one) is _raise:
                signal.signal(one, signal.SIG_DFL)


def with_parent(parent: int) -> None:
    """Begins a worker of the process `parent`: it ends with that, whatever ends it, and puts away what is half made. In a thread of the
    process itself it does nothing."""
    if os.getpid() == parent:
        return
    signal.signal(signal.SIGTERM, _raise)
    if signal.getsignal(signal.SIGHUP) is not signal.SIG_IGN:
        signal.signal(signal.SIGHUP, _raise)
    if sys.platform == "linux":
        ctypes.CDLL(None).prctl(_PR_SET_PDEATHSIG, signal.SIGTERM, 0, 0, 0)
    started_by = multiprocessing.parent_process()
    # It may have ended before that was asked for.
    if started_by is not None and not started_by.is_alive():
        raise Ended(signal.SIGTERM)
