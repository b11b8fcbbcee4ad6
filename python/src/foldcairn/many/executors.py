"""Calls that are handed to an executor of `concurrent.futures`, or to a client of Dask's `distributed`. Tested, not proved."""

from __future__ import annotations

import contextlib
import functools
import hashlib
import multiprocessing
import os
import pickle
import tempfile
import traceback
import weakref
from collections.abc import Callable, Iterator
from concurrent import futures
from concurrent.futures import FIRST_COMPLETED, Executor, Future, ProcessPoolExecutor, wait
from dataclasses import dataclass
from pathlib import Path
from typing import Any, Generic, TypeVar

from ..common import ending

Name = TypeVar("Name")
Found = TypeVar("Found")

# How many calls are handed over and not done, at most; more would cost memory only.
_WAITING_MOST = 1_000
# How many bytes of a call go through the pipe to the processes of a pool at most; what is larger goes by a file. A pipe holds 65,536
# bytes, and a pool has one call more in it than it has processes. So to write never waits for a process, which may have been killed.
_PIPED_MOST = 256
# From how many bytes on a part of calls, such as a network, has a file of its own, which they share.
_PART_MOST = 4_096
# The pools of `processes` that are open.
_OWN: weakref.WeakSet[Executor] = weakref.WeakSet()


class BrokeDown(Exception):
    """The executor takes no more calls, or lost one; the message says why."""


@contextlib.contextmanager
def processes(jobs: int | None = None, kind: Callable[..., Executor] | None = None) -> Iterator[Executor]:
    """So many processes, or one for each processor, that end with this one, whatever ends it. Where the block is left by an exception they
    are ended at once. `kind` makes the executor, `ProcessPoolExecutor` without it."""
    own = (kind or ProcessPoolExecutor)(jobs, initializer=ending.with_parent, initargs=(os.getpid(),))
    _OWN.add(own)
    try:
        yield own
    except BaseException:
        # Of a pool of threads there are none. Python 3.14 has a public call for it; once a pool is shut down it knows them no more.
        workers = list((getattr(own, "_processes", None) or {}).values())
        own.shutdown(wait=False, cancel_futures=True)
        for worker in workers:
            worker.terminate()
        raise
    finally:
        own.shutdown(cancel_futures=True)


@contextlib.contextmanager
def running(executor: Any) -> Iterator[Executor]:
    """The executor that is given, that of a client of `distributed`, or without one (None) the `processes`."""
    if executor is not None:
        # A client of `distributed` is no executor itself.
        yield executor.get_executor() if hasattr(executor, "get_executor") else executor
        return
    with processes() as own:
        yield own


@dataclass(frozen=True)
class _Came(Generic[Found]):
    """What came of a call: what it gave, or what it raised."""

    found: Found | None = None
    error: Exception | None = None


def done(runner: Executor, ahead: list[tuple[Name, Callable[[], Found]]]) -> Iterator[tuple[Name, Found]]:
    """What came of each call, by its name, in the order in which they end. `ahead` has the calls, the first of them at its end, and
    more may be added meanwhile.

    Raises `BrokeDown` where the executor fails in any way, and what a call raises otherwise; then what has not begun is left.
    """
    waiting: dict[Future[_Came[Found]], tuple[Name, Callable[[], Found]]] = {}
    with _Parcels(isinstance(runner, futures.ProcessPoolExecutor)) as parcels:
        try:
            while ahead or waiting:
                while ahead and len(waiting) < _WAITING_MOST:
                    name, call = ahead.pop()
                    call = parcels.call(call)
                    waiting[_submitted(runner, call)] = name, call
                finished, _ = wait(waiting, return_when=FIRST_COMPLETED)
                # What came is given before an exception ends this.
                for future in sorted(finished, key=_failed):
                    name, call = waiting.pop(future)
                    parcels.forget(call)
                    yield name, _found(future)
        finally:
            # A pool of our own does so itself, and stumbles over what is done already where it was broken.
            for future in waiting if runner not in _OWN else ():
                future.cancel()


def _submitted(runner: Executor, call: Callable[[], Found]) -> Future[_Came[Found]]:
    try:
        return runner.submit(_called, call)
    except Exception as error:
        raise BrokeDown(str(error) or type(error).__name__) from error


def _failed(future: Future[_Came[Found]]) -> bool:
    return future.cancelled() or future.exception() is not None or future.result().error is not None


def _found(future: Future[_Came[Found]]) -> Found:
    try:
        came = future.result()
    except Exception as error:
        # What the call raised is in what came: so this is the executor's, as where a worker was killed or a future was cancelled.
        raise BrokeDown(str(error) or type(error).__name__) from error
    if came.error is not None:
        raise came.error
    return came.found  # type: ignore[return-value]


def _called(call: Callable[[], Found]) -> _Came[Found]:
    """Makes a call, in a worker."""
    try:
        return _Came(call())
    except ending.Ended as ended:
        # The pool would take it for an answer. All is put away by now.
        os._exit(ended.code if isinstance(ended.code, int) else 1)
    except Exception as error:
        if multiprocessing.parent_process() is not None:
            error.add_note(f"in a worker:\n{traceback.format_exc()}")
        return _Came(error=error)


# How calls get to processes.


@dataclass(frozen=True)
class _Parcel:
    """A part of a call that is in a file."""

    path: str


class _Parcels:
    """Writes calls that are not small into files of a temporary folder, and large parts of them that they share, such as a network, once, if
    they go to a pool by a pipe."""

    def __init__(self, needed: bool) -> None:
        self._needed = needed
        self._stack = contextlib.ExitStack()
        self._calls = 0
        # What was written, by the identity of the part, which is kept so that no other gets it.
        self._written: dict[int, tuple[object, _Parcel]] = {}

    def __enter__(self) -> _Parcels:
        if self._needed:
            self._folder = Path(self._stack.enter_context(tempfile.TemporaryDirectory(prefix="foldcairn-")))
        return self

    def __exit__(self, *_: object) -> None:
        self._stack.close()

    def call(self, call: Callable[[], Found]) -> Callable[[], Found]:
        """The call, or one that is small and makes it. Raises what `pickle` raises where it can't be handed to a process."""
        if not self._needed:
            return call
        given: Any = call
        parts = (given.func, *given.args) if isinstance(given, functools.partial) and not given.keywords else (given,)
        made = functools.partial(_unpacked, *map(self._part, parts))
        pickled = pickle.dumps(made)
        if len(pickled) <= _PIPED_MOST:
            return made
        self._calls += 1
        path = self._folder / f"call-{self._calls}"
        path.write_bytes(pickled)
        return functools.partial(_unpacked, _Parcel(str(path)))

    def forget(self, call: Callable[[], Found]) -> None:
        """Takes away what was written for this call alone."""
        if isinstance(call, functools.partial) and isinstance(call.args[0], _Parcel) and Path(call.args[0].path).name.startswith("call"):
            Path(call.args[0].path).unlink()

    def _part(self, part: object) -> object:
        if id(part) in self._written:
            return self._written[id(part)][1]
        pickled = pickle.dumps(part)
        if len(pickled) <= _PART_MOST:
            return part
        path = self._folder / f"part-{hashlib.blake2b(pickled).hexdigest()[:16]}"
        if not path.exists():
            path.write_bytes(pickled)
        self._written[id(part)] = part, _Parcel(str(path))
        return self._written[id(part)][1]


def _unpacked(*parts: Any) -> Any:
    """Makes a call of these parts, some of which are in files."""
    function, *given = (pickle.loads(_bytes(part.path)) if isinstance(part, _Parcel) else part for part in parts)
    return function(*given)


@functools.lru_cache(maxsize=8)
def _bytes(path: str) -> bytes:
    return Path(path).read_bytes()
