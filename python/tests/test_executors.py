"""Executors that fail, and processes that are killed: nothing hangs, and nothing is left. Real processes are killed here, each for itself
and within its time."""

from __future__ import annotations

import ctypes
import functools
import multiprocessing
import os
import pickle
import signal
import subprocess
import sys
import threading
import time
from collections.abc import Callable
from concurrent.futures import Executor, Future, ProcessPoolExecutor
from pathlib import Path
from unittest.mock import Mock

import pytest
from conftest import REPOSITORY
from networks import LINE

from foldcairn.common import ending
from foldcairn.many import executors, seeds, sweep
from foldcairn.model.scenario import Scenario

NETWORK = REPOSITORY / "tests" / "worked" / "three-in-a-line.network"
# For how many seconds a test waits at most, also where others use all processors.
_PATIENCE = 60.0


# Executors that fail.


class Failing(Executor):
    """An executor of which each call fails in one way, which is none of the call."""

    def __init__(self, way: str) -> None:
        self.way = way

    def submit(self, function: Callable[..., object], /, *given: object, **more: object) -> Future[object]:  # type: ignore[override]
        future: Future[object] = Future()
        if self.way == "refuses":
            raise Exception("no room")
        if self.way == "cancels":
            future.cancel()
            future.set_running_or_notify_cancel()
        else:
            future.set_exception(Exception("a worker was lost"))
        return future


def measured(scenario: Scenario, piece: list[int]) -> list[int]:
    if 5 in piece:
        raise OSError("the disk of the measure")
    return list(piece)


@pytest.mark.parametrize(("way", "says"), [("refuses", "no room"), ("cancels", "CancelledError"), ("loses", "a worker was lost")])
def test_what_an_executor_raises_is_a_stop(way: str, says: str) -> None:
    with pytest.raises(sweep.SweepStopped, match=f"the executor broke down, with 3 runs still to make: {says}"):
        seeds.answers([seeds.Question(Scenario.read(NETWORK), measured, "a test")], [1, 2, 3], executor=Failing(way), progress=False)
    with pytest.raises(sweep.SweepStopped, match=f"the executor broke down, with 1 cases still to make: {says}"):
        sweep.sweep(lambda seed: LINE, [{"seed": 1}], executor=Failing(way), progress=False)


@pytest.mark.processes
def test_what_a_call_raises_is_no_stop() -> None:
    asked = [seeds.Question(Scenario.read(NETWORK), measured, "a test")]
    with ProcessPoolExecutor(1) as pool:
        for executor in (pool, None):
            with pytest.raises(OSError, match="the disk of the measure") as raised:
                seeds.answers(asked, [1, 5], executor=executor, progress=False)
            assert "in a worker:\nTraceback" in raised.value.__notes__[0]
        # What was lost is cancelled or done, and the pool takes more.
        assert seeds.answers(asked, [1, 2], executor=pool, progress=False) == [[1, 2]]


@pytest.mark.processes
def test_calls_that_can_not_be_handed_to_a_process() -> None:
    with pytest.raises((AttributeError, TypeError), match="pickle"):
        sweep.sweep(lambda seed: LINE, [{"seed": 1}], progress=False)


def length(text: str, number: int) -> tuple[int, int]:
    return len(text), number


@pytest.mark.processes
def test_large_calls_go_by_files(tmp_path: Path, monkeypatch: pytest.MonkeyPatch) -> None:
    """What calls share is written once, and nothing is left."""
    monkeypatch.setattr("tempfile.tempdir", str(tmp_path))
    text, found, there = "x" * 100_000, [], 0
    with executors.running(None) as runner:
        ahead = [(number, functools.partial(length, text, number)) for number in range(20)]
        for name, came in executors.done(runner, ahead):
            found.append((name, came))
            there = max(there, sum(path.stat().st_size for path in tmp_path.rglob("*")))
    assert sorted(found) == [(number, (100_000, number)) for number in range(20)]
    assert 100_000 < there < 130_000 and list(tmp_path.iterdir()) == []


def test_a_call_by_files_is_the_call() -> None:
    with executors._Parcels(True) as parcels:
        large = parcels.call(functools.partial(length, "x" * 100_000, 3))
        assert large() == (100_000, 3) and len(pickle.dumps(large)) < 300
        parcels.forget(large)
        assert parcels.call(functools.partial(length, "x", 3))() == (1, 3)


# Signals.


def test_a_signal_is_an_exception_once() -> None:
    try:
        with pytest.raises(ending.Ended) as ended, ending.by_exception():
            os.kill(os.getpid(), signal.SIGTERM)
            time.sleep(_PATIENCE)
        assert ended.value.signal == signal.SIGTERM and ended.value.code == 143
        # Further ones would disturb what puts things away.
        os.kill(os.getpid(), signal.SIGTERM)
        assert signal.getsignal(signal.SIGHUP) is signal.SIG_IGN and 0 < signal.alarm(0) <= 10
    finally:
        signal.alarm(0)
        signal.signal(signal.SIGTERM, signal.SIG_DFL), signal.signal(signal.SIGHUP, signal.SIG_DFL)


def test_handlers_that_are_there_stay() -> None:
    signal.signal(signal.SIGHUP, signal.SIG_IGN)
    try:
        with ending.by_exception():
            os.kill(os.getpid(), signal.SIGHUP)
            assert signal.getsignal(signal.SIGTERM) is ending._raise
        assert signal.getsignal(signal.SIGTERM) is signal.SIG_DFL and signal.getsignal(signal.SIGHUP) is signal.SIG_IGN
    finally:
        signal.signal(signal.SIGHUP, signal.SIG_DFL)
    # A thread can't have handlers, and one of a pool is no worker that ends.
    reached = []

    def inside() -> None:
        with ending.by_exception():
            ending.with_parent(os.getpid())
            reached.append(signal.getsignal(signal.SIGTERM))

    thread = threading.Thread(target=inside)
    thread.start()
    thread.join()
    assert reached == [signal.SIG_DFL]


def test_a_worker_begins(monkeypatch: pytest.MonkeyPatch) -> None:
    """It gets SIGTERM when its parent ends, and ends at once where that has ended by then."""
    library, parent = Mock(), Mock()
    monkeypatch.setattr(ctypes, "CDLL", lambda name: library)
    monkeypatch.setattr(multiprocessing, "parent_process", lambda: parent)
    try:
        ending.with_parent(-1)
        assert library.prctl.call_args.args == (1, signal.SIGTERM, 0, 0, 0)
        assert signal.getsignal(signal.SIGTERM) is signal.getsignal(signal.SIGHUP) is ending._raise
        parent.is_alive.return_value = False
        with pytest.raises(ending.Ended):
            ending.with_parent(-1)
    finally:
        signal.signal(signal.SIGTERM, signal.SIG_DFL), signal.signal(signal.SIGHUP, signal.SIG_DFL)


def test_a_call_that_is_ended_is_no_answer(monkeypatch: pytest.MonkeyPatch) -> None:
    statuses: list[int] = []

    def ended() -> None:
        raise ending.Ended(signal.SIGTERM)

    monkeypatch.setattr(os, "_exit", statuses.append)
    executors._called(ended)
    assert statuses == [143]
    assert isinstance(executors._called(lambda: int("x")).error, ValueError)


# Processes that are killed.


def alive(session: int) -> dict[int, str]:
    """The processes of a session by their ids, with their names; those that ended and were not waited for don't count."""
    found = {}
    for entry in Path("/proc").iterdir():
        if entry.name.isdecimal():
            try:
                name, rest = (entry / "stat").read_text().split(" (", 1)[1].rsplit(") ", 1)
            except (OSError, IndexError):
                continue
            state, _, _, of = rest.split()[:4]
            if int(of) == session and state not in "ZX":
                found[int(entry.name)] = name
    return found


def until(what: Callable[[], object]) -> None:
    """Waits until something holds."""
    end = time.monotonic() + _PATIENCE
    while not what():
        assert time.monotonic() < end, "that did not come"
        time.sleep(0.02)


@pytest.fixture
def started(tmp_path: Path) -> Callable[..., subprocess.Popen[str]]:
    """Starts a Python in a session of its own, with a temporary folder of its own."""
    (tmp_path / "tmp").mkdir()

    def start(*words: str, **variables: str) -> subprocess.Popen[str]:
        environment = {**os.environ, "PYTHONPATH": os.pathsep.join(filter(None, sys.path)), "TMPDIR": str(tmp_path / "tmp"), **variables}
        return subprocess.Popen(
            [sys.executable, *words], env=environment, cwd=tmp_path, stdout=subprocess.PIPE, stderr=subprocess.PIPE, text=True, start_new_session=True,
        )  # fmt: skip

    return start


_KILLED_WORKER = """
import os, signal
from foldcairn.many import executors, seeds, sweep
from foldcairn.scenario import Scenario

def measured(scenario, piece):
    os.kill(os.getpid(), signal.SIGKILL)

if __name__ == "__main__":
    network = Scenario(4000).node(1).node(2).host(0, 1).pair(1, 2, 0.9).on().every(4, 2, bytes(30))
    asked = [seeds.Question(network, measured, "a test")]
    with executors.processes(1) as pool:
        seeds.answers(asked, range(200), executor=pool, progress=False)
"""


def test_a_worker_that_is_killed_hangs_nothing(started: Callable[..., subprocess.Popen[str]], tmp_path: Path) -> None:
    """The network takes more bytes than a pipe holds. So what hands it over would wait for ever for the worker that is gone."""
    (tmp_path / "killed.py").write_text(_KILLED_WORKER)
    process = started("killed.py")
    try:
        _, told = process.communicate(timeout=_PATIENCE)
    finally:
        process.kill()
    assert "SweepStopped: the executor broke down, with 200 runs still to make" in told
    assert alive(process.pid) == {} and list((tmp_path / "tmp").iterdir()) == []


@pytest.mark.parametrize("number", [signal.SIGTERM, signal.SIGHUP, signal.SIGKILL])
def test_workers_end_with_their_command(
    number: signal.Signals, started: Callable[..., subprocess.Popen[str]], fake: Callable[[str], Path], tmp_path: Path
) -> None:  # fmt: skip
    """With the programs that they run."""
    process = started("-m", "foldcairn", "sample", str(NETWORK), "--seeds", "40", "--jobs", "2", FOLDCAIRN_PLAN=str(fake("exec sleep 100")))
    until(lambda: list(alive(process.pid).values()).count("sleep") == 2)
    os.kill(process.pid, number)
    _, told = process.communicate(timeout=_PATIENCE)
    assert process.returncode == (-number if number == signal.SIGKILL else 128 + number)
    until(lambda: alive(process.pid) == {})
    if number != signal.SIGKILL:
        assert told.endswith("foldcairn: stopped\n") and "Traceback" not in told and list((tmp_path / "tmp").iterdir()) == []


@pytest.mark.parametrize("number", [signal.SIGTERM, signal.SIGHUP])
def test_a_report_that_is_ended_leaves_nothing(
    number: signal.Signals, started: Callable[..., subprocess.Popen[str]], fake: Callable[[str], Path], tmp_path: Path
) -> None:  # fmt: skip
    """Neither the log that was half written nor the program that wrote it."""
    (tmp_path / "line.scenario").write_text(LINE)
    program = fake("while :; do echo deliver; sleep 0.02; done")
    process = started("-m", "foldcairn", "report", "line.scenario", "--html", "page.html", FOLDCAIRN=str(program))
    until(lambda: any(path.is_file() and path.stat().st_size for path in (tmp_path / "tmp").rglob("*")))
    os.kill(process.pid, number)
    out, told = process.communicate(timeout=_PATIENCE)
    assert (process.returncode, out, told) == (128 + number, "", "foldcairn: stopped\n")
    until(lambda: alive(process.pid) == {})
    assert list((tmp_path / "tmp").iterdir()) == [] and not (tmp_path / "page.html").exists()
