"""Files appear whole or not at all, also where the disk is full, and an error names the file."""

from __future__ import annotations

import contextlib
import errno
import os
import resource
import threading
from collections.abc import Iterator
from pathlib import Path

import pytest
from networks import FAILOVER, LINE, log_of

from foldcairn import planning
from foldcairn.common import files
from foldcairn.draw import plot, style
from foldcairn.many import sweep
from foldcairn.pages import export, page, report
from foldcairn.runs import program, results


@pytest.fixture(scope="module")
def log() -> results.Log:
    return log_of(FAILOVER)


@contextlib.contextmanager
def full_disk(most: int) -> Iterator[None]:
    """Files of this process have at most so many bytes, as on a disk with no more room."""
    before = resource.getrlimit(resource.RLIMIT_FSIZE)
    resource.setrlimit(resource.RLIMIT_FSIZE, (most, before[1]))
    try:
        yield
    finally:
        resource.setrlimit(resource.RLIMIT_FSIZE, before)


def picture(log: results.Log, path: Path) -> Path:
    return plot.save(style.axes(2.0, 2.0)[0], path)


WRITERS = {
    "timeline.svg": picture,
    "timeline.png": picture,
    "run.pcap": export.pcap,
    "trace.json": export.trace,
    "trace.json.gz": export.trace,
}


@pytest.mark.parametrize("name", WRITERS)
def test_a_full_disk_leaves_what_was_there_and_names_the_file(name: str, log: results.Log, tmp_path: Path) -> None:
    path = tmp_path / name
    path.write_bytes(b"before")
    with full_disk(1_000), pytest.raises(OSError, match="File too large") as raised:
        WRITERS[name](log, path)
    assert raised.value.filename == str(path) and str(path) in str(raised.value)
    assert path.read_bytes() == b"before" and list(tmp_path.iterdir()) == [path]
    WRITERS[name](log, path)
    assert path.read_bytes() != b"before" and list(tmp_path.iterdir()) == [path]


def test_a_page_on_a_full_disk(log: results.Log, tmp_path: Path, monkeypatch: pytest.MonkeyPatch) -> None:
    monkeypatch.setattr(page, "text", lambda *_, **__: 2_000 * "x")
    with full_disk(1_000), pytest.raises(OSError, match="File too large: '.*report[.]html'"):
        page.write(log, tmp_path / "report.html")
    assert list(tmp_path.iterdir()) == []


def test_tables_and_results_on_a_full_disk(log: results.Log, tmp_path: Path) -> None:
    with full_disk(100), pytest.raises(OSError, match="File too large: '.*[.]csv'"):
        report.write(planning.tables(log), tmp_path / "tables")
    assert [path for path in (tmp_path / "tables").iterdir() if path.name.startswith(".")] == []
    path = line(tmp_path)
    with full_disk(100), pytest.raises(OSError, match="File too large: '.*[.]json'"):
        sweep.sweep(sweep.from_file, [{"file": str(path)}], results=tmp_path / "kept", progress=False)
    assert list((tmp_path / "kept").iterdir()) == []


def line(folder: Path) -> Path:
    path = folder / "line.scenario"
    path.write_text(LINE)
    return path


def test_rights_are_those_that_the_umask_leaves_and_stay_where_a_file_is_replaced(tmp_path: Path) -> None:
    before = os.umask(0o027)
    try:
        path = files.write(tmp_path / "a", b"1")
        assert path.stat().st_mode & 0o777 == 0o640
        path.chmod(0o604)
        files.write(path, b"2")
        assert path.stat().st_mode & 0o777 == 0o604 and path.read_bytes() == b"2"
    finally:
        os.umask(before)


def test_the_umask_of_the_process_is_never_changed(tmp_path: Path, monkeypatch: pytest.MonkeyPatch) -> None:
    """Another thread would write its files with it."""
    monkeypatch.setattr(os, "umask", lambda mask: pytest.fail("the umask is that of all threads"))
    writing = threading.Thread(target=program.execute_to_file, args=(["run"], LINE, tmp_path / "report"))
    writing.start()
    writing.join()
    assert (tmp_path / "report").read_bytes() == program.execute(["run"], LINE)


def test_links_devices_and_folders(tmp_path: Path) -> None:
    (tmp_path / "real").write_bytes(b"1")
    (tmp_path / "link").symlink_to("real")
    files.write(tmp_path / "link", b"2")
    assert (tmp_path / "link").is_symlink() and (tmp_path / "real").read_bytes() == b"2"
    files.write("/dev/null", b"3")
    assert Path("/dev/null").is_char_device()
    os.mkfifo(tmp_path / "pipe")
    reading = os.open(tmp_path / "pipe", os.O_RDONLY | os.O_NONBLOCK)
    files.write(tmp_path / "pipe", b"4")
    assert os.read(reading, 9) == b"4"
    os.close(reading)
    for path, code in ((tmp_path, errno.EISDIR), (tmp_path / "none" / "x", errno.ENOENT)):
        with pytest.raises(OSError) as raised:
            files.write(path, b"5")
        assert (raised.value.errno, raised.value.filename) == (code, str(path))


def test_what_stops_in_the_middle_leaves_nothing(tmp_path: Path) -> None:
    with pytest.raises(KeyboardInterrupt), files.replacing(tmp_path / "x") as sink:
        sink.write(b"half")
        raise KeyboardInterrupt
    assert list(tmp_path.iterdir()) == []
