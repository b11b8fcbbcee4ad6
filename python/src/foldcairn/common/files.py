"""Files that appear whole or not at all: written beside their place, and moved there at the end. Tested, not proved."""

from __future__ import annotations

import contextlib
import errno
import os
import secrets
import stat
from collections.abc import Iterator, Mapping
from pathlib import Path
from typing import BinaryIO


@contextlib.contextmanager
def replacing(path: str | os.PathLike[str]) -> Iterator[BinaryIO]:
    """A file to write and read, which takes the place of `path` at the end of the block; where the block raises, what was at
    `path` is kept and nothing of the new file is left. A device or a pipe is written directly.

    The file has the rights of the one that it replaces, or those that the umask leaves. Raises `OSError` with the name of the
    file where it can't be written, also where the disk is full.
    """
    target = Path(path)
    try:
        rights = _rights(target)
        if rights is None:
            with target.open("wb") as sink:
                yield sink
            return
        # A link stays, and the file that it leads to is replaced.
        target = target.resolve()
        with _moved(target, rights) as sink:
            yield sink
    except OSError as error:
        if error.filename is None or Path(error.filename).name.startswith(f".{target.name}."):
            raise OSError(error.errno, error.strerror, str(path)) from error
        raise


@contextlib.contextmanager
def _moved(target: Path, rights: int) -> Iterator[BinaryIO]:
    partial = target.with_name(f".{target.name}.{secrets.token_hex(4)}")
    # The umask takes its part of the rights of a new file, and is not asked for: it is that of the whole process.
    descriptor = os.open(partial, os.O_RDWR | os.O_CREAT | os.O_EXCL | os.O_CLOEXEC, rights)
    try:
        with os.fdopen(descriptor, "w+b") as sink:
            yield sink
        if target.exists():
            partial.chmod(rights)
        os.replace(partial, target)
    except BaseException:
        partial.unlink(missing_ok=True)
        raise


def _rights(target: Path) -> int | None:
    """The rights for a file at this place; None where there is a device, a pipe or another thing that can't be replaced."""
    try:
        mode = target.stat().st_mode
    except FileNotFoundError:
        return 0o666
    if stat.S_ISDIR(mode):
        raise IsADirectoryError(errno.EISDIR, os.strerror(errno.EISDIR), str(target))
    return stat.S_IMODE(mode) if stat.S_ISREG(mode) else None


def write(path: str | os.PathLike[str], data: bytes) -> Path:
    """Writes a whole file, as `replacing` does, and gives its path."""
    with replacing(path) as sink:
        sink.write(data)
    return Path(path)


def write_all(contents: Mapping[Path, bytes]) -> None:
    """Writes whole files, as `replacing` does, all of them or none: where one can't be written, what was at each path is kept. One that has its
    content already is left alone, and folders that are missing are made."""
    with contextlib.ExitStack() as stack:
        for path, data in contents.items():
            if path.is_file() and path.read_bytes() == data:
                continue
            path.parent.mkdir(parents=True, exist_ok=True)
            sink = stack.enter_context(replacing(path))
            sink.write(data)
            sink.flush()
