"""A CSV file as a DataFrame of texts, so that each cell stays as it was written: `007` is no 7, and `n/a` no gap.

Commas, semicolons or tabs may be between the cells, as the first line has them. Nothing is fetched, unpacked or guessed: what is no
such file is told by its name and what to do. Tested, not proved.
"""

from __future__ import annotations

import csv
import io
import os
from pathlib import Path
from typing import Any

import pandas

from ..common.arguments import ArgumentError

# How large a table may be: some millions of rows, where a network has at most 100,000 ratios.
BYTES_MOST = 64 * 1024 * 1024
# How the files begin that compress others.
_COMPRESSED = {b"\x1f\x8b": "gzip", b"PK\x03\x04": "zip, as the files of Excel are", b"BZh": "bzip2", b"\xfd7zXZ": "xz", b"\x28\xb5\x2f\xfd": "zstd"}
_BETWEEN = (",", ";", "\t")


def read(source: Any, called: str) -> pandas.DataFrame:
    """The table of a path or of an open file, a column of texts for each name of its first line; a blank cell is None.

    Raises `ArgumentError`, which begins with what it is `called`, where it is no CSV file in UTF-8, and `OSError` where it can't be read.
    """
    if not hasattr(source, "read"):
        called = f"{called}, {os.fspath(source)}"
    try:
        text = _text(_bytes(source))
        rows = _rows(text)
        head = [name.strip() for name in next(rows, (0, []))[1]]
        if not any(head):
            raise ArgumentError("it is empty; its first line has the names of the columns, with commas between them")
        if twice := next((name for place, name in enumerate(head) if name and name in head[:place]), None):
            raise ArgumentError(f"it has the column {twice!r} twice")
        cells = [_cells(head, number, row) for number, row in rows]
    except (ArgumentError, csv.Error) as error:
        raise ArgumentError(f"{called}: {error}") from error
    return pandas.DataFrame(cells, columns=head, dtype=object)


def _bytes(source: Any) -> bytes:
    """The content of a file. One that is large is not read to its end."""
    if hasattr(source, "read"):
        data = source.read(BYTES_MOST + 1)
        data = data.encode() if isinstance(data, str) else data
    else:
        data = _of_path(os.fspath(source))
    if kind := next((kind for head, kind in _COMPRESSED.items() if data.startswith(head)), None):
        raise ArgumentError(f"it is compressed, by {kind}; unpack it first")
    if len(data) > BYTES_MOST:
        raise ArgumentError(f"it has more than {BYTES_MOST // 2**20} MiB, which are the most that are read")
    return bytes(data)


def _of_path(path: str | bytes) -> bytes:
    name = os.fsdecode(path)
    if "://" in name:
        raise ArgumentError("it is an address, and nothing is fetched; save it as a file")
    if Path(name).is_dir():
        raise ArgumentError("it is a folder, and no CSV file")
    with open(name, "rb") as file:
        return file.read(BYTES_MOST + 1)


def _text(data: bytes) -> str:
    try:
        return data.decode("utf-8-sig")
    except UnicodeDecodeError as error:
        line, column = data.count(b"\n", 0, error.start) + 1, error.start - data.rfind(b"\n", 0, error.start)
        if data.startswith((b"\xff\xfe", b"\xfe\xff")):
            raise ArgumentError("it is in UTF-16; save it as UTF-8") from error
        raise ArgumentError(
            f"byte {column} of line {line}, {data[error.start]:02x}, is not UTF-8; save it as UTF-8 (in Latin-1 it is "
            f"{bytes([data[error.start]]).decode('latin-1')!r})"
        ) from error


def _rows(text: str) -> Any:
    """The lines with cells, each with its number."""
    first = next((line for line in text.splitlines() if line.strip()), "")
    reader = csv.reader(io.StringIO(text, newline=""), delimiter=max(_BETWEEN, key=first.count))
    for row in reader:
        if row:
            yield reader.line_num, row


def _cells(head: list[str], number: int, row: list[str]) -> list[str | None]:
    """The cells of a line, a text or None for each column."""
    cells = [cell.strip() for cell in row]
    if any(cells[len(head) :]):
        raise ArgumentError(
            f"line {number} has {len(cells)} cells, and the first line names {len(head)} columns; numbers have a point and no comma, and a "
            "text with a comma is in quotes"
        )
    return [cell or None for cell in (cells + [""] * len(head))[: len(head)]]
