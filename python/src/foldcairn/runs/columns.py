"""Reads the lines that the program writes into columns, at tens of megabytes a second and in bounded memory.

The bytes are read in blocks of whole lines. A block is parted by the first words of its lines, with numpy, and the lines of
one word are read by pandas, or word by word where they are few. Tested, not proved.
"""

from __future__ import annotations

from collections.abc import Collection, Mapping, Sequence
from io import BytesIO
from typing import BinaryIO

import numpy as np
import pandas as pd
from numpy.typing import NDArray

from .program import CutOutput

# The columns of a line after its first word, with their types; "category" is for text.
Columns = Mapping[str, str]

_BLOCK_BYTES = 1 << 24
_LINE_FEED, _SPACE = 10, 32
# Up to so many bytes it takes pandas longer to begin than to read them word by word.
_FEW_BYTES = 1 << 13
# So many bytes of a line tell which word it begins with, where no two words have the same ones.
_HEAD_BYTES = 3
# The place of a word that is none of a table's.
_OTHER = 255


class UnknownLine(ValueError):
    """The program wrote a line that this package does not know: it is of another version."""


def read(source: BinaryIO, lines: Mapping[str, Columns], skipped: Collection[str] = ()) -> dict[str, pd.DataFrame]:
    """A table for each first word in `lines`, with the columns named there, its rows in the order of the lines.

    Lines whose first word is in `skipped` are passed over.

    Raises `UnknownLine` for a line with another first word, too few or
    other words, and `CutOutput` where the last line has no line feed.
    """
    parts: dict[str, list[pd.DataFrame]] = {word: [] for word in lines}
    rest = b""
    while block := source.read(_BLOCK_BYTES):
        block = rest + block
        end = block.rfind(b"\n") + 1
        rest = block[end:]
        if end:
            _read_block(np.frombuffer(block, np.uint8, end), lines, skipped, parts)
    if rest:
        raise CutOutput(f"the output is cut: its last line, {rest[:80].decode('utf-8', 'replace')!r}, has no end")
    return {word: _joined(parts.pop(word), columns) for word, columns in lines.items()}


def _read_block(
    block: NDArray[np.uint8], lines: Mapping[str, Columns], skipped: Collection[str], parts: dict[str, list[pd.DataFrame]]
) -> None:
    ends = np.flatnonzero(block == _LINE_FEED) + 1
    starts = np.insert(ends[:-1], 0, 0)
    size = _head_bytes((*lines, *skipped))
    heads = np.zeros(len(starts), np.uint32 if size <= 4 else np.uint64)
    for place in range(size):
        heads = heads << heads.dtype.type(8) | block[np.minimum(starts + place, len(block) - 1)]
    # The place of each line's first word among `lines`, from 1 on; 0 where it is in `skipped`.
    words = np.full(len(starts), _OTHER, np.uint8)
    words[np.isin(heads, [_head(word, size) for word in skipped])] = 0
    for place, word in enumerate(lines, 1):
        words[heads == _head(word, size)] = place
    if (words == _OTHER).any():
        line = int(np.argmax(words == _OTHER))
        raise UnknownLine(f"unknown line {block[starts[line] : ends[line] - 1].tobytes()!r}")
    of_bytes = _of_bytes(words, starts, len(block))
    for place, (word, columns) in enumerate(lines.items(), 1):
        if count := np.count_nonzero(words == place):
            text = block[of_bytes == place]
            # pandas takes further words for an index, and says nothing.
            if np.count_nonzero(text == _SPACE) != len(columns) * count:
                raise UnknownLine(f"a `{word}` line has other words than {', '.join(columns)}")
            parts[word].append(_read_lines(text.tobytes(), word, columns))


def _of_bytes(words: NDArray[np.uint8], starts: NDArray[np.int64], size: int) -> NDArray[np.uint8]:
    """What `words` has of a line, for each of its bytes: the sums of the differences from line to line, which wrap around. To
    repeat each by the length of its line takes six times as long."""
    each = np.zeros(size, np.uint8)
    each[starts] = np.diff(words, prepend=np.uint8(0))
    return np.cumsum(each, dtype=np.uint8, out=each)


def _head_bytes(words: Sequence[str]) -> int:
    """How many of the first bytes of a line tell these words apart, each with the space after it."""
    size = _HEAD_BYTES
    while len({f"{word} "[:size] for word in words}) < len(set(words)):
        size += 1
    return size


def _head(word: str, size: int) -> int:
    """The first bytes of a line of this word. The words of one kind of output are long enough to have them, with the space."""
    return int.from_bytes(f"{word} ".encode()[:size], "big")


def _read_lines(text: bytes, word: str, columns: Columns) -> pd.DataFrame:
    try:
        return _few_lines(text, word, columns) if len(text) <= _FEW_BYTES else _many_lines(text, word, columns)
    except (ValueError, OverflowError, pd.errors.ParserError) as error:
        raise UnknownLine(f"a `{word}` line has other words than {', '.join(columns)}: {error}") from error


def _many_lines(text: bytes, word: str, columns: Columns) -> pd.DataFrame:
    types = {"word": "category", **columns}
    table = pd.read_csv(BytesIO(text), sep=" ", header=None, names=list(types), dtype=types, na_filter=False, index_col=False)
    if other := set(table.pop("word").cat.categories) - {word}:
        raise ValueError(f"it begins with {min(other)!r}")
    return table


def _few_lines(text: bytes, word: str, columns: Columns) -> pd.DataFrame:
    first, *parts = _by_column(text.decode(), len(columns) + 1)
    if other := set(first) - {word}:
        raise ValueError(f"it begins with {min(other)!r}")
    return pd.DataFrame(
        {
            name: pd.Categorical(part) if dtype == "category" else np.array(list(map(int, part)), dtype)
            for (name, dtype), part in zip(columns.items(), parts)
        }
    )


def _by_column(text: str, count: int) -> list[list[str]]:
    """The words of lines that have so many words each, by their place in a line."""
    words = text.split()
    if len(words) != count * text.count("\n"):
        raise ValueError("there are too few words")
    return [words[place::count] for place in range(count)]


def _joined(parts: list[pd.DataFrame], columns: Columns) -> pd.DataFrame:
    """The parts one below the other, column by column, so that no more than one column is there twice."""
    if len(parts) == 1:
        return parts[0]
    whole = {}
    for name, dtype in columns.items():
        pieces = [part.pop(name) for part in parts]
        if not pieces:
            whole[name] = pd.Series([], dtype=dtype)
        elif dtype == "category":
            whole[name] = pd.api.types.union_categoricals(pieces)
        else:
            whole[name] = np.concatenate([piece.to_numpy() for piece in pieces])
    return pd.DataFrame(whole, copy=False)
