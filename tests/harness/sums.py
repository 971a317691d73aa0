"""The sums on the pages of a desk's file, as SQLite's cksumvfs has them (ext/misc/cksumvfs.c): the last eight bytes of
each page."""

from __future__ import annotations

import pathlib
import struct
from collections.abc import Iterator

SUM = 8
# where the header says how large a page is, and how many bytes of it are kept for a sum
SIZE_AT, RESERVED_AT = 16, 20


def sum_of(page: bytes) -> bytes:
    """Two running sums of 32 bits over the words of a page before its sum, the lowest byte of a word first."""
    words = struct.unpack(f"<{(len(page) - SUM) // 4}I", page[:-SUM])
    first = second = 0
    for one, other in zip(words[::2], words[1::2]):
        first = (first + one + second) & 0xFFFFFFFF
        second = (second + other + first) & 0xFFFFFFFF
    return struct.pack("<II", first, second)


def pages_of(data: bytes) -> Iterator[bytes]:
    """The pages of a file with sums, by their size in its header, in which 1 stands for 65,536."""
    assert data[RESERVED_AT] == SUM, "a file without sums"
    size = int.from_bytes(data[SIZE_AT : SIZE_AT + 2], "big")
    size = 65_536 if size == 1 else size
    return (data[start : start + size] for start in range(0, len(data), size))


def count_bad_pages(path: pathlib.Path) -> int:
    """How many pages of a file end with another sum than theirs."""
    return sum(page[-SUM:] != sum_of(page) for page in pages_of(path.read_bytes()))


def sum_anew(path: pathlib.Path) -> None:
    """Gives each page of a file its sum."""
    path.write_bytes(b"".join(page[:-SUM] + sum_of(page) for page in pages_of(path.read_bytes())))
