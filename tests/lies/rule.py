"""Which logs are damaged, and what is lost: the definition of crates/db_file/specs/Wal.antt, by another hand."""

from __future__ import annotations

import struct
from collections.abc import Iterator
from typing import NamedTuple

HEAD, FRAME_HEAD = 32, 24
MAGIC, VERSION = 0x377F0682, 3007000
Sum = tuple[int, int]


class Damage(NamedTuple):
    """The frame at which recovery stops, counted from 0, and how many commits end there and behind it."""

    frame: int
    commits: int


class Header(NamedTuple):
    """What a log's header says."""

    order: str
    page: int
    salts: bytes
    total: Sum


def summed(order: str, data: bytes, state: Sum) -> Sum:
    """SQLite's checksum of some bytes, going on from a state."""
    first, second = state
    words = iter(struct.unpack(f"{order}{len(data) // 4}I", data))
    for one, other in zip(words, words):
        first = (first + one + second) & 0xFFFFFFFF
        second = (second + other + first) & 0xFFFFFFFF
    return first, second


def header_of(log: bytes) -> Header | None:
    """The header of a log, if it has one."""
    if len(log) < HEAD:
        return None
    magic, version, page = struct.unpack(">III", log[:12])
    first, second = struct.unpack(">II", log[24:32])
    order, total = "><"[magic % 2 == 0], (first, second)
    if magic // 2 != MAGIC // 2 or version != VERSION or page not in {2**power for power in range(9, 17)}:
        return None
    return Header(order, page, log[16:24], total) if summed(order, log[:24], (0, 0)) == total else None


def frames_of(log: bytes, page: int) -> Iterator[tuple[bytes, bytes]]:
    """The heads and the pages of the whole frames."""
    size = FRAME_HEAD + page
    for at in range(HEAD, len(log) - size + 1, size):
        yield log[at : at + FRAME_HEAD], log[at + FRAME_HEAD : at + size]


def damage_of(log: bytes) -> Damage | None:
    """The damage of a log, if it is damaged."""
    header = header_of(log)
    if header is None:
        return None
    stop: int | None = None
    ends, state = 0, header.total
    for number, (head, page) in enumerate(frames_of(log, header.page)):
        is_salted = head[8:16] == header.salts
        if stop is None:
            state = summed(header.order, page, summed(header.order, head[:8], state))
            if is_salted and head[:4] != bytes(4) and state == struct.unpack(">II", head[16:24]):
                continue
            stop = number
        if not is_salted:
            break
        ends += head[4:8] != bytes(4)
    return Damage(stop, ends) if stop is not None and ends >= 2 else None
