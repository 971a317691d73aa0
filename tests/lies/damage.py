"""Kinds of damage: each takes the bytes of a file, those of an older state of it and a source of chance, and gives the
bytes that a disk may show in their place. They differ."""

import random
from collections.abc import Callable

Kind = Callable[[bytearray, bytes, random.Random], None]
PAGE = 4096
SECTOR = 512
BURST = 64
# a log has a head, and frames of a head and a page each
FRAME = 24 + PAGE
HEAD = 32


def flip(data: bytearray, chance: random.Random, lowest: int = 0, end: int | None = None) -> None:
    """One bit flipped, somewhere from the lowest byte up to the end."""
    at = chance.randrange(lowest, len(data) if end is None else end)
    data[at] ^= 1 << chance.randrange(8)


def bit(data: bytearray, _: bytes, chance: random.Random) -> None:
    """A bit flipped."""
    flip(data, chance)


def pair_of_bits(data: bytearray, _: bytes, chance: random.Random) -> None:
    """Two bits flipped in one page."""
    page = chance.randrange(len(data) // PAGE) * PAGE
    for at in chance.sample(range(page, page + PAGE), 2):
        flip(data, chance, at, at + 1)


def burst(data: bytearray, _: bytes, chance: random.Random) -> None:
    """Random bytes in the place of 64."""
    at = chance.randrange(len(data) - BURST)
    data[at : at + BURST] = bytes(chance.randrange(256) for _ in range(BURST))


def zeroed(size: int) -> Kind:
    """Zeros in the place of one block of a size."""

    def kind(data: bytearray, _: bytes, chance: random.Random) -> None:
        at = chance.choice([at for at in range(0, len(data), size) if any(data[at : at + size])])
        data[at : at + size] = bytes(len(data[at : at + size]))

    return kind


def swapped(data: bytearray, _: bytes, chance: random.Random) -> None:
    """Two pages at each other's place."""
    one, other = (number * PAGE for number in chance.sample(range(len(data) // PAGE), 2))
    data[one : one + PAGE], data[other : other + PAGE] = data[other : other + PAGE], data[one : one + PAGE]


def frames_of(log: bytes) -> int:
    """How many frames of a log have the salts of its head."""
    count = 0
    while len(log) > HEAD and log[HEAD + count * FRAME + 8 : HEAD + count * FRAME + 16] == log[16:24]:
        count += 1
    return count


def live_part(log: bytes) -> bytes:
    """The head of a log and these frames."""
    return log[: HEAD + frames_of(log) * FRAME]


def changed_pages(data: bytes, older: bytes) -> list[int]:
    """Where pages begin that an older state has otherwise."""
    shared = range(0, min(len(data), len(older)), PAGE)
    return [at for at in shared if data[at : at + PAGE] != older[at : at + PAGE]]


def older_page(data: bytearray, older: bytes, chance: random.Random) -> None:
    """One page as it was in an older state."""
    at = chance.choice(changed_pages(data, older))
    data[at : at + PAGE] = older[at : at + PAGE]


def older_pages(data: bytearray, older: bytes, chance: random.Random) -> None:
    """Some of the pages as they were in an older state."""
    pages = changed_pages(data, older)
    for at in chance.sample(pages, chance.randrange(1, len(pages))):
        data[at : at + PAGE] = older[at : at + PAGE]


def cut(data: bytearray, _: bytes, chance: random.Random) -> None:
    """The end is missing."""
    del data[chance.randrange(len(data)) :]


def damaged(data: bytes, older: bytes, kind: Kind, chance: random.Random) -> bytes:
    """Other bytes than those given, by a kind of damage."""
    for _ in range(100):
        changed = bytearray(data)
        kind(changed, older, chance)
        if changed != data:
            return bytes(changed)
    raise ValueError(f"{kind} changes nothing")
