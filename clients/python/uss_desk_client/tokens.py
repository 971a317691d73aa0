"""Tokens of S2 cells and the ids that they write, as whole numbers: no library is needed for these."""
from __future__ import annotations

import re
from typing import Iterable, List, Optional, Tuple

TOKEN = re.compile(r"[0-9A-Fa-f]{1,16}")
FACES = 6
LEAF_BITS = 61
"""Bits of an id below its face's three: two for each of 30 levels, and the one that ends them."""


def id_of(token: str) -> Optional[int]:
    """The id of the cell that a token names, an unsigned number of 64 bits, or None if it names no cell."""
    if not TOKEN.fullmatch(token):
        return None
    number = int(token.ljust(16, "0"), 16)
    is_cell = number >> LEAF_BITS < FACES and lowest_bit(number).bit_length() % 2 == 1
    return number if is_cell and lowest_bit(number) < 1 << LEAF_BITS else None


def token_of(number: int) -> str:
    """The printed form of an id's token: 16 small hex digits without the zeros at the end."""
    return f"{number:016x}".rstrip("0")


def lowest_bit(number: int) -> int:
    """The bit that ends an id; 0 if there is none."""
    return number & -number


def level_of(number: int) -> int:
    """The level of the cell with this id: 0 for a face, 30 for a leaf."""
    return (LEAF_BITS - lowest_bit(number).bit_length()) // 2


def leaves_of(number: int) -> Tuple[int, int]:
    """The least and the greatest id of the leaves of the cell with this id."""
    half = lowest_bit(number) - 1
    return number - half, number + half


def children_of(number: int) -> List[int]:
    """The ids of the four cells that the cell with this id is made of, ascending; it is no leaf."""
    bit = lowest_bit(number)
    return [number - bit + (2 * child + 1) * (bit >> 2) for child in range(4)]


def parent_of(number: int) -> Optional[int]:
    """The id of the cell of the level above that the cell with this id lies in; None of a face."""
    bit = lowest_bit(number) << 2
    return number & -bit | bit if bit < 1 << LEAF_BITS else None


def normalized(numbers: Iterable[int]) -> List[int]:
    """The same leaves in as few cells as can be, none within another, ascending by id."""
    kept: List[int] = []
    for number in sorted(set(numbers), key=lambda one: (leaves_of(one)[0], -lowest_bit(one))):
        if kept and leaves_of(kept[-1])[1] >= leaves_of(number)[1]:
            continue
        kept.append(number)
        while (
            len(kept) >= 4
            and parent_of(number) is not None
            and all(parent_of(one) == parent_of(number) for one in kept[-4:])
        ):
            number = parent_of(number) or number
            kept[-4:] = [number]
    return kept


def evenly(tokens: Iterable[str], at_most: int) -> List[str]:
    """The same leaves in at most so many cells, if they are fewer now, ascending by id: the largest cells are cut
    into their four children first. Tokens that name no cell are left out."""
    levels: List[List[int]] = [[] for _ in range(31)]
    for number in (id_of(token) for token in tokens):
        if number is not None:
            levels[level_of(number)].append(number)
    count = sum(map(len, levels))
    for level in range(30):
        cut = min(len(levels[level]), max(0, at_most - count) // 3)
        for number in sorted(levels[level])[:cut]:
            levels[level].remove(number)
            levels[level + 1] += children_of(number)
        count += 3 * cut
        if levels[level]:
            break
    return [token_of(number) for number in sorted(number for cells in levels for number in cells)]
