"""The size of the canonical cover of a rectangle of the grid: how few cells are just its whole squares."""
from __future__ import annotations

from typing import Tuple

Span = Tuple[int, int]
"""The least and the greatest coordinate."""

LEAF_LEVEL = 30


def cover_size(i: Span, j: Span, level: int, enough: int) -> int:
    """How many cells the canonical cover of a rectangle has: the fewest cells that are just the squares of its level
    which it touches. More than `enough` are counted no further."""
    shift = LEAF_LEVEL - level
    wide, high = (i[0] >> shift, i[1] >> shift), (j[0] >> shift, j[1] >> shift)
    return count_in(wide, high, (0, 0), level, enough)


def count_in(wide: Span, high: Span, corner: Tuple[int, int], depth: int, enough: int) -> int:
    """The cells of the cover within the cell at a corner, whose side has 2^depth squares."""
    side = 1 << depth
    left, low = corner
    if wide[1] < left or left + side <= wide[0] or high[1] < low or low + side <= high[0]:
        return 0
    if wide[0] <= left and left + side - 1 <= wide[1] and high[0] <= low and low + side - 1 <= high[1]:
        return 1
    count, half = 0, side // 2
    for across in (left, left + half):
        for up in (low, low + half):
            count += count_in(wide, high, (across, up), depth - 1, enough - count)
            if count > enough:
                return count
    return count
