"""S2 cells by hand: tokens, the Hilbert curve, and the leaves that cells and rectangles take.

Leaves are told by their ids. Ranges are a list of pairs (first leaf id, last leaf id), ascending, none touching the
next; between the two ends of a range every odd number is the id of a leaf.
"""
from __future__ import annotations

import re
from typing import Iterator, List, NamedTuple, Optional, Tuple

Ranges = List[Tuple[int, int]]

LEAF_LEVEL = 30
FACES = 6
COVER_MOST = 1024
LEVELS = range(8, 25)
# The quarter (i, j) at each place of the curve, and how the orientation turns there: bit 0 swaps axes, bit 1 inverts.
PLACES = (
    ((0, 0), (0, 1), (1, 1), (1, 0)),
    ((0, 0), (1, 0), (1, 1), (0, 1)),
    ((1, 1), (1, 0), (0, 0), (0, 1)),
    ((1, 1), (0, 1), (0, 0), (1, 0)),
)
TURNS = (1, 0, 0, 3)


class Rectangle(NamedTuple):
    """The squares of a level that have a leaf with i and j in these ranges, both ends included."""

    face: int
    i_min: int
    i_max: int
    j_min: int
    j_max: int
    level: int

    def is_valid(self) -> bool:
        """Whether the numbers are within the limits of a rectangle."""
        coordinates = self.i_min, self.i_max, self.j_min, self.j_max
        return (
            0 <= self.face < FACES
            and all(0 <= it < 1 << LEAF_LEVEL for it in coordinates)
            and self.i_min <= self.i_max
            and self.j_min <= self.j_max
            and self.level in LEVELS
        )


class Square(NamedTuple):
    """A cell: its corner and its side in leaves, its number among those of its level on its face."""

    i: int
    j: int
    side: int
    place: int
    orientation: int

    def quarters(self) -> Iterator[Square]:
        """The four children in the order of the curve."""
        half = self.side // 2
        for number, (i, j) in enumerate(PLACES[self.orientation]):
            turned = self.orientation ^ TURNS[number]
            yield Square(self.i + i * half, self.j + j * half, half, 4 * self.place + number, turned)

    def leaves(self, face: int) -> Tuple[int, int]:
        """The ids of the first and the last leaf."""
        count = self.side * self.side
        first = (face << 60) + self.place * count
        return 2 * first + 1, 2 * (first + count - 1) + 1


def cell_of(token: str) -> Optional[int]:
    """The id of the cell that a token names; None if it names none."""
    if not re.fullmatch("[0-9a-fA-F]{1,16}", token):
        return None
    cell = int(token.ljust(16, "0"), 16)
    lowest = cell & -cell
    valid = cell >> 61 < FACES and lowest & 0x1555555555555555
    return cell if valid else None


def token_of(cell: int) -> str:
    """The printed text of a cell id."""
    return f"{cell:016x}".rstrip("0")


def merged(ranges: Ranges) -> Ranges:
    """The same leaves in ranges that don't touch, ascending."""
    found: Ranges = []
    for first, last in sorted(ranges):
        if found and first <= found[-1][1] + 2:
            found[-1] = found[-1][0], max(last, found[-1][1])
        else:
            found.append((first, last))
    return found


def ranges_of_cells(cells: List[int]) -> Ranges:
    """The leaves of cells, in whatever way they are cut."""
    spans = []
    for cell in cells:
        lowest = cell & -cell
        spans.append((cell - lowest + 1, cell + lowest - 1))
    return merged(spans)


def bounds(rectangle: Rectangle) -> Tuple[int, int, int, int]:
    """The leaves that a rectangle takes once it is widened: i from and up to, not at, j likewise."""
    shift = LEAF_LEVEL - rectangle.level
    low_i, high_i, low_j, high_j = (it >> shift for it in rectangle[1:5])
    return low_i << shift, high_i + 1 << shift, low_j << shift, high_j + 1 << shift


def whole_squares(low: int, high: int, side: int) -> int:
    """How many steps of a grid of this side lie whole within low and high."""
    return max(0, high // side - -(-low // side))


def cover_size(rectangle: Rectangle) -> int:
    """How many cells the canonical cover has: those that lie within the rectangle, and whose parents don't."""
    low_i, high_i, low_j, high_j = bounds(rectangle)
    size = parents = 0
    for level in range(rectangle.level + 1):
        side = 1 << LEAF_LEVEL - level
        within = whole_squares(low_i, high_i, side) * whole_squares(low_j, high_j, side)
        size += within - 4 * parents
        parents = within
    return size


def ranges_of_rectangle(rectangle: Rectangle) -> Ranges:
    """The leaves of a rectangle, found by quartering its face."""
    low_i, high_i, low_j, high_j = bounds(rectangle)
    found: Ranges = []

    def walk(square: Square) -> None:
        """Adds what the rectangle takes of a square."""
        end_i, end_j = square.i + square.side, square.j + square.side
        if end_i <= low_i or high_i <= square.i or end_j <= low_j or high_j <= square.j:
            return
        if low_i <= square.i and end_i <= high_i and low_j <= square.j and end_j <= high_j:
            found.append(square.leaves(rectangle.face))
            return
        for quarter in square.quarters():
            walk(quarter)

    walk(Square(0, 0, 1 << LEAF_LEVEL, 0, rectangle.face & 1))
    return merged(found)


def first_common(one: Ranges, other: Ranges) -> Optional[int]:
    """The least leaf id that both have; None if they share no leaf."""
    at_one = at_other = 0
    while at_one < len(one) and at_other < len(other):
        first = max(one[at_one][0], other[at_other][0])
        if first <= min(one[at_one][1], other[at_other][1]):
            return first
        if one[at_one][1] < other[at_other][1]:
            at_one += 1
        else:
            at_other += 1
    return None


def has_leaf(ranges: Ranges, leaf: int) -> bool:
    """Whether a leaf is in one of the ranges."""
    return any(first <= leaf <= last for first, last in ranges)
