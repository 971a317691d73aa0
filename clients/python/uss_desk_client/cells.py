"""S2 cells by arithmetic alone: where a cell lies on its face, its children, its corners and its centre."""
from __future__ import annotations

import functools
from typing import List, NamedTuple, Tuple

from uss_desk_client.sphere import Vector
from uss_desk_client.tokens import FACES, LEAF_BITS, children_of, level_of

LEAF_LEVEL = 30
LEAVES = 1 << LEAF_LEVEL
"""Leaves along a side of a face."""
QUARTERS = (
    ((0, 0), (0, 1), (1, 1), (1, 0)),
    ((0, 0), (1, 0), (1, 1), (0, 1)),
    ((1, 1), (1, 0), (0, 0), (0, 1)),
    ((1, 1), (0, 1), (0, 0), (1, 0)),
)
"""The quarter (i, j) at each place of the Hilbert curve, for each of its orientations."""
TURNS = (1, 0, 0, 3)
"""How the orientation changes in each quarter: bit 0 swaps the axes, bit 1 inverts them."""


class Cell(NamedTuple):
    """A cell: its id, its face, the least coordinates of its leaves, its side in leaves, the curve's orientation."""

    number: int
    face: int
    i: int
    j: int
    side: int
    orientation: int

    def children(self) -> List[Cell]:
        """The four cells that it is made of, ascending by id; it is no leaf."""
        half = self.side // 2
        return [
            Cell(number, self.face, self.i + i * half, self.j + j * half, half, self.orientation ^ TURNS[at])
            for at, (number, (i, j)) in enumerate(zip(children_of(self.number), QUARTERS[self.orientation]))
        ]

    def bounds(self) -> Tuple[float, float, float, float]:
        """The least and the greatest u, the least and the greatest v."""
        return (
            projected(self.i / LEAVES),
            projected((self.i + self.side) / LEAVES),
            projected(self.j / LEAVES),
            projected((self.j + self.side) / LEAVES),
        )

    def at(self, across: float, up: float) -> Vector:
        """The point at these shares of the sides, in the direction of a vector that hasn't the length 1."""
        i, j = self.i + across * self.side, self.j + up * self.side
        return point_on(self.face, projected(i / LEAVES), projected(j / LEAVES))

    def corners(self) -> List[Vector]:
        """The four corners counterclockwise, as directions."""
        return [self.at(0, 0), self.at(1, 0), self.at(1, 1), self.at(0, 1)]


def faces() -> List[Cell]:
    """The six cells that all others lie in."""
    return [Cell(face << LEAF_BITS | 1 << LEAF_BITS - 1, face, 0, 0, LEAVES, face & 1) for face in range(FACES)]


@functools.lru_cache(maxsize=10_000)
def cell_of(number: int) -> Cell:
    """The cell with this id."""
    face, level = number >> LEAF_BITS, level_of(number)
    i = j = 0
    orientation = face & 1
    for depth in range(1, level + 1):
        quarter = number >> (LEAF_BITS - 2 * depth) & 3
        across, up = QUARTERS[orientation][quarter]
        i, j, orientation = 2 * i + across, 2 * j + up, orientation ^ TURNS[quarter]
    shift = LEAF_LEVEL - level
    return Cell(number, face, i << shift, j << shift, 1 << shift, orientation)


def projected(share: float) -> float:
    """S2's quadratic projection, from a share of a face's side to -1 up to 1."""
    return (4 * share * share - 1) / 3 if share >= 0.5 else (1 - 4 * (1 - share) * (1 - share)) / 3


def point_on(face: int, u: float, v: float) -> Vector:
    """The direction of the point (u, v) of a face."""
    return ((1.0, u, v), (-u, 1.0, v), (-u, -v, 1.0), (-1.0, -v, -u), (v, -1.0, -u), (v, u, -1.0))[face]


def on_face(face: int, vector: Vector) -> Vector:
    """The coordinates of a vector along u, along v and along the axis of a face, as multiples of one another."""
    x, y, z = vector
    return ((y, z, x), (-x, z, y), (-x, -y, z), (-z, -y, -x), (-z, x, -y), (y, x, -z))[face]
