"""The grid of leaves on each face: squares of cells and of rectangles, their outlines, areas that share a point."""
from __future__ import annotations

from typing import Iterable, List, NamedTuple, Sequence, Tuple

from uss_desk_client.areas import Rectangle, Volume
from uss_desk_client.cells import LEAF_LEVEL, LEAVES, Cell, cell_of, faces, point_on, projected
from uss_desk_client.sphere import Box, Place, place_at
from uss_desk_client.tokens import id_of, token_of


class Block(NamedTuple):
    """Leaves of a face: `i` from a least one up to one that isn't there any more, `j` likewise."""

    face: int
    i_from: int
    i_to: int
    j_from: int
    j_to: int

    def meets(self, other: Block) -> bool:
        return (
            self.face == other.face
            and self.i_from < other.i_to
            and other.i_from < self.i_to
            and self.j_from < other.j_to
            and other.j_from < self.j_to
        )


def block_of_cell(token: str) -> Block:
    """The leaves of a cell; a ValueError if the token names none."""
    number = id_of(token)
    if number is None:
        raise ValueError(f"{token!r} is the token of no cell")
    cell = cell_of(number)
    return Block(cell.face, cell.i, cell.i + cell.side, cell.j, cell.j + cell.side)


def block_of_rectangle(rectangle: Rectangle) -> Block:
    """The leaves of a rectangle, widened to whole squares of its level."""
    shift = LEAF_LEVEL - rectangle.level
    return Block(
        rectangle.face,
        rectangle.i_min >> shift << shift,
        (rectangle.i_max >> shift) + 1 << shift,
        rectangle.j_min >> shift << shift,
        (rectangle.j_max >> shift) + 1 << shift,
    )


def blocks_of(volume: Volume) -> List[Block]:
    """The leaves that a volume takes."""
    if volume.rectangle:
        return [block_of_rectangle(volume.rectangle)]
    return [block_of_cell(token) for token in volume.cells]


def share_a_point(one: Iterable[Volume], other: Iterable[Volume]) -> bool:
    """Whether two areas have a leaf, an altitude and a second in common (docs/api.md, "What blocks a flight")."""
    others = list(other)
    return any(have_a_point(volume, beside) for volume in one for beside in others)


def have_a_point(one: Volume, other: Volume) -> bool:
    if not (one.lower < other.upper and other.lower < one.upper and one.start < other.end and other.start < one.end):
        return False
    beside = blocks_of(other)
    return any(block.meets(another) for block in blocks_of(one) for another in beside)


def corner_of(face: int, i: int, j: int) -> Place:
    """The place of the corner with the least coordinates of a leaf; `i` and `j` may be at the face's far end too."""
    return place_at(point_on(face, projected(i / LEAVES), projected(j / LEAVES)))


def outline_of(block: Block, parts: int = 1) -> List[Place]:
    """The corners of a block, and so many parts of each of its sides, counterclockwise, without the first again.
    Longitudes may pass 180 degrees, so that places stand beside each other."""
    corners: Sequence[Tuple[int, int]] = (
        (block.i_from, block.j_from),
        (block.i_to, block.j_from),
        (block.i_to, block.j_to),
        (block.i_from, block.j_to),
    )
    ring: List[Place] = []
    for (i, j), (next_i, next_j) in zip(corners, (*corners[1:], corners[0])):
        ring += [
            corner_of(block.face, i + (next_i - i) * part // parts, j + (next_j - j) * part // parts)
            for part in range(parts)
        ]
    first = ring[0][0]
    return [(first + (longitude - first + 540) % 360 - 180, latitude) for longitude, latitude in ring]


COARSE = 4
"""Levels at which a cell may have a pole within, or be too large for a box of its corners."""


def cells_over(box: Box, level: int, most: int) -> List[str]:
    """The tokens of the cells of a level that are drawn over a box; none if they are more than `most`."""
    cells = faces()
    for depth in range(level + 1):
        cells = [cell for cell in cells if depth <= COARSE or is_drawn_over(cell, box)]
        if len(cells) > max(most, 6 * 4**COARSE):
            return []
        if depth < level:
            cells = [child for cell in cells for child in cell.children()]
    found = [token_of(cell.number) for cell in cells if is_drawn_over(cell, box)]
    return found if len(found) <= most else []


def is_drawn_over(cell: Cell, box: Box) -> bool:
    """Whether the box around a cell, on a map, meets another box."""
    ring = outline_of(Block(cell.face, cell.i, cell.i + cell.side, cell.j, cell.j + cell.side), 2)
    longitudes, latitudes = [place[0] for place in ring], [place[1] for place in ring]
    if max(latitudes) < box[1] or box[3] < min(latitudes):
        return False
    begin, wide = min(longitudes), max(longitudes) - min(longitudes)
    return wide >= 180 or (begin - box[0]) % 360 <= box[2] - box[0] or (box[0] - begin) % 360 <= wide
