"""Cells to be drawn: outlines as pairs of latitude and longitude, and the grid beneath a map."""
from __future__ import annotations

from typing import Iterable, List, Tuple

from uss_desk_client import Rectangle
from uss_desk_client.grid import Block, block_of_cell, block_of_rectangle, cells_over, outline_of

Ring = List[Tuple[float, float]]
"""Pairs of latitude and longitude, as Leaflet wants them."""
MOST_CELLS = 1_500
"""Cells of a grid that are drawn at once."""
FINE_LEVEL = 10
"""From this level on the sides of a cell are drawn as lines between its corners."""
PARTS = 12
DIGITS = 7
"""Of degrees: a centimetre."""


def ring_of_block(block: Block, is_small: bool, beside: float) -> Ring:
    """The outline of a block, its longitudes turned so that it lies as near to a longitude as it can."""
    ring = outline_of(block, 1 if is_small else PARTS)
    turned = 360 * round((beside - ring[0][0]) / 360)
    return [(round(latitude, DIGITS), round(longitude + turned, DIGITS)) for longitude, latitude in ring]


def rings_of(tokens: Iterable[str]) -> List[Ring]:
    """The outlines of cells, side by side over the antimeridian too."""
    blocks = [block_of_cell(token) for token in tokens]
    beside = outline_of(blocks[0])[0][0] if blocks else 0.0
    return [ring_of_block(block, is_small(block), beside) for block in blocks]


def ring_of_rectangle(rectangle: Rectangle) -> Ring:
    block = block_of_rectangle(rectangle)
    return ring_of_block(block, False, outline_of(block)[0][0])


def is_small(block: Block) -> bool:
    return block.i_to - block.i_from <= 1 << 30 - FINE_LEVEL


def grid_over(west: float, south: float, east: float, north: float, level: int) -> List[Ring]:
    """The cells of a level over a part of the map; none if they are too many."""
    blocks = [block_of_cell(token) for token in cells_over((west, south, east, north), level, MOST_CELLS)]
    return [ring_of_block(block, is_small(block), (west + east) / 2) for block in blocks]
