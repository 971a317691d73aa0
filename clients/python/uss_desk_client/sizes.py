"""How large shapes and cells are on the ground, to tell how much a cover takes beyond its shape.

Lengths and sizes are those of a sphere, as in `shapes`. They are for people to read: nothing is planned by them.
"""
from __future__ import annotations

import math
from typing import Iterable, List, Sequence

from uss_desk_client.cells import cell_of
from uss_desk_client.shapes import Circle, Corridor, Polygon, Shape, Shapes, angle_of, length_of
from uss_desk_client.shapes import place_of, ring_followed, that_move
from uss_desk_client.sphere import Place, cross, dot, minus, signed_size, unit, vector_of
from uss_desk_client.tokens import id_of

MEAN_RADIUS = 6_371_008.8
"""Metres: the mean radius of WGS84."""


def square_metres_of_cells(tokens: Iterable[str]) -> float:
    """The size of cells, none within another. A token of no cell is a ValueError."""
    return metres_of(sum(size_of_cell(token) for token in tokens))


def size_of_cell(token: str) -> float:
    number = id_of(token)
    if number is None:
        raise ValueError(f"{token!r} is the token of no cell")
    return signed_size([unit(corner) for corner in cell_of(number).corners()])


def square_metres(shape: Shape) -> float:
    """The size of a shape; that of a corridor with narrow bends, or which crosses itself, and that of shapes that lie
    over one another is a rough one. ShapeErrors as of `cells_of`."""
    if isinstance(shape, Polygon):
        holes = sum(size_within(hole, shape.is_straight) for hole in shape.holes)
        return metres_of(max(0.0, size_within(shape.ring, shape.is_straight) - holes))
    if isinstance(shape, Circle):
        place_of(shape.centre)
        return metres_of(size_around(angle_of(shape.radius)))
    if isinstance(shape, Corridor):
        return metres_of(size_along(that_move([place_of(place) for place in shape.path]), angle_of(shape.width) / 2))
    if isinstance(shape, Shapes):
        return sum(map(square_metres, shape.shapes))
    raise TypeError(f"the size of {type(shape).__name__} isn't known")


def metres_of(steradians: float) -> float:
    return steradians * MEAN_RADIUS**2


def size_within(ring: Sequence[Place], is_straight: bool) -> float:
    return abs(signed_size([vector_of(place) for place in ring_followed(ring, is_straight)]))


def size_around(angle: float) -> float:
    return 2 * math.pi * (1 - math.cos(angle))


def size_along(path: List[Place], half: float) -> float:
    """The size of a corridor: its strips, a round end, and what bends add outside and take within."""
    strips = sum(length_of(begin, end) for begin, end in zip(path, path[1:])) * 2 * math.sin(half)
    bends = (bend_of(*places) for places in zip(path, path[1:], path[2:]))
    return (
        size_around(half) + strips + half**2 * sum(turned / 2 - math.tan(min(turned, 2.0) / 2) for turned in bends)
    )


def bend_of(before: Place, here: Place, after: Place) -> float:
    """The angle in radians by which a path turns at a place."""
    begin, middle, end = vector_of(before), vector_of(here), vector_of(after)
    one, other = (cross(middle, minus(begin, middle)), cross(middle, minus(end, middle)))
    return math.pi - abs(math.atan2(dot(middle, cross(one, other)), dot(one, other)))
