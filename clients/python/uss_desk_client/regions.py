"""Regions of the sphere that the client's own coverer covers. Each answers conservatively: `meets` is true of every
cell that has a point of the region, and `contains` is false of every cell that has a point outside of it."""
from __future__ import annotations

import math
from typing import Dict, List, Sequence, Tuple

from uss_desk_client.cells import Cell, cell_of, on_face
from uss_desk_client.sphere import Vector, angle_between, angle_to_edge, cross, dot, minus, signed_size, unit
from uss_desk_client.tokens import leaves_of, parent_of

PADDING = 1e-12
"""Radians, some micrometres: how near an edge is to a cell that it is taken to meet. Rounding is far less."""
SOMEWHERE = ((0.4637, 0.5219), (0.5881, 0.4321), (0.3719, 0.6143))
"""Shares of a cell's sides: points in it that no edge of a map runs through by design."""


class Region:
    """A region."""

    def meets(self, cell: Cell) -> bool:
        """Whether a cell may have a point of it."""
        raise NotImplementedError

    def contains(self, cell: Cell) -> bool:
        """Whether all of a cell is sure to lie in it."""
        raise NotImplementedError


class Inside(Region):
    """The side of a ring that is smaller than a hemisphere. The ring doesn't cross itself."""

    def __init__(self, ring: Sequence[Vector]) -> None:
        self._ring = list(ring if signed_size(ring) > 0 else reversed(ring))
        self._edges: Dict[int, List[Tuple[Vector, Vector]]] = {}
        self._near: Dict[int, List[int]] = {}
        self._is_inside: Dict[int, bool] = {}

    def meets(self, cell: Cell) -> bool:
        return bool(self._near_to(cell)) or self._has_all_of(cell)

    def contains(self, cell: Cell) -> bool:
        return not self._near_to(cell) and self._has_all_of(cell)

    def _near_to(self, cell: Cell) -> List[int]:
        """The numbers of the edges that meet a cell: they are among those that meet the cell around it."""
        found = self._near.get(cell.number)
        if found is None:
            around = parent_of(cell.number)
            numbers = range(len(self._ring)) if around is None else self._near_to(cell_of(around))
            edges, bounds = self._edges_on(cell.face), cell.bounds()
            found = self._near[cell.number] = [at for at in numbers if is_cut(bounds, *edges[at])]
        return found

    def _edges_on(self, face: int) -> List[Tuple[Vector, Vector]]:
        """All edges, by the coordinates of a face."""
        if face not in self._edges:
            ring = [on_face(face, vector) for vector in self._ring]
            self._edges[face] = list(zip(ring, ring[1:] + ring[:1]))
        return self._edges[face]

    def _has_all_of(self, cell: Cell) -> bool:
        """Of a cell that no edge meets: whether it lies within the ring."""
        found = self._is_inside.get(cell.number)
        if found is None:
            around = parent_of(cell.number)
            is_clear = around is not None and not self._near_to(cell_of(around))
            found = self._has_all_of(cell_of(around)) if is_clear and around is not None else self._winds_around(cell)
            self._is_inside[cell.number] = found
        return found

    def _winds_around(self, cell: Cell) -> bool:
        """Whether the ring runs once counterclockwise around a point of the cell."""
        for across, up in SOMEWHERE:
            turned = turned_around(unit(cell.at(across, up)), self._ring)
            if math.isfinite(turned):
                break
        return turned > math.pi


def turned_around(point: Vector, ring: Sequence[Vector]) -> float:
    """The angle by which a ring turns around a point, counterclockwise; NaN if it comes to the point's antipode."""
    east = unit(cross((0.0, 0.0, 1.0) if abs(point[2]) < 0.9 else (1.0, 0.0, 0.0), point))
    north = cross(point, east)
    seen = []
    for vector in ring:
        step = minus(vector, point)
        seen.append((dot(step, east), dot(step, north)))
        if math.hypot(*seen[-1]) < PADDING / 10:
            return math.nan
    return sum(math.atan2(x * v - y * u, x * u + y * v) for (x, y), (u, v) in zip(seen, seen[1:] + seen[:1]))


def is_cut(bounds: Tuple[float, float, float, float], first: Vector, last: Vector) -> bool:
    """Whether the shortest line between two points meets a cell, or passes it at less than the padding. All are in the
    coordinates of the cell's face.

    A cell is what lies within four planes through the middle of the sphere. The chord between the points is cut by
    one after the other: the line meets the cell if some part of the chord is left.
    """
    left, right, low, high = bounds
    enters, leaves = 0.0, 1.0
    for axis, bound, sign in ((0, left, 1.0), (0, right, -1.0), (1, low, 1.0), (1, high, -1.0)):
        here = sign * (first[axis] - bound * first[2]) + PADDING
        there = sign * (last[axis] - bound * last[2]) + PADDING
        if here < 0 and there < 0:
            return False
        if here < 0:
            enters = max(enters, here / (here - there) - PADDING)
        elif there < 0:
            leaves = min(leaves, here / (here - there) + PADDING)
    return enters <= leaves


class Around(Region):
    """All points within an angle, less than a right one, of a point."""

    def __init__(self, middle: Vector, angle: float) -> None:
        self._middle, self._angle = middle, angle

    def meets(self, cell: Cell) -> bool:
        middle = on_face(cell.face, self._middle)
        if is_cut(cell.bounds(), middle, middle):
            return True
        corners = [unit(corner) for corner in cell.corners()]
        nearest = min(angle_to_edge(self._middle, *edge) for edge in zip(corners, corners[1:] + corners[:1]))
        return nearest <= self._angle + PADDING

    def contains(self, cell: Cell) -> bool:
        return all(angle_between(self._middle, unit(it)) <= self._angle - PADDING for it in cell.corners())


class Union(Region):
    """Some cells, none within another, ascending by id."""

    def __init__(self, numbers: Sequence[int]) -> None:
        self._ranges = [leaves_of(number) for number in numbers]

    def meets(self, cell: Cell) -> bool:
        least, greatest = leaves_of(cell.number)
        return any(low <= greatest and least <= high for low, high in self._ranges)

    def contains(self, cell: Cell) -> bool:
        least, greatest = leaves_of(cell.number)
        return any(low <= least and greatest <= high for low, high in self._ranges)
