"""Distances and cells on the ground, by Google's S2, which the client isn't asked for."""

from __future__ import annotations

from collections.abc import Sequence

import pywraps2 as s2
from uss_desk_client import Conflict, Volume
from uss_desk_client.tokens import id_of, leaves_of

EARTH = 6_371_000
"""Metres: its mean radius."""

Place = tuple[float, float]


def leaves(token: str) -> tuple[int, int]:
    """The least and the greatest leaf of a cell."""
    cell = id_of(token)
    assert cell is not None, token
    return leaves_of(cell)


def metres_from(ring: Sequence[Place], conflict: Conflict) -> float:
    """How far a conflict's leaf, by its centre, lies from a polygon; 0 within it."""
    loop = s2.S2Loop()
    loop.Init([s2.S2LatLng.FromDegrees(latitude, longitude).ToPoint() for longitude, latitude in ring])
    loop.Normalize()
    place = s2.S2LatLng.FromDegrees(conflict.latitude, conflict.longitude).ToPoint()
    return 0.0 if loop.Contains(place) else float(loop.GetDistance(place).radians()) * EARTH


def cells_with_leaf(area: Sequence[Volume], conflict: Conflict) -> list[str]:
    """The cells of an area that have a conflict's leaf."""
    return [cell for volume in area for cell in volume.cells if meet(cell, conflict.cell)]


def meet(cell: str, other: str) -> bool:
    """Whether two cells have a leaf in common."""
    (least, greatest), (low, high) = leaves(cell), leaves(other)
    return least <= high and low <= greatest


def corners_of(cell: str) -> list[s2.S2LatLng]:
    """The corners of a cell."""
    return [s2.S2Cell(s2.S2CellId.FromToken(cell)).GetS2LatLngVertex(at) for at in range(4)]


def size_of(cell: str) -> float:
    """The metres from one corner of a cell to the farthest other one."""
    corners = corners_of(cell)
    return max(float(one.GetDistance(other).radians()) for one in corners for other in corners) * EARTH


def along_grid(cell: str) -> list[Place]:
    """A polygon some millimetres within the edges of a cell, so that its cover is this cell."""
    centre = s2.S2CellId.FromToken(cell).ToLatLng()

    def within(corner: float, middle: float) -> float:
        return corner + (middle - corner) * 1e-5

    return [
        (within(place.lng().degrees(), centre.lng().degrees()), within(place.lat().degrees(), centre.lat().degrees()))
        for place in corners_of(cell)
    ]
