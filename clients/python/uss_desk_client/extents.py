"""Where a shape or a cover lies and how large it is, for people to see whether it is what they meant."""
from __future__ import annotations

from dataclasses import dataclass
from typing import Iterable, List

from uss_desk_client.areas import AreaError
from uss_desk_client.cells import cell_of
from uss_desk_client.grid import block_of_cell, outline_of
from uss_desk_client.shapes import Circle, Corridor, Polygon, Shape, Shapes, place_of
from uss_desk_client.sizes import size_of_cell, square_metres, square_metres_of_cells
from uss_desk_client.sphere import Box, Place, Vector, middle_of, place_at, unit, vector_of
from uss_desk_client.tokens import id_of

PARTS = 4
"""Of each side of a cell, whose points may lie beyond its corners."""
LARGE = 100.0
"""Square kilometres: whoever plans more is asked whether that is meant."""


@dataclass(frozen=True)
class Extent:
    """Where something lies on the ground, and its size."""

    centre: Place
    """Longitude and latitude: roughly the middle."""
    square_kilometres: float

    @property
    def is_large(self) -> bool:
        """Whether it is so large that it may be a mistake."""
        return self.square_kilometres > LARGE

    def __str__(self) -> str:
        return f"around {degrees_told(self.centre)}, {kilometres_told(self.square_kilometres)}"


def degrees_told(place: Place) -> str:
    """A place in words that say which number is which."""
    longitude, latitude = place
    north, east = "N" if latitude >= 0 else "S", "E" if longitude >= 0 else "W"
    return f"latitude {abs(latitude):.5f} {north}, longitude {abs(longitude):.5f} {east}"


def kilometres_told(square: float) -> str:
    """Square kilometres, with three digits or all of those before the point."""
    return f"{square:,.0f} km2" if square >= 100 else f"{square:.3g} km2"


def extent_of(shape: Shape) -> Extent:
    """Where a shape lies. ShapeErrors as of `cells_of`."""
    return Extent(middle(map(vector_of, places_in(shape))), square_metres(shape) / 1e6)


def extent_of_cells(tokens: Iterable[str]) -> Extent:
    """Where cells lie, none within another; an extent of nothing at (0, 0) if there are none."""
    listed = list(tokens)
    size = square_metres_of_cells(listed) / 1e6  # it refuses tokens of no cell
    weighed = [(size_of_cell(token), unit(cell_of(id_of(token) or 1).at(0.5, 0.5))) for token in listed]
    return Extent(middle((x * weight, y * weight, z * weight) for weight, (x, y, z) in weighed), size)


def middle(vectors: Iterable[Vector]) -> Place:
    return place_at(middle_of(list(vectors)))


def box_of_cells(tokens: Iterable[str]) -> Box:
    """The least box that some cells lie in; an AreaError if there are none, a ValueError if a token names none."""
    places = [place for token in tokens for place in outline_of(block_of_cell(token), PARTS)]
    if not places:
        raise AreaError("there are no cells")
    first = places[0][0]
    longitudes = [first + (place[0] - first + 540) % 360 - 180 for place in places]
    latitudes = [place[1] for place in places]
    return min(longitudes), min(latitudes), max(longitudes), max(latitudes)


def places_in(shape: Shape) -> List[Place]:
    """The places by which a shape is told: corners, a path, a centre."""
    if isinstance(shape, Polygon):
        corners = [place_of(place) for place in shape.ring]
        return corners[:-1] if len(corners) > 1 and corners[0] == corners[-1] else corners
    if isinstance(shape, Circle):
        return [place_of(shape.centre)]
    if isinstance(shape, Corridor):
        return [place_of(place) for place in shape.path]
    if isinstance(shape, Shapes):
        return [place for part in shape.shapes for place in places_in(part)]
    raise TypeError(f"where {type(shape).__name__} lies isn't known")
