"""The area of a flight: volumes over cells or a rectangle of the grid, and their JSON in requests and answers."""
from __future__ import annotations

from dataclasses import dataclass
from datetime import datetime
from typing import Any, Dict, List, Mapping, Optional, Sequence, Tuple

from uss_desk_client.errors import DeskError
from uss_desk_client.limits import MAX_CELLS, MAX_LENGTH, MAX_VOLUMES
from uss_desk_client.shapes import Shape, cells_of
from uss_desk_client.tokens import id_of, token_of
from uss_desk_client.units import Metres, Time, datetime_of, decimetres_down, decimetres_up, second_down
from uss_desk_client.units import second_up, time_text

RECTANGLE_MEMBERS = ("face", "i_max", "i_min", "j_max", "j_min", "level")


class AreaError(DeskError, ValueError):
    """An area that can't be told to the desk, with what to change."""


@dataclass(frozen=True)
class Rectangle:
    """A rectangle of leaves of a face, widened to whole squares of its level (docs/api.md, "Request bodies")."""

    face: int
    i_min: int
    i_max: int
    j_min: int
    j_max: int
    level: int

    def to_json(self) -> Dict[str, int]:
        return {name: getattr(self, name) for name in RECTANGLE_MEMBERS}


@dataclass(frozen=True)
class Volume:
    """One volume of an area: a footprint, altitudes in decimetres above the WGS84 ellipsoid, Unix seconds.

    A leaf, an altitude and a second lie in it if the footprint has the leaf, `lower <= altitude < upper` and
    `start <= second < end`. The footprint is a list of cells by their tokens, or a rectangle if there is one.
    """

    cells: Tuple[str, ...]
    lower: int
    upper: int
    start: int
    end: int
    rectangle: Optional[Rectangle] = None

    @property
    def lower_metres(self) -> float:
        return self.lower / 10

    @property
    def upper_metres(self) -> float:
        return self.upper / 10

    @property
    def start_time(self) -> datetime:
        return datetime_of(self.start)

    @property
    def end_time(self) -> datetime:
        return datetime_of(self.end)

    def to_json(self) -> Dict[str, Any]:
        """The volume as a member of a request."""
        shape: Dict[str, Any] = {"altitude_lower": self.lower, "altitude_upper": self.upper}
        if self.rectangle:
            shape["rectangle"] = self.rectangle.to_json()
        else:
            shape["cells"] = list(self.cells)
        return {
            "time_end": {"format": "RFC3339", "value": time_text(self.end)},
            "time_start": {"format": "RFC3339", "value": time_text(self.start)},
            "volume": shape,
        }

    @classmethod
    def from_answer(cls, shown: Mapping[str, Any]) -> Volume:
        """The volume that a member of a shown plan's `area` is."""
        parts = shown.get("rectangle")
        rectangle = Rectangle(**{name: int(parts[name]) for name in RECTANGLE_MEMBERS}) if parts else None
        return cls(
            cells=tuple(shown.get("cells", ())),
            lower=int(shown["altitude_lower"]),
            upper=int(shown["altitude_upper"]),
            start=int(shown["second_start"]),
            end=int(shown["second_end"]),
            rectangle=rectangle,
        )

    def printed(self) -> Volume:
        """The volume with its tokens as the desk prints them; a token of no cell stays as it is."""
        numbers = [id_of(token) for token in self.cells]
        cells = tuple(token if number is None else token_of(number) for token, number in zip(self.cells, numbers))
        return Volume(cells, self.lower, self.upper, self.start, self.end, self.rectangle)


def days_of(start: int, end: int) -> List[Tuple[int, int]]:
    """The time from one second to another, cut into parts of a day and a last one of at most a day."""
    return [(at, min(at + MAX_LENGTH, end)) for at in range(start, end, MAX_LENGTH)]


def area_over(tokens: Sequence[str], lower: int, upper: int, start: int, end: int) -> List[Volume]:
    """The volumes over these cells, altitudes in decimetres, between two seconds: each of at most 64 cells and
    of at most a day. An AreaError if they are more than 32."""
    if lower >= upper:
        raise AreaError(f"the lower altitude, {lower} dm, isn't below the upper one, {upper} dm")
    if start >= end:
        raise AreaError(f"the start, {time_text(start)}, isn't before the end, {time_text(end)}")
    parts = [tuple(tokens[at : at + MAX_CELLS]) for at in range(0, len(tokens), MAX_CELLS)]
    days = days_of(start, end)
    if not 1 <= len(parts) * len(days) <= MAX_VOLUMES:
        raise AreaError(
            f"{len(tokens)} cells on {len(days)} days make {len(parts) * len(days)} volumes, and a "
            f"plan has 1 to {MAX_VOLUMES}: use fewer cells, or make several plans"
        )
    return [Volume(cells, lower, upper, begun, ended) for begun, ended in days for cells in parts]


def area_of(
    shape: Shape, altitude: Tuple[Metres, Metres], start: Time, end: Time, at_most: int = MAX_CELLS
) -> List[Volume]:
    """The area of a flight over a shape, between two altitudes in metres above the WGS84 ellipsoid and two
    moments. Nothing of the flight is left out: the cells contain the shape, altitudes and seconds are rounded
    outward. A flight of over a day has a volume for each day, and one over more than 64 cells several.

    `at_most` is the greatest number of cells; more of them follow the shape more closely (`cells_of`).
    Errors: UnitError, ShapeError, and AreaError if the plan would have more than 32 volumes.
    """
    lower, upper = altitude
    return area_over(
        cells_of(shape, at_most), decimetres_down(lower), decimetres_up(upper), second_down(start), second_up(end)
    )
