"""What the page sends of a flight that was drawn, and the shape and the area that it is."""
from __future__ import annotations

from dataclasses import dataclass
from typing import Any, List, Mapping, Optional, Sequence, Tuple

from uss_desk_client import AreaError, Circle, Corridor, Ground, Polygon, ShapeError, Volume, area_over, cells_of
from uss_desk_client import limits
from uss_desk_client.shapes import FEWEST_CELLS, MOST_CELLS, Shape
from uss_desk_client.sphere import Place
from uss_desk_client.tokens import evenly, id_of
from uss_desk_client.units import MOST_METRES, decimetres_down, decimetres_up, second_down, second_up
from uss_desk_map.altitudes import ABOVE, Altitudes, Typed, altitudes_over

KINDS = ("polygon", "line", "circle", "cells")


class Wrong(ValueError):
    """What the page sent isn't what this server reads."""


@dataclass(frozen=True)
class Draft:
    """A flight as it was drawn. Places are pairs of longitude and latitude, lengths metres, times Unix seconds."""

    kind: str
    places: Tuple[Place, ...]
    metres: float
    """Of a line the width, of a circle the radius."""
    cells: Tuple[str, ...]
    """Of the kind `cells` what it takes."""
    typed: Typed
    start: int
    end: int
    priority: int
    at_most: int
    plan_id: Optional[str]
    known: Ground
    """What is known of the ground and the sea."""

    @property
    def shape(self) -> Optional[Shape]:
        """The shape on the ground; None of the kind `cells`."""
        if self.kind == "polygon":
            return Polygon(self.places)
        if self.kind == "line":
            return Corridor(self.places, self.metres)
        if self.kind == "circle":
            return Circle(self.places[0], self.metres)
        return None

    @property
    def tokens(self) -> List[str]:
        """The cells that it takes, cut as evenly as their number allows."""
        if self.shape is None:
            return list(self.cells)
        try:
            return evenly(cells_of(self.shape, self.at_most), self.at_most)
        except ShapeError as wrong:
            raise ShapeError(by_numbers(str(wrong), self.places)) from None

    def altitudes(self, tokens: Sequence[str]) -> Altitudes:
        """Its altitudes over the cells that it takes."""
        return altitudes_over(tokens, self.typed, self.known)

    def area(self, tokens: Optional[Sequence[str]] = None) -> List[Volume]:
        """The volumes that it takes."""
        cells = self.tokens if tokens is None else tokens
        lower, upper = self.altitudes(cells).flight
        return area_over(
            cells, decimetres_down(lower), decimetres_up(upper), second_down(self.start), second_up(self.end)
        )


def draft_of(value: Any, known: Ground = Ground()) -> Draft:
    """The draft that the page sent."""
    if not isinstance(value, dict):
        raise Wrong("the draft is no object")
    kind = text(value, "kind")
    if kind not in KINDS:
        raise Wrong(f"the kind {kind[:20]!r} is none of {', '.join(KINDS)}")
    places = tuple(place_of(one) for one in listed(value, "places"))
    cells = tuple(token_of(one) for one in listed(value, "cells"))
    if kind == "cells" and not cells:
        raise AreaError("there are no cells")
    if kind == "circle" and not places:
        raise AreaError("the circle has no middle")
    at_most = whole(value, "at_most", FEWEST_CELLS, MOST_CELLS)
    return Draft(
        kind,
        places,
        number(value, "metres"),
        cells,
        typed_of(value),
        whole(value, "start", 0, limits.LAST_SECOND),
        whole(value, "end", 0, limits.LAST_SECOND),
        whole(value, "priority", 0, limits.MAX_PRIORITY),
        at_most,
        plan_id_of(value),
        known,
    )


def by_numbers(told: str, places: Sequence[Place]) -> str:
    """A text with the places by their numbers on the map, in place of their degrees."""
    for at, place in enumerate(places):
        told = told.replace(str(place), f"corner {at + 1}")
    return told


def typed_of(value: Mapping[str, Any]) -> Typed:
    """The altitudes that were filled in."""
    above = text(value, "above")
    if above not in ABOVE:
        raise Wrong(f"altitudes are above {', '.join(ABOVE)}")
    lower, upper, ground = (
        None if value.get(name) is None else number(value, name) for name in ("lower", "upper", "ground")
    )
    return Typed(above, lower, upper, ground)


def plan_id_of(value: Mapping[str, Any]) -> Optional[str]:
    return None if value.get("plan_id") is None else text(value, "plan_id")


def text(value: Mapping[str, Any], name: str) -> str:
    """A member that is a text."""
    found = value.get(name)
    if not isinstance(found, str) or len(found) > 100:
        raise Wrong(f"{name} is no short text")
    return found


def listed(value: Mapping[str, Any], name: str) -> Sequence[Any]:
    """A member that is a list; empty if it isn't there."""
    found = value.get(name, [])
    if not isinstance(found, list):
        raise Wrong(f"{name} is no list")
    return found


def number(value: Mapping[str, Any], name: str) -> float:
    """A member that is a number."""
    found: Any = value.get(name)
    if not is_number(found):
        raise Wrong(f"{words_of(name)}: a number is wanted")
    return float(found)


def whole(value: Mapping[str, Any], name: str, least: int, most: int) -> int:
    found = value.get(name)
    if isinstance(found, bool) or not isinstance(found, int) or not least <= found <= most:
        raise Wrong(f"{words_of(name)}: a whole number from {least:,} to {most:,} is wanted")
    return found


def words_of(name: str) -> str:
    return name.replace("_", " ")


def is_number(value: Any) -> bool:
    """Whether a value is a number of a size that something on the earth may have."""
    return isinstance(value, (int, float)) and not isinstance(value, bool) and abs(value) <= MOST_METRES


def place_of(value: Any) -> Place:
    if not isinstance(value, list) or len(value) != 2 or not all(map(is_number, value)):
        raise Wrong("a place is a pair of numbers")
    return float(value[0]), float(value[1])


def token_of(value: Any) -> str:
    if not isinstance(value, str) or id_of(value) is None:
        raise Wrong("a cell is named by its token")
    return value
