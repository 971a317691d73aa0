"""The altitudes of a drawing: counted from the ground, the sea or the ellipsoid, and sent above the ellipsoid.

Over hilly ground the volume contains the whole flight: its lower altitude is counted from the lowest ground beneath the
drawing, its upper one from the highest.
"""
from __future__ import annotations

from dataclasses import dataclass
from typing import NamedTuple, Optional, Sequence, Tuple

from uss_desk_client import AreaError, BadTile, Ground, NoGeoid, box_of_cells
from uss_desk_client.altitudes import Between

GROUND, SEA, ELLIPSOID = "ground", "sea", "ellipsoid"
ABOVE = (GROUND, SEA, ELLIPSOID)
UNKNOWN = {
    GROUND: "the height of the ground isn't known here: fill it in",
    SEA: "the height of the sea isn't known here: count from the ground or from the ellipsoid",
}
UNKNOWN_GROUND = "Nothing is known of the ground here, and the flight may lie below it: fill in the ground's height."


class Typed(NamedTuple):
    """Altitudes as they were filled in, metres; None where nothing was."""

    above: str
    lower: Optional[float]
    upper: Optional[float]
    ground: Optional[float]
    """The ground: above the sea where the sea is known, else above the ellipsoid."""


@dataclass(frozen=True)
class Altitudes:
    """What was filled in, and the heights of the sea and of the ground beneath it, above the ellipsoid."""

    typed: Typed
    sea: Optional[Between]
    ground: Optional[Between]

    @property
    def flight(self) -> Tuple[float, float]:
        """The lower and the upper altitude above the ellipsoid; an AreaError if they can't be known."""
        if self.typed.lower is None or self.typed.upper is None:
            raise AreaError("fill in both altitudes")
        zero = {GROUND: self.ground, SEA: self.sea, ELLIPSOID: Between(0.0, 0.0)}[self.typed.above]
        if zero is None:
            raise AreaError(UNKNOWN[self.typed.above])
        return zero.plus(self.typed.lower, self.typed.upper)

    @property
    def ground_above_sea(self) -> Optional[Tuple[float, float]]:
        """The lowest and the highest ground above the sea, if both are known."""
        if self.ground is None or self.sea is None:
            return None
        return self.ground.lower - self.sea.lower, self.ground.upper - self.sea.upper

    @property
    def is_below_ground(self) -> bool:
        """Whether the ground is known, and rises above the flight."""
        return self.ground is not None and self.flight[1] <= self.ground.upper

    @property
    def warning(self) -> str:
        """What whoever plans the flight has to look at; empty if there is nothing."""
        if self.ground is None:
            return UNKNOWN_GROUND
        if self.is_below_ground:
            return f"The flight lies below the ground, which rises to {self.ground.upper:,.0f} m above the ellipsoid."
        return ""


def altitudes_over(tokens: Sequence[str], typed: Typed, known: Ground) -> Altitudes:
    """The altitudes of a drawing that takes these cells."""
    box = box_of_cells(tokens)
    try:
        sea: Optional[Between] = known.sea_level(box)
    except NoGeoid:
        sea = None
    if typed.ground is not None:
        low, high = (sea.lower, sea.upper) if sea else (0.0, 0.0)
        return Altitudes(typed, sea, Between(typed.ground + low, typed.ground + high))
    try:
        return Altitudes(typed, sea, known.ground_level(box))
    except (NoGeoid, BadTile):
        return Altitudes(typed, sea, None)
