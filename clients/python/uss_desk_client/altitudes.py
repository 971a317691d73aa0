"""Altitudes above the ground or the sea, made altitudes above the WGS84 ellipsoid, which are all that the desk knows.

The ellipsoid lies up to a hundred metres below or above the sea level, and the ground lies above that: near Zurich the
ground is some 450 m above the ellipsoid. What is made here is outward: the lower altitude is above the lowest ground or
sea level of the area, the upper one above the highest.
"""
from __future__ import annotations

from dataclasses import dataclass
from typing import Optional, Tuple

from uss_desk_client.errors import DeskError
from uss_desk_client.geoid import ABSENT, Geoid, NoGeoid
from uss_desk_client.heights import Tiles
from uss_desk_client.sphere import Box

UNKNOWN_GROUND = "nothing is known of the ground here: the altitudes are above the WGS84 ellipsoid"


class NoGround(DeskError):
    """The height of the ground isn't known."""


@dataclass(frozen=True)
class Between:
    """Metres above the WGS84 ellipsoid, from a least to a greatest."""

    lower: float
    upper: float

    def plus(self, lower: float, upper: float) -> Tuple[float, float]:
        """The altitudes that lie so many metres above it, rounded to a millimetre."""
        return round(self.lower + lower, 3), round(self.upper + upper, 3)


@dataclass(frozen=True)
class Ground:
    """What is known of the ground and the sea level: tiles, a grid, or what somebody says.

    `sea` is the height of the sea level above the ellipsoid in metres, in place of the grid; `ground` is the height of
    the ground above the ellipsoid, in place of tiles. The box of an area is `extents.box_of_cells`.
    """

    tiles: Optional[Tiles] = None
    geoid: Optional[Geoid] = None
    sea: Optional[float] = None
    ground: Optional[float] = None

    def sea_level(self, box: Box) -> Between:
        """The height of the sea level in a box; a NoGeoid says what to do if it isn't known."""
        if self.sea is not None:
            return Between(self.sea, self.sea)
        if self.geoid is None:
            raise NoGeoid(ABSENT)
        return Between(*self.geoid.between(box))

    def ground_level(self, box: Box) -> Optional[Between]:
        """The height of the ground in a box; None if it isn't known. The heights of tiles are above the sea
        level: a NoGeoid if that isn't known."""
        if self.ground is not None:
            return Between(self.ground, self.ground)
        heights = None if self.tiles is None else self.tiles.between(box)
        if heights is None:
            return None
        sea = self.sea_level(box)
        return Between(sea.lower + heights[0], sea.upper + heights[1])

    def above_ground(self, box: Box, lower: float, upper: float) -> Tuple[float, float]:
        """Altitudes above the ground as such above the ellipsoid; a NoGround if the ground isn't known."""
        level = self.ground_level(box)
        if level is None:
            raise NoGround("the height of the ground isn't known here: say it in metres above the WGS84 ellipsoid")
        return level.plus(lower, upper)

    def above_sea(self, box: Box, lower: float, upper: float) -> Tuple[float, float]:
        """Altitudes above the sea level as such above the ellipsoid; a NoGeoid if that isn't known."""
        return self.sea_level(box).plus(lower, upper)

    def warning(self, box: Box, lower: float, upper: float) -> str:
        """What somebody should know who plans these altitudes above the ellipsoid; empty if there is nothing."""
        try:
            level = self.ground_level(box)
        except NoGeoid:
            level = None
        if level is None:
            return UNKNOWN_GROUND + self._sea_told(box)
        if upper <= level.lower:
            return (
                f"the flight is underground: the ground lies {above_or_below(level.lower)} the WGS84 ellipsoid here"
            )
        if lower < level.lower:
            return f"the flight begins {level.lower - lower:.0f} m below the ground"
        return ""

    def _sea_told(self, box: Box) -> str:
        try:
            level = self.sea_level(box)
        except NoGeoid:
            return ""
        return f", and the sea level lies {above_or_below(level.upper)} it"


def above_or_below(metres: float) -> str:
    """So many metres above or below something, in words."""
    return f"{abs(metres):.1f} m {'above' if metres >= 0 else 'below'}"
