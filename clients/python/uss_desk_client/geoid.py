"""How high the sea level lies above the WGS84 ellipsoid, by the grid egm96_15.gtx of Debian's package proj-data.

The file has big-endian numbers: the latitude and the longitude of the first height and the steps between heights, as
doubles; the number of rows and columns, as whole numbers of 4 bytes; then the heights in metres, as floats, row by row
from south to north.
"""
from __future__ import annotations

import math
import os
import struct
from typing import List, Optional, Tuple

from uss_desk_client.errors import DeskError
from uss_desk_client.sphere import Box, Place

NAME = "egm96_15.gtx"
FOLDERS = ("/usr/share/proj", "/usr/local/share/proj")
VARIABLE = "USS_DESK_GEOID"
HEAD = struct.Struct(">4d2i")
ABSENT = (
    f"the height of the sea level isn't known here: apt-get install -y proj-data ({NAME}, 4 MB), or name the file by "
    "USS_DESK_GEOID, or say how many metres the sea level lies above the WGS84 ellipsoid at this place"
)


class NoGeoid(DeskError):
    """The grid isn't there, or is none."""


class Geoid:
    """The grid of a file."""

    def __init__(self, path: str) -> None:
        with open(path, "rb") as file:
            data = file.read()
        if len(data) < HEAD.size:
            raise NoGeoid(f"{path} is no grid of heights")
        self._south, self._west, self._up, self._across, self._rows, self._columns = HEAD.unpack_from(data)
        if self._rows < 2 or self._columns < 2 or len(data) != HEAD.size + 4 * self._rows * self._columns:
            raise NoGeoid(f"{path} is no grid of heights")
        self._data = data

    def _node(self, row: int, column: int) -> float:
        """The height at a point of the grid; columns go on around the earth."""
        row = min(max(row, 0), self._rows - 1)
        at = HEAD.size + 4 * (row * self._columns + column % self._columns)
        return float(struct.unpack_from(">f", self._data, at)[0])

    def at(self, place: Place) -> float:
        """The metres from the ellipsoid up to the sea level at a place."""
        row, up = split((place[1] - self._south) / self._up)
        column, across = split((place[0] - self._west) / self._across)
        low = self._node(row, column) * (1 - across) + self._node(row, column + 1) * across
        high = self._node(row + 1, column) * (1 - across) + self._node(row + 1, column + 1) * across
        return low * (1 - up) + high * up

    def between(self, box: Box) -> Tuple[float, float]:
        """The least and the greatest height in a box. Between points of the grid a height is greatest at one of them
        or at the edge of the box, and so is the least."""
        west, south, east, north = box
        longitudes = [west, *steps(west, east, self._west, self._across), east]
        latitudes = [south, *steps(south, north, self._south, self._up), north]
        heights = [self.at((longitude, latitude)) for longitude in longitudes for latitude in latitudes]
        return min(heights), max(heights)


def steps(begin: float, end: float, origin: float, step: float) -> List[float]:
    """The numbers between two others that lie whole steps from an origin."""
    first, last = math.ceil((begin - origin) / step), math.floor((end - origin) / step)
    return [origin + number * step for number in range(first, last + 1)]


def split(number: float) -> Tuple[int, float]:
    """The whole part of a number, and what is left of it."""
    whole = math.floor(number)
    return whole, number - whole


def find_geoid(path: Optional[str] = None) -> Optional[Geoid]:
    """The grid at a path, that of USS_DESK_GEOID, or that of Debian; None if there is none."""
    if path:
        return Geoid(path)
    if named := os.environ.get(VARIABLE):
        try:
            return Geoid(named)
        except OSError as wrong:
            raise NoGeoid(f"{VARIABLE} names {named}, which can't be read: {wrong.strerror or wrong}") from None
    for folder in FOLDERS:
        if os.path.isfile(os.path.join(folder, NAME)):
            return Geoid(os.path.join(folder, NAME))
    return None
