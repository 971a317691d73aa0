"""The height of the ground above the sea level, from tiles of heights (HGT, those of the Shuttle Radar Topography
Mission).

A tile N47E008.hgt has the heights between two degrees of latitude and two of longitude: big-endian whole numbers of
2 bytes in metres, row by row from north to south, 1,201 or 3,601 a row. -32,768 is a height that isn't known.
"""
from __future__ import annotations

import math
import os
import struct
from typing import Dict, Optional, Tuple

from uss_desk_client.errors import DeskError
from uss_desk_client.sphere import Box

UNKNOWN = -32_768
SIDES = {2 * side * side: side for side in (1_201, 3_601)}
"""The numbers of a row, by the bytes of the file."""
MOST_HEIGHTS = 4_000_000
"""Heights that are looked at for one area."""


class BadTile(DeskError):
    """A file that is no tile, or an area of too many heights."""


class Tiles:
    """The tiles in a folder."""

    def __init__(self, folder: str) -> None:
        if not os.path.isdir(folder):
            raise BadTile(f"{folder} is no folder of tiles of heights")
        self._folder = folder
        self._read: Dict[Tuple[int, int], Optional[Tuple[int, bytes]]] = {}

    def _tile(self, south: int, west: int) -> Optional[Tuple[int, bytes]]:
        """The numbers of a row and the bytes of the tile with this corner; None if it isn't there."""
        if (south, west) not in self._read:
            path = os.path.join(self._folder, name_of(south, west))
            self._read[south, west] = read_tile(path) if os.path.isfile(path) else None
        return self._read[south, west]

    def between(self, box: Box) -> Optional[Tuple[float, float]]:
        """The least and the greatest height above the sea level of all that are known in and around a box; None if
        one of them isn't known."""
        west, south, east, north = box
        found = [
            self._in_tile(row, column, box)
            for row in range(math.floor(south), math.floor(north) + 1)
            for column in range(math.floor(west), math.floor(east) + 1)
        ]
        known = [one for one in found if one is not None]
        if len(known) < len(found):
            return None
        return min(low for low, _ in known), max(high for _, high in known)

    def _in_tile(self, south: int, west: int, box: Box) -> Optional[Tuple[float, float]]:
        """The least and the greatest height within a tile, of the posts in the box and those beside it."""
        tile = self._tile(south, (west + 180) % 360 - 180)
        if tile is None:
            return None
        side, data = tile
        last = side - 1
        columns = bounded((box[0] - west) * last, (box[2] - west) * last, last)
        rows = bounded((south + 1 - box[3]) * last, (south + 1 - box[1]) * last, last)
        count = columns[1] - columns[0] + 1
        if count * (rows[1] - rows[0] + 1) > MOST_HEIGHTS:
            raise BadTile("the area is too large to look at all heights in it: say how high the ground is")
        low, high = 1 << 20, -(1 << 20)
        for row in range(rows[0], rows[1] + 1):
            posts = struct.unpack_from(f">{count}h", data, 2 * (row * side + columns[0]))
            low, high = min(low, *posts), max(high, *posts)
        return None if low == UNKNOWN else (float(low), float(high))


def bounded(first: float, last: float, most: int) -> Tuple[int, int]:
    """The numbers of the posts from one place to another, with those on both sides."""
    return max(0, math.floor(first)), min(most, math.ceil(last))


def name_of(south: int, west: int) -> str:
    """The name of the tile whose corner lies at these degrees."""
    return f"{'N' if south >= 0 else 'S'}{abs(south):02}{'E' if west >= 0 else 'W'}{abs(west):03}.hgt"


def read_tile(path: str) -> Tuple[int, bytes]:
    """The numbers of a row of a tile, and its bytes."""
    with open(path, "rb") as file:
        data = file.read()
    if len(data) not in SIDES:
        raise BadTile(f"{path} is no tile of heights: it has {len(data):,} bytes")
    return SIDES[len(data)], data
