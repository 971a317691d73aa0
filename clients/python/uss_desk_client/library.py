"""What covers regions by cells: Google's S2 as Debian packages it (the module pywraps2), or else the client's own
coverer. Both make covers that contain the region; those of the library are quicker to find.

Cells are told by their ids. A region is made by `ring` or `cap`, and is asked of the same library that made it.
"""
from __future__ import annotations

import functools
import importlib
import logging
from typing import Any, Iterable, List, Sequence

from uss_desk_client import coverer
from uss_desk_client.cells import cell_of
from uss_desk_client.regions import Around, Inside
from uss_desk_client.sphere import Place, is_crossed, vector_of

NAME = "pywraps2"
FALLBACK = (
    f"there is no S2 library ({NAME}, Debian's python3-{NAME}): the client's own coverer is used, which takes longer"
)
LOG = logging.getLogger("uss_desk_client")


class Library:
    """A library that covers regions. This one is the client's own."""

    name = "the client's own coverer"

    def ring(self, places: Sequence[Place]) -> Any:
        """The side of a simple ring that is smaller than a hemisphere."""
        return Inside([vector_of(place) for place in places])

    def cap(self, place: Place, angle: float) -> Any:
        """All points within an angle of a place."""
        return Around(vector_of(place), angle)

    def cover(self, region: Any, at_most: int) -> List[int]:
        """At most so many cells, none within another, that contain a region."""
        return coverer.cover(region, at_most)

    def contains(self, region: Any, number: int) -> bool:
        """Whether all of a cell is sure to lie in a region."""
        return bool(region.contains(cell_of(number)))

    def meets(self, region: Any, number: int) -> bool:
        """Whether a cell may have a point of a region."""
        return bool(region.meets(cell_of(number)))

    def merged(self, covers: Iterable[Iterable[int]], at_most: int) -> List[int]:
        """At most so many cells that contain those of all these covers."""
        return coverer.merged(covers, at_most)

    def is_crossed(self, begin: Place, end: Place, other: Place, beyond: Place) -> bool:
        """Whether two shortest lines cross at a point that is an end of neither."""
        return is_crossed(vector_of(begin), vector_of(end), vector_of(other), vector_of(beyond))


class Google(Library):
    """Google's S2."""

    name = NAME

    def __init__(self, module: Any) -> None:
        self._s2 = module

    def _point(self, place: Place) -> Any:
        return self._s2.S2LatLng.FromDegrees(place[1], place[0]).ToPoint()

    def _cell(self, number: int) -> Any:
        return self._s2.S2Cell(self._s2.S2CellId(number))

    def ring(self, places: Sequence[Place]) -> Any:
        loop = self._s2.S2Loop()
        loop.Init([self._point(place) for place in places])
        loop.Normalize()
        return loop

    def cap(self, place: Place, angle: float) -> Any:
        return self._s2.S2Cap(self._point(place), self._s2.S1Angle.Radians(angle))

    def cover(self, region: Any, at_most: int) -> List[int]:
        covering = self._s2.S2RegionCoverer()
        covering.set_max_cells(at_most)
        return [int(cell.id()) for cell in covering.GetCovering(region)]

    def contains(self, region: Any, number: int) -> bool:
        return bool(region.Contains(self._cell(number)))

    def meets(self, region: Any, number: int) -> bool:
        return bool(region.MayIntersect(self._cell(number)))

    def merged(self, covers: Iterable[Iterable[int]], at_most: int) -> List[int]:
        union = self._s2.S2CellUnion()
        union.Init([number for numbers in covers for number in numbers])
        if union.num_cells() > at_most:
            return self.cover(union, at_most)
        return [int(cell.id()) for cell in union.cell_ids()]

    def is_crossed(self, begin: Place, end: Place, other: Place, beyond: Place) -> bool:
        return bool(self._s2.CrossingSign(*map(self._point, (begin, end, other, beyond))) > 0)


@functools.lru_cache(maxsize=None)
def library() -> Library:
    """The library that this Python has. That it is the client's own is logged, once."""
    try:
        return Google(importlib.import_module(NAME))
    except ImportError:
        LOG.warning(FALLBACK)
        return Library()
