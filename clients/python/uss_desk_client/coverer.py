"""A coverer in Python alone, for where there is no S2 library: every leaf that a region touches is in its cells.

It looks for cells as S2RegionCoverer does: the largest cells that meet the region are cut into their children, as long
as the cells stay few enough. Its covers are about as close as those of S2, and some tens of times slower to find.
"""
from __future__ import annotations

import heapq
from typing import Iterable, List, NamedTuple, Optional, Tuple

from uss_desk_client.cells import Cell, faces
from uss_desk_client.regions import Region, Union
from uss_desk_client.tokens import level_of, normalized


class Candidate(NamedTuple):
    """A cell that meets the region, and its children that do; none if it isn't cut any further."""

    cell: Cell
    children: Tuple[Cell, ...]


def cover(region: Region, at_most: int) -> List[int]:
    """The ids of at most so many cells, ascending and none within another, that contain a region. Where a region meets
    more faces than cells are asked for, there is a cell of each."""
    done: List[int] = []
    waiting: List[Tuple[int, int, int, Candidate]] = []

    def add(cell: Cell) -> None:
        candidate = candidate_of(region, cell)
        if candidate is None:
            return
        if not candidate.children:
            done.append(cell.number)
            return
        heapq.heappush(waiting, (level_of(cell.number), len(candidate.children), cell.number, candidate))

    for face in faces():
        if region.meets(face):
            add(face)
    while waiting:
        _, count, _, candidate = heapq.heappop(waiting)
        if count == 1 or len(done) + len(waiting) + count <= at_most:
            for child in candidate.children:
                add(child)
        else:
            done.append(candidate.cell.number)
    return normalized(done)


def candidate_of(region: Region, cell: Cell) -> Optional[Candidate]:
    """A cell that meets the region as a candidate; None if none of its children meets it."""
    if cell.side == 1 or region.contains(cell):
        return Candidate(cell, ())
    children = tuple(child for child in cell.children() if region.meets(child))
    if not children:
        return None
    if len(children) == 4 and all(region.contains(child) for child in children):
        return Candidate(cell, ())
    return Candidate(cell, children)


def merged(covers: Iterable[Iterable[int]], at_most: int) -> List[int]:
    """At most so many cells that contain those of all these covers."""
    numbers = normalized(number for numbers in covers for number in numbers)
    return numbers if len(numbers) <= at_most else cover(Union(numbers), at_most)
