"""Which cells of a flight are blocked, found out by Hypothetical PUTs: nothing is stored.

The desk tells the least blocked leaf. So what lies before it is free, and the cells behind it are asked again: one
request for each blocked cell, and one more.
"""
from __future__ import annotations

from dataclasses import dataclass, replace
from typing import Iterator, List, Optional, Sequence, Tuple

from uss_desk_client.answers import Conflict, NotTaken
from uss_desk_client.areas import AreaError, Volume
from uss_desk_client.desk import Desk, NoSuchPlan
from uss_desk_client.tokens import id_of, leaves_of


@dataclass(frozen=True)
class Blocked:
    """A cell of a volume that is blocked, with its first blocked point."""

    cell: str
    volume: Volume
    """The volume that was asked, with all its cells."""
    conflict: Conflict


@dataclass(frozen=True)
class Reasons:
    """What blocks a flight: of each volume the blocked cells, ascending by id; all others are free."""

    area: Tuple[Volume, ...]
    priority: int
    blocked: Tuple[Blocked, ...]
    requests: int
    """How many PUTs were asked."""

    @property
    def blocked_cells(self) -> List[str]:
        """The cells that are blocked in some volume, each once."""
        return sorted({found.cell for found in self.blocked}, key=number_of)

    @property
    def free_cells(self) -> List[str]:
        """The cells that are blocked in no volume, each once."""
        cells = {cell for volume in self.area for cell in volume.cells}
        return sorted(cells - set(self.blocked_cells), key=number_of)


def number_of(token: str) -> int:
    """The id of a cell; an AreaError if the token names none."""
    number = id_of(token)
    if number is None:
        raise AreaError(f"{token!r} is the token of no cell")
    return number


@dataclass(frozen=True)
class Look:
    """What one request of many told."""

    requests: int
    """How many PUTs were asked until now."""
    decided: int
    """Cells of all volumes that are known to be free or blocked."""
    cells: int
    """Cells of all volumes."""
    blocked: Tuple[Blocked, ...]
    """The cells that this request has shown to be blocked."""


def looks(
    desk: Desk, area: Sequence[Volume], priority: int = 0, plan_id: Optional[str] = None, usage: Optional[str] = None
) -> Iterator[Look]:
    """What `why` finds, request by request: whoever takes no further look stops the asking. `usage` is that of the
    stored plan, InUse or Planned, if it is known. Errors as of `why`."""
    if any(volume.rectangle for volume in area):
        raise AreaError("of a rectangle it can't be told which of its cells are blocked: use cells")
    usage = usage or usage_of(desk, plan_id)
    requests, before, cells = 0, 0, sum(len(volume.cells) for volume in area)
    for volume in area:
        rest = sorted(volume.cells, key=number_of)
        while rest:
            requests += 1
            found, rest = look(desk, replace(volume, cells=tuple(rest)), priority, plan_id, usage)
            decided = before + len(volume.cells) - len(rest)
            yield Look(requests, decided, cells, tuple(replace(it, volume=volume) for it in found))
        before += len(volume.cells)


def look(
    desk: Desk, volume: Volume, priority: int, plan_id: Optional[str], usage: str
) -> Tuple[List[Blocked], List[str]]:
    """Asks for a volume whose cells ascend: those of them that are blocked by the least blocked leaf, and those that
    lie behind it and are still to be asked."""
    answer = desk.try_plan([volume], priority, plan_id, usage)
    if answer.is_completed:
        return [], []
    if not answer.conflict:
        raise NotTaken(answer)
    leaf = number_of(answer.conflict.cell)
    return (
        [Blocked(cell, volume, answer.conflict) for cell in volume.cells if has_leaf(cell, leaf)],
        [cell for cell in volume.cells if leaves_of(number_of(cell))[0] > leaf],
    )


def why(desk: Desk, area: Sequence[Volume], priority: int = 0, plan_id: Optional[str] = None) -> Reasons:
    """Which cells of an area are blocked for a flight of this priority. With the id of a stored plan its own version
    doesn't block. A NotTaken is raised if the flight is refused for another reason than a conflict; DeskErrors as of
    `Desk`; an AreaError if a volume has a rectangle in place of cells.
    """
    found: List[Blocked] = []
    requests = 0
    for one in looks(desk, area, priority, plan_id):
        found += one.blocked
        requests = one.requests
    return Reasons(tuple(area), priority, tuple(found), requests)


def usage_of(desk: Desk, plan_id: Optional[str]) -> str:
    """The usage to ask for: a plan that is in use can't be planned again."""
    if plan_id is None:
        return "Planned"
    try:
        return "InUse" if desk.show(plan_id).usage == "InUse" else "Planned"
    except NoSuchPlan:
        return "Planned"


def has_leaf(cell: str, leaf: int) -> bool:
    least, greatest = leaves_of(number_of(cell))
    return least <= leaf <= greatest
