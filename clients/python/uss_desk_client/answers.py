"""What the desk answers, as values: results of requests, conflicts, plans."""
from __future__ import annotations

from dataclasses import dataclass
from datetime import datetime
from typing import Any, Dict, Mapping, Optional, Tuple

from uss_desk_client.areas import Volume
from uss_desk_client.bodies import put_body
from uss_desk_client.cells import cell_of
from uss_desk_client.errors import DeskError
from uss_desk_client.sphere import Place, place_at
from uss_desk_client.tokens import id_of
from uss_desk_client.units import datetime_of, time_text

COMPLETED = "Completed"

ADVICE = {
    "style": "the desk takes InReality only to report OffNominal or Contingent and to close: use IfAllowed",
    "closed": "the plan is closed and stays so: plan under a new id",
    "not_planned": "there is no plan with this id to close: list the plans",
    "ended": "a volume's time is over at the desk's clock: use later times, or clear the plan",
    "horizon": "a volume starts more than thirty days ahead: plan it later",
    "priority": "the priority is above the operator's ceiling: lower it, or ask the administrator of the desk",
    "plans_limit": "the operator has 200 plans, closed ones too: clear those whose time is over",
    "spans_limit": "the operator's live plans would take more spans than the administrator allows: close or clear"
    " plans, or ask for fewer cells",
    "cells_limit": "the operator's plans, closed ones too, would have more cells than the administrator allows: clear"
    " those whose time is over, or ask for fewer cells",
    "conflict": "a point of the flight is blocked: avoid it (uss-plan why draws where), take another time (uss-plan"
    " when finds one), or use a higher priority",
}
"""What to do after each note but `state`."""
STATE_ADVICE = {
    "NotPlanned": "there is no such plan: plan it first, and report when it is in use",
    "Planned": "the plan isn't in use yet: activate it, change it, report it or close it",
    "OkToFly": "the plan is in use and isn't planned again: change it while it stays in use, report it, or close it",
    "OffNominal": "the aircraft is reported off its plan: report where it may be now, or close the plan. Activate it to"
    " make it nominal again, unless it was reported Contingent",
    "Closed": "the plan is closed and stays so: plan under a new id",
}
"""What to do after the note `state`, by the status of the plan as it is stored."""
UNKNOWN_NOTE = "this client doesn't know that note: a later version may"


@dataclass(frozen=True)
class Conflict:
    """The first blocked point of a plan: the least by leaf id, then altitude, then second. Others may follow.

    Its leaf is in the covers of both flights, and may lie up to a cell's size outside of their shapes.
    """

    cell: str
    """The token of the leaf, always 16 digits."""
    altitude: int
    """Decimetres above the WGS84 ellipsoid."""
    second: int
    """A Unix second."""
    priority: int
    """The greatest priority that other plans hold at the point."""

    @classmethod
    def from_answer(cls, told: Mapping[str, Any]) -> Conflict:
        return cls(str(told["cell"]), int(told["altitude"]), int(told["second"]), int(told["priority"]))

    def to_json(self) -> Dict[str, Any]:
        """The point as the desk tells it, with its place, altitude and time for people."""
        return {
            "cell": self.cell,
            "altitude": self.altitude,
            "second": self.second,
            "priority": self.priority,
            "latitude": round(self.latitude, 7),
            "longitude": round(self.longitude, 7),
            "altitude_metres": self.altitude_metres,
            "time": time_text(self.second),
        }

    @property
    def place(self) -> Place:
        """The leaf's centre; a leaf is about a centimetre wide."""
        return place_at(cell_of(id_of(self.cell) or 1).at(0.5, 0.5))

    @property
    def longitude(self) -> float:
        """Degrees of the leaf's centre."""
        return self.place[0]

    @property
    def latitude(self) -> float:
        """Degrees of the leaf's centre."""
        return self.place[1]

    @property
    def altitude_metres(self) -> float:
        return self.altitude / 10

    @property
    def time(self) -> datetime:
        return datetime_of(self.second)

    def __str__(self) -> str:
        return (
            f"priority {self.priority} at {self.latitude:.6f} {self.longitude:.6f}, {self.altitude_metres:g} m, "
            f"{self.time:%Y-%m-%d %H:%M:%S}Z"
        )


@dataclass(frozen=True)
class Answer:
    """What came of a request to plan, change, report or close. `is_completed` says whether it was done."""

    result: str
    """`Completed`, `Rejected` or `NotSupported`."""
    status: str
    """The status of the plan as it is stored now: NotPlanned, Planned, OkToFly, OffNominal or Closed."""
    note: str = ""
    """Why it was refused, a word of docs/api.md; empty if it was done."""
    conflict: Optional[Conflict] = None
    """With the note `conflict`: the first blocked point."""
    was_lost: bool = False
    """The first answer was lost, and this one is what the desk showed, or answered when it was asked again."""

    @classmethod
    def from_answer(cls, told: Mapping[str, Any], was_lost: bool = False) -> Answer:
        conflict = told.get("conflict")
        return cls(
            str(told["planning_result"]),
            str(told["flight_plan_status"]),
            str(told.get("notes", "")),
            Conflict.from_answer(conflict) if conflict else None,
            was_lost,
        )

    @property
    def is_completed(self) -> bool:
        return self.result == COMPLETED

    @property
    def advice(self) -> str:
        """What to do; empty if it was done."""
        if self.is_completed:
            return ""
        if self.note == "state":
            return STATE_ADVICE.get(self.status, UNKNOWN_NOTE)
        return ADVICE.get(self.note, UNKNOWN_NOTE)

    def demand(self) -> Answer:
        """This answer if the request was done; else a NotTaken is raised."""
        if not self.is_completed:
            raise NotTaken(self)
        return self

    def __str__(self) -> str:
        where = f" ({self.conflict})" if self.conflict else ""
        return f"{self.result}, {self.status}" + ("" if self.is_completed else f": {self.note}{where}: {self.advice}")


class NotTaken(DeskError):
    """A request was decided, and refused; `answer` says why."""

    def __init__(self, answer: Answer) -> None:
        super().__init__(str(answer))
        self.answer = answer


@dataclass(frozen=True)
class Plan:
    """A plan of the operator, as it is stored."""

    plan_id: str
    status: str
    """Planned, OkToFly, OffNominal or Closed."""
    usage: str
    """Planned, InUse or Closed."""
    aircraft: str
    """Nominal, OffNominal or Contingent."""
    priority: int
    area: Tuple[Volume, ...]
    conflict: Optional[Conflict]
    """The first point at which the plan would be refused now, if it is live and there is one."""

    @classmethod
    def from_answer(cls, shown: Mapping[str, Any]) -> Plan:
        conflict = shown.get("conflict")
        return cls(
            str(shown["flight_plan_id"]),
            str(shown["flight_plan_status"]),
            str(shown["usage_state"]),
            str(shown["uas_state"]),
            int(shown["priority"]),
            tuple(Volume.from_answer(volume) for volume in shown["area"]),
            Conflict.from_answer(conflict) if conflict else None,
        )

    @property
    def is_live(self) -> bool:
        """Whether it is there for others: planned or in use."""
        return self.usage != "Closed"

    def body(self, style: str = "IfAllowed") -> Dict[str, Any]:
        """The body of a PUT that asks for the plan as it is stored. (A plan as it is shown can't be put again: its
        volumes have another form there.)"""
        return put_body(self.area, self.usage, self.aircraft, self.priority, style)


@dataclass(frozen=True)
class Cleared:
    """How many plans a clear removed."""

    count: int
    was_lost: bool = False
    """The first answer was lost: `count` has only what was left when the desk was asked again."""
