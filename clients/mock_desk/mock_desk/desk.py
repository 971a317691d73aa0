"""What a desk decides: states, the order of refusals in a PUT, conflicts, and the answers' text."""
from __future__ import annotations

import json
from typing import Any, Callable, Dict, Iterator, List, NamedTuple, Optional, Tuple

from . import cells
from .bodies import Put, Volume, read_extent, read_put, shown_volume
from .requests import Address, Refusal, Request, address_of, next_request
from .store import Plan, Store

HORIZON = 2_592_000
PLANS_MOST = 200
PHRASES = {
    200: "OK",
    400: "Bad Request",
    403: "Forbidden",
    404: "Not Found",
    405: "Method Not Allowed",
    413: "Payload Too Large",
    501: "Not Implemented",
}
# What is asked, from left to right: the columns of STEPS.
COLUMNS = ("Planned", "Nominal", "OffNominal", "Contingent", "Closed")
# The step by the state of the stored plan and the column: one in capitals is made, the others are notes of refusals.
STEPS = {
    "None": ("CHECK", "CHECK", "state", "state", "not_planned"),
    "Planned": ("CHECK", "CHECK", "REPORT", "REPORT", "CLOSE"),
    "Nominal": ("state", "CHECK", "REPORT", "REPORT", "CLOSE"),
    "OffNominal": ("state", "CHECK", "REPORT", "REPORT", "CLOSE"),
    "Contingent": ("state", "state", "state", "REPORT", "CLOSE"),
    "Closed": ("closed", "closed", "closed", "closed", "CLOSE"),
}


class Conflict(NamedTuple):
    """The first blocked point of a plan, and the greatest priority that is held there."""

    leaf: int
    altitude: int
    second: int
    priority: int

    def shown(self) -> Dict[str, Any]:
        """The member `conflict` of an answer."""
        place = {"altitude": self.altitude, "cell": f"{self.leaf:016x}"}
        return {**place, "priority": self.priority, "second": self.second}


def status_of(plan: Optional[Plan]) -> str:
    """The status of a stored plan."""
    if plan is None:
        return "NotPlanned"
    if plan.usage != "InUse":
        return plan.usage
    return "OkToFly" if plan.aircraft == "Nominal" else "OffNominal"


def state_of(plan: Optional[Plan]) -> str:
    """The row of STEPS that a stored plan stands in."""
    if plan is None:
        return "None"
    return plan.aircraft if plan.usage == "InUse" else plan.usage


def step_of(stored: Optional[Plan], asked: Put) -> str:
    """What the table of states says to a request."""
    row = state_of(stored)
    if asked.usage == "Planned" and asked.aircraft != "Nominal":
        return "closed" if row == "Closed" else "state"
    column = asked.aircraft if asked.usage == "InUse" else asked.usage
    return STEPS[row][COLUMNS.index(column)]


def first_shared(one: Volume, other: Volume) -> Optional[Tuple[int, int, int]]:
    """The least leaf, altitude and second that two volumes share; None if they share no point."""
    altitude, second = max(one.lower, other.lower), max(one.start, other.start)
    if altitude >= min(one.upper, other.upper) or second >= min(one.end, other.end):
        return None
    leaf = cells.first_common(one.ranges, other.ranges)
    return None if leaf is None else (leaf, altitude, second)


def has_point(volume: Volume, point: Tuple[int, int, int]) -> bool:
    """Whether a volume has a leaf, altitude and second."""
    leaf, altitude, second = point
    in_window = volume.lower <= altitude < volume.upper and volume.start <= second < volume.end
    return in_window and cells.has_leaf(volume.ranges, leaf)


def first_conflict(
    area: Tuple[Volume, ...], priority: int, others: List[Plan], equal: Tuple[int, ...]
) -> Optional[Conflict]:
    """The least point of an area that others block for a priority."""
    blocking = [it for it in others if it.priority > priority or it.priority == priority and priority not in equal]
    pairs = ((own, its) for plan in blocking for its in plan.area for own in area)
    point = min(filter(None, (first_shared(own, its) for own, its in pairs)), default=None)
    if point is None:
        return None
    return Conflict(*point, max(it.priority for it in blocking if any(has_point(its, point) for its in it.area)))


class Desk:
    """A store of operators and plans, the permitted equal priorities, the most spans of an operator's live plans and
    the most cells of all its plans (None: any number), and the moment of a request."""

    def __init__(
        self,
        store: Store,
        equal: Tuple[int, ...],
        clock: Callable[[], int],
        spans: Optional[int] = None,
        most_cells: Optional[int] = None,
    ) -> None:
        self.store, self.equal, self.clock = store, equal, clock
        self.spans, self.most_cells = spans, most_cells

    def answer(self, request: Request) -> bytes:
        """The whole answer to a request, whose change is made."""
        try:
            address = address_of(request)
            asked = self.read_body(address, request)
            if address.operator not in self.store.ceilings:
                raise Refusal(403, "unknown_operator")
            return answer_text(200, self.reply(address, asked, request.method))
        except Refusal as refusal:
            return refusal_text(refusal)

    def read_body(self, address: Address, request: Request) -> Any:
        """What the body of a PUT or a POST asks; None for the others, whose bodies are passed over."""
        if request.method == "PUT":
            return read_put(request.body)
        return read_extent(request.body) if request.method == "POST" else None

    def reply(self, address: Address, asked: Any, method: str) -> Dict[str, Any]:
        """The body of the answer to an operator that is enrolled."""
        operator = address.operator
        if address.resource == "status":
            return {"status": "Ready"}
        if address.resource == "list":
            return {"flight_plans": [self.shown(operator, it) for it in sorted(self.store.plans[operator])]}
        if address.resource == "clear":
            return self.clear(operator, asked)
        if method == "PUT":
            return self.put(operator, str(address.plan_id), asked)
        stored = self.store.plans[operator].get(str(address.plan_id))
        if stored is None:
            raise Refusal(404, "no_such_plan")
        if method == "GET":
            return self.shown(operator, str(address.plan_id))
        self.store.save(operator, str(address.plan_id), stored._replace(usage="Closed"))
        return decision("Closed", "", "Completed")

    def others(self, operator: str, plan_id: str) -> List[Plan]:
        """The live plans of all operators but this one."""
        filed = ((name, key, plan) for name, plans in self.store.plans.items() for key, plan in plans.items())
        return [plan for name, key, plan in filed if (name, key) != (operator, plan_id) and plan.usage != "Closed"]

    def conflict(self, operator: str, plan_id: str, area: Tuple[Volume, ...], priority: int) -> Optional[Conflict]:
        """The conflict that an operator's plan has, or would have."""
        return first_conflict(area, priority, self.others(operator, plan_id), self.equal)

    def shown(self, operator: str, plan_id: str) -> Dict[str, Any]:
        """A stored plan with its status and, while it is live, its conflict."""
        plan = self.store.plans[operator][plan_id]
        shown = {
            "area": [shown_volume(volume) for volume in plan.area],
            "flight_plan_id": plan_id,
            "flight_plan_status": status_of(plan),
            "priority": plan.priority,
            "uas_state": plan.aircraft,
            "usage_state": plan.usage,
        }
        found = None if plan.usage == "Closed" else self.conflict(operator, plan_id, plan.area, plan.priority)
        return {**shown, "conflict": found.shown()} if found else shown

    def clear(self, operator: str, extent: Volume) -> Dict[str, Any]:
        """Removes the operator's plans that share a point with the extent."""
        plans = self.store.plans[operator]
        cleared = [it for it, plan in plans.items() if any(first_shared(extent, its) for its in plan.area)]
        for plan_id in cleared:
            self.store.remove(operator, plan_id)
        return {"outcome": {"message": f"cleared {len(cleared)}", "success": True}}

    def put(self, operator: str, plan_id: str, asked: Put) -> Dict[str, Any]:
        """Decides a PUT, and stores what it asks if nothing refuses it."""
        stored = self.store.plans[operator].get(plan_id)
        step = step_of(stored, asked)
        note = self.note_of(operator, plan_id, asked, step)
        found = None
        if not note and step == "CHECK":
            found = self.conflict(operator, plan_id, asked.area, asked.priority)
            note = "conflict" if found else ""
        if note:
            refused = decision(status_of(stored), note, "NotSupported" if note == "style" else "Rejected")
            return {**refused, "conflict": found.shown()} if found else refused
        after = Plan(asked.priority, asked.usage, asked.aircraft, asked.area)
        if step == "CLOSE" and stored:
            after = stored._replace(usage="Closed")
        if asked.style != "Hypothetical":
            self.store.save(operator, plan_id, after)
        return decision(status_of(after), "", "Completed")

    def note_of(self, operator: str, plan_id: str, asked: Put, step: str) -> str:
        """The note of the first refusal but that for a conflict; empty if there is none."""
        moment = self.clock()
        reports = asked.usage == "InUse" and asked.aircraft != "Nominal"
        if asked.style == "InReality" and not reports and asked.usage != "Closed":
            return "style"
        if step not in ("CHECK", "REPORT", "CLOSE"):
            return step
        if step == "CHECK" and any(it.end <= moment for it in asked.area):
            return "ended"
        if step == "CHECK" and any(it.start > moment + HORIZON for it in asked.area):
            return "horizon"
        if step != "CLOSE" and asked.priority > self.store.ceilings[operator]:
            return "priority"
        plans = self.store.plans[operator]
        if step != "CLOSE" and plan_id not in plans and len(plans) >= PLANS_MOST:
            return "plans_limit"
        return "" if step == "CLOSE" else self.excess(operator, plan_id, asked.area)

    def excess(self, operator: str, plan_id: str, area: Tuple[Volume, ...]) -> str:
        """The note of the limit that the operator's other plans and a plan of an area would exceed; empty if there is
        none. Closed plans take no spans, and keep their cells."""
        others = [plan for it, plan in self.store.plans[operator].items() if it != plan_id]
        live = [plan.area for plan in others if plan.usage != "Closed"]
        if self.spans is not None and sum(map(span_count, [area, *live])) > self.spans:
            return "spans_limit"
        kept = [plan.area for plan in others]
        if self.most_cells is not None and sum(map(cell_count, [area, *kept])) > self.most_cells:
            return "cells_limit"
        return ""


def span_count(area: Tuple[Volume, ...]) -> int:
    """How many spans a plan of an area takes: one for each range of each of its volumes."""
    return sum(len(volume.ranges) for volume in area)


def cell_count(area: Tuple[Volume, ...]) -> int:
    """How many cells a plan of an area has: of each of its volumes those that are listed, or a rectangle's cover."""
    return sum(cells.cover_size(it.asked) if isinstance(it.asked, cells.Rectangle) else len(it.asked) for it in area)


def decision(status: str, note: str, result: str) -> Dict[str, Any]:
    """The body of the answer to a PUT or a DELETE, but for its conflict."""
    return {"flight_plan_status": status, "notes": note, "planning_result": result}


def answer_text(status: int, body: Dict[str, Any], allow: Tuple[str, ...] = ()) -> bytes:
    """The bytes of an answer."""
    text = json.dumps(body, sort_keys=True, separators=(",", ":")).encode()
    head = [
        f"HTTP/1.1 {status} {PHRASES[status]}",
        "content-type: application/json",
        f"content-length: {len(text)}",
        *([f"allow: {', '.join(allow)}"] if allow else []),
        "connection: close",
    ]
    return "".join(f"{line}\r\n" for line in [*head, ""]).encode() + text


def refusal_text(refusal: Refusal) -> bytes:
    """The bytes of an answer that refuses a request."""
    return answer_text(refusal.status, {"error": refusal.word}, refusal.allow)


def play(desk: Desk, given: bytes) -> Iterator[Tuple[bytes, str]]:
    """The answers to an input, one after the other, each with the word by which it ends: empty while it goes on."""
    while given:
        try:
            request, length = next_request(given)
        except Refusal as refusal:
            yield refusal_text(refusal), "unframed"
            return
        if request is None:
            yield b"", "cut_short"
            return
        yield desk.answer(request), ""
        given = given[length:]
