"""What changes at an operator's plans from one List to the next: above all, whether somebody is planned over one."""
from __future__ import annotations

from dataclasses import dataclass
from typing import Any, Callable, Dict, Iterable, List, Optional, Sequence, Tuple

from uss_desk_client.answers import Conflict, Plan
from uss_desk_client.areas import Volume
from uss_desk_client.grid import share_a_point

EVERY = 60.0
"""Seconds from one look to the next."""
LEAST_EVERY = 10.0
"""The least of them: half of the twelve Lists a minute that deploy/nginx.conf permits an operator."""

BLOCKED, BLOCKED_OTHERWISE, FREE = "blocked", "blocked_otherwise", "free_again"
NEW, GONE = "new", "gone"
STATUS, PRIORITY, AREA = "status", "priority", "area"


@dataclass(frozen=True)
class Change:
    """What changed at one plan."""

    plan_id: str
    what: Tuple[str, ...]
    """`blocked` (it has a conflict now), `blocked_otherwise` (another one), `free_again`, `new`, `gone`, `status`,
    `priority`, `area`."""
    before: Optional[Plan]
    """None of a new plan, and at the first look."""
    now: Optional[Plan]
    """None of a plan that is gone."""
    own: str = ""
    """The id of the operator's own plan that is over it at the first blocked point; empty if there is none."""

    @property
    def is_blocked(self) -> bool:
        """Whether somebody is planned over it now, or otherwise than before."""
        return BLOCKED in self.what or BLOCKED_OTHERWISE in self.what

    def to_json(self) -> Dict[str, Any]:
        return {
            "flight_plan_id": self.plan_id,
            "what": list(self.what),
            "before": None if self.before is None else told_of(self.before),
            "now": None if self.now is None else told_of(self.now),
            "own": self.own or None,
            "text": str(self),
        }

    def __str__(self) -> str:
        who = f"your own plan {self.own}" if self.own else "somebody"
        return f"{self.plan_id}  " + "; ".join(SAID[one](self.before, self.now) for one in self.what).format(who=who)


Said = Callable[[Optional[Plan], Optional[Plan]], str]


def said_of_change(name: str) -> Said:
    return lambda before, now: f"{name}: {getattr(before, name, 'none')} is now {getattr(now, name, 'none')}"


SAID: Dict[str, Said] = {
    BLOCKED: lambda _, now: f"{{who}} is planned over it: {now.conflict if now else ''}",
    BLOCKED_OTHERWISE: lambda _, now: f"{{who}} is planned over it elsewhere now: {now.conflict if now else ''}",
    FREE: lambda *_: "nobody is planned over it any more",
    NEW: lambda _, now: f"a new plan: {now.status if now else ''}",
    GONE: lambda *_: "the plan is gone: it was cleared",
    STATUS: said_of_change("status"),
    PRIORITY: said_of_change("priority"),
    AREA: lambda *_: "its area is another",
}


class Watch:
    """Compares the operator's plans with those of the look before. `look` asks for them once."""

    def __init__(self, plans: Callable[[], Sequence[Plan]]) -> None:
        self._plans = plans
        self._seen: Optional[Dict[str, Plan]] = None

    def look(self) -> List[Change]:
        """What changed since the look before; at the first look the plans that others are planned over. If the plans
        can't be had, the error of that is raised, and the next look compares with what was seen last."""
        now = {plan.plan_id: plan for plan in self._plans()}
        seen, self._seen = self._seen, now
        if seen is None:
            return [self._change(name, (BLOCKED,), None, plan) for name, plan in now.items() if plan.conflict]
        found = [(name, seen.get(name), now.get(name)) for name in sorted({*seen, *now})]
        changes = [self._change(name, what_changed(before, after), before, after) for name, before, after in found]
        return [change for change in changes if change.what]

    def _change(self, name: str, what: Tuple[str, ...], before: Optional[Plan], now: Optional[Plan]) -> Change:
        return Change(name, what, before, now, own_over(now, (self._seen or {}).values()))


def own_over(plan: Optional[Plan], plans: Iterable[Plan]) -> str:
    """The id of the first of an operator's live plans that is over a plan at its first blocked point."""
    if plan is None or plan.conflict is None:
        return ""
    point = plan.conflict
    there = [Volume((point.cell,), point.altitude, point.altitude + 1, point.second, point.second + 1)]
    over = [one for one in plans if one.is_live and one.priority == point.priority and one.plan_id != plan.plan_id]
    return next((one.plan_id for one in over if share_a_point(one.area, there)), "")


def what_changed(before: Optional[Plan], now: Optional[Plan]) -> Tuple[str, ...]:
    """The words of what changed at a plan, the most urgent first."""
    if now is None:
        return (GONE,)
    conflict = conflict_changed(before.conflict if before else None, now.conflict)
    if before is None:
        return (*conflict, NEW)
    parts = ((STATUS, before.status, now.status), (PRIORITY, before.priority, now.priority))
    changed = [name for name, one, other in parts if one != other]
    return (*conflict, *changed, *((AREA,) if before.area != now.area else ()))


def conflict_changed(before: Optional[Conflict], now: Optional[Conflict]) -> Tuple[str, ...]:
    if before == now:
        return ()
    if now is None:
        return (FREE,)
    return (BLOCKED,) if before is None else (BLOCKED_OTHERWISE,)


def told_of(plan: Plan) -> Dict[str, Any]:
    """A plan without its area, for whoever is notified."""
    conflict = plan.conflict
    return {
        "flight_plan_status": plan.status,
        "priority": plan.priority,
        "conflict": None if conflict is None else conflict.to_json(),
    }
