"""The commands that change plans: plan, activate, change, report, close, clear."""
from __future__ import annotations

from dataclasses import replace
from typing import Any, List, Optional, Sequence

from uss_desk_client.answers import Answer, Plan
from uss_desk_client.areas import Volume
from uss_desk_client.bodies import put_body
from uss_desk_client.desk import Desk, NoAnswer, new_id
from uss_desk_client.flights import area_asked, area_changed, area_cleared
from uss_desk_client.grid import share_a_point
from uss_desk_client.options import desk_of
from uss_desk_client.printing import DESK, DONE, fail, print_json, row_of, table, tell, warn


def run_plan(asked: Any) -> int:
    area, desk, plan_id = area_asked(asked), desk_of(asked), asked.id or new_id()
    try:
        if asked.dry_run:
            answer = desk.try_plan(area, asked.priority, plan_id, "InUse" if asked.activate else "Planned")
        else:
            answer = desk.plan(plan_id, area, asked.priority)
            if answer.is_completed and asked.activate:
                answer = desk.activate(plan_id, area, asked.priority)
    except NoAnswer as lost:
        return fail(f"{plan_id}: {lost}", DESK)
    return told(asked, plan_id, answer)


def told(asked: Any, plan_id: str, answer: Answer) -> int:
    if asked.dry_run:
        warn("nothing is stored: this is what would be answered")
    return tell(asked, plan_id, answer)


def put_stored(
    asked: Any,
    desk: Desk,
    stored: Plan,
    usage: str,
    aircraft: str,
    area: Optional[Sequence[Volume]] = None,
    priority: Optional[int] = None,
) -> int:
    """Puts a stored plan in another state, with another area or priority; with --dry-run it is only asked for."""
    style = "Hypothetical" if asked.dry_run else "IfAllowed"
    wanted = stored.priority if priority is None else priority
    body = put_body(stored.area if area is None else area, usage, aircraft, wanted, style)
    return told(asked, stored.plan_id, desk.put(stored.plan_id, body))


def run_activate(asked: Any) -> int:
    desk = desk_of(asked)
    return put_stored(asked, desk, desk.show(asked.id), "InUse", "Nominal")


def run_change(asked: Any) -> int:
    desk = desk_of(asked)
    stored = desk.show(asked.id)
    area = area_changed(asked, stored.area)
    if area is None and asked.priority is None:
        raise ValueError("nothing is to be changed: name a file with altitudes, --from, --to or --priority")
    usage = "InUse" if stored.usage == "InUse" else "Planned"
    return put_stored(asked, desk, stored, usage, "Nominal", area, asked.priority)


def run_report(asked: Any) -> int:
    desk = desk_of(asked)
    stored = desk.show(asked.id)
    aircraft = "Contingent" if asked.contingent else "OffNominal"
    return put_stored(asked, desk, stored, "InUse", aircraft, area_changed(asked, stored.area), asked.priority)


def run_close(asked: Any) -> int:
    desk = desk_of(asked)
    if not asked.dry_run:
        return tell(asked, asked.id, desk.close(asked.id))
    stored = desk.show(asked.id)
    return told(asked, asked.id, Answer("Completed", "Closed") if stored.status else Answer("Rejected", "NotPlanned"))


def run_clear(asked: Any) -> int:
    desk, area = desk_of(asked), area_cleared(asked)
    if asked.dry_run:
        return told_cleared(asked, [plan for plan in desk.plans() if share_a_point(plan.area, area)])
    cleared = desk.clear(area)
    if asked.json:
        print_json({"cleared": cleared.count, "was_lost": cleared.was_lost})
    else:
        print(f"cleared {cleared.count}" + (" or more: an answer was lost" if cleared.was_lost else ""))
    return DONE


def told_cleared(asked: Any, plans: List[Plan]) -> int:
    """Tells which plans would be cleared."""
    warn("nothing is cleared: these plans would be")
    if asked.json:
        print_json({"would_clear": [plan.plan_id for plan in plans]})
    else:
        names = ("id", "status", "priority", "from (UTC)", "to (UTC)", "metres", "cells", "conflict")
        print(table(names, [row_of(replace(plan, conflict=None)) for plan in plans]) if plans else "no plans")
    return DONE
