"""What the page may ask: each call by its name, its words as JSON, its answer as JSON or step by step."""
from __future__ import annotations

import time
from typing import Any, Callable, Dict, Iterator, List, Mapping, NamedTuple, Optional

from uss_desk_client import Answer, AreaError, Desk, DeskError, NoSuchPlan, NotTaken, Plan, limits, looks, searches
from uss_desk_client import share_a_point, square_metres, square_metres_of_cells
from uss_desk_client.extents import LARGE
from uss_desk_map.drafts import Draft, Wrong, listed, number, text, whole
from uss_desk_map.ground import grid_over, rings_of
from uss_desk_map.telling import Told, altitudes_told, answer_told, blocked_told, plan_told, search_told

Words = Mapping[str, Any]
USAGES = ("Planned", "InUse")
STATUS_PATIENCE = 1.0
"""Seconds after which a desk that is asked whether it is there is told as not there."""
MOST_SHOWN = 200


class Call(NamedTuple):
    """How a call is carried out. Changes are made one after the other."""

    run: Callable[[Desk, Words], Told]
    is_change: bool = False


# ---- looking


def status(desk: Desk, _: Words) -> Told:
    return {"status": desk.status(STATUS_PATIENCE)}


def plans(desk: Desk, _: Words) -> Told:
    return {"plans": [plan_told(plan) for plan in desk.plans()], "second": int(time.time())}


def show(desk: Desk, words: Words) -> Told:
    """Some plans one by one, and which of them aren't there any more."""
    found: List[Told] = []
    gone: List[str] = []
    for plan_id in ids_in(words):
        try:
            found.append(plan_told(desk.show(plan_id)))
        except NoSuchPlan:
            gone.append(plan_id)
    return {"plans": found, "gone": gone, "second": int(time.time())}


def ids_in(words: Words) -> List[str]:
    ids = listed(words, "ids")
    if len(ids) > MOST_SHOWN or not all(isinstance(one, str) for one in ids):
        raise Wrong(f"ids are at most {MOST_SHOWN} texts")
    return list(ids)


def cover(words: Words) -> Told:
    """The cells that a draft takes, and how large they and its shape are."""
    draft = draft_in(words)
    tokens, shape = draft.tokens, draft.shape
    taken = square_metres_of_cells(tokens)
    drawn = None if shape is None else square_metres(shape)
    return {
        "cells": tokens,
        "rings": rings_of(tokens),
        "square_metres": taken,
        "shape_square_metres": drawn,
        "is_large": (taken if drawn is None else drawn) > LARGE * 1e6,
        "altitudes": altitudes_told(draft.altitudes(tokens)),
        **volumes_of(draft, tokens),
    }


def draft_in(words: Words) -> Draft:
    draft = words.get("draft")
    if not isinstance(draft, Draft):
        raise Wrong("there is no draft")
    return draft


def volumes_of(draft: Draft, tokens: List[str]) -> Told:
    """How many volumes a draft takes, or why it can't be planned as it is."""
    try:
        return {"volumes": len(draft.area(tokens)), "fault": ""}
    except (AreaError, ValueError) as why:
        return {"volumes": 0, "fault": str(why)}


def ground(words: Words) -> Told:
    """The grid of cells beneath a part of the map."""
    west, south, east, north = (number(words, name) for name in ("west", "south", "east", "north"))
    if not (-90 <= south <= north <= 90 and -1e6 < west <= east < 1e6):
        raise Wrong("that is no part of a map")
    return {"rings": grid_over(west, south, east, north, whole(words, "level", 0, 30))}


# ---- changing


def plan(desk: Desk, words: Words) -> Told:
    """Plans a draft under its id, or changes the plan that is stored there."""
    draft = draft_in(words)
    if draft.plan_id is None:
        raise Wrong("the draft has no id")
    if words.get("is_change") is True:
        return told_with_plan(desk, draft.plan_id, desk.change(draft.plan_id, draft.area(), draft.priority))
    return told_with_plan(desk, draft.plan_id, desk.plan(draft.plan_id, draft.area(), draft.priority))


def activate(desk: Desk, words: Words) -> Told:
    return told_with_plan(desk, text(words, "id"), desk.activate(text(words, "id")))


def report(desk: Desk, words: Words) -> Told:
    aircraft = text(words, "aircraft")
    if aircraft not in ("OffNominal", "Contingent"):
        raise Wrong("OffNominal or Contingent is reported")
    return told_with_plan(desk, text(words, "id"), desk.report(text(words, "id"), aircraft))


def close(desk: Desk, words: Words) -> Told:
    return told_with_plan(desk, text(words, "id"), desk.close(text(words, "id")))


def told_with_plan(desk: Desk, plan_id: str, answer: Answer) -> Told:
    """An answer, and the plan as it is stored then; None if there is none, or it couldn't be told now."""
    try:
        stored = plan_told(desk.show(plan_id))
    except (DeskError, OSError):
        stored = None
    return {"answer": answer_told(answer), "plan": stored}


def would_clear(desk: Desk, words: Words) -> Told:
    """The ids of the operator's plans that a clear of one of them removes: all that share a point with it."""
    plan_id = text(words, "id")
    stored = desk.plans()
    return {"ids": [one.plan_id for one in stored if shares(one, area_in(stored, plan_id), plan_id)]}


def area_in(stored: List[Plan], plan_id: str) -> Plan:
    for one in stored:
        if one.plan_id == plan_id:
            return one
    raise Wrong("there is no plan with this id any more")


def shares(one: Plan, cleared: Plan, plan_id: str) -> bool:
    return one.plan_id == plan_id or share_a_point(one.area, cleared.area)


def clear(desk: Desk, words: Words) -> Told:
    """Removes the plans that share a point with one of the operator's, this one too."""
    cleared = desk.clear(desk.show(text(words, "id")).area)
    return {"count": cleared.count, "was_lost": cleared.was_lost}


GROUND: Dict[str, Callable[[Words], Told]] = {"cover": cover, "ground": ground}
"""What is found without asking the desk."""
CALLS: Dict[str, Call] = {
    "status": Call(status),
    "plans": Call(plans),
    "show": Call(show),
    "would_clear": Call(would_clear),
    "plan": Call(plan, True),
    "activate": Call(activate, True),
    "report": Call(report, True),
    "close": Call(close, True),
    "clear": Call(clear, True),
}


# ---- step by step


def usage_in(words: Words) -> str:
    usage = text(words, "usage")
    if usage not in USAGES:
        raise Wrong("a usage is Planned or InUse")
    return usage


def why_blocked(desk: Desk, words: Words) -> Iterator[Told]:
    """Which cells of a draft are blocked, request by request; or the other reason for which it is refused."""
    draft, usage = draft_in(words), usage_in(words)
    requests = 0
    try:
        for one in looks(desk, draft.area(), draft.priority, draft.plan_id, usage):
            requests = one.requests
            yield {
                "requests": requests,
                "decided": one.decided,
                "cells": one.cells,
                "blocked": blocked_told(one.blocked),
            }
    except NotTaken as refused:
        yield {"refused": answer_told(refused.answer)}
        return
    yield {"is_done": True, "requests": requests}


def free_times(desk: Desk, words: Words) -> Iterator[Told]:
    """When a draft is free between two moments, request by request: the free times into which it fits, and the
    operator's own flights that are in its way."""
    draft, usage = draft_in(words), usage_in(words)
    within = tuple(whole(words, name, 0, limits.LAST_SECOND) for name in ("from", "to"))
    try:
        for found in searches(
            desk, draft.area(), (within[0], within[1]), priority=draft.priority, plan_id=draft.plan_id, usage=usage
        ):
            yield search_told(found)
    except NotTaken as refused:
        yield {"refused": answer_told(refused.answer)}


STEPS: Dict[str, Callable[[Desk, Words], Iterator[Told]]] = {"why": why_blocked, "free_times": free_times}


def next_step(steps: Iterator[Told]) -> Optional[Told]:
    """The next step of a call; None after the last one."""
    return next(steps, None)
