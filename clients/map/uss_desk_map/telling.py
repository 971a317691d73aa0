"""What the client's values are in the page's JSON."""
from __future__ import annotations

from typing import Any, Dict, List, Optional, Sequence, Tuple

from uss_desk_client import Answer, AreaError, BadAnswer, Blocked, Conflict, DeskError, NoAnswer, Plan, Refused
from uss_desk_client import Search, ShapeError, UnitError, Volume
from uss_desk_map.altitudes import Altitudes
from uss_desk_map.drafts import Wrong
from uss_desk_map.ground import Ring, ring_of_rectangle, rings_of

Told = Dict[str, Any]
ADVICE = {
    "conflict": "a point of the flight is blocked: avoid it, take another time, or use a higher priority",
    "state": "the plan's state doesn't allow this: look at it again",
    "not_planned": "there is no plan with this id to close: it was cleared",
}
"""What to do in the page, where that isn't what a programmer does."""
PASSWORD = "; put the right password into the file that this map reads: it is read for each request"

TOO_MANY = "too many requests in a short time: wait some seconds, and ask again"


def conflict_told(conflict: Optional[Conflict]) -> Optional[Told]:
    """A conflict in metres and degrees."""
    if conflict is None:
        return None
    return {
        "cell": conflict.cell,
        "latitude": conflict.latitude,
        "longitude": conflict.longitude,
        "altitude": conflict.altitude_metres,
        "second": conflict.second,
        "priority": conflict.priority,
    }


def answer_told(answer: Answer) -> Told:
    return {
        "result": answer.result,
        "status": answer.status,
        "note": answer.note,
        "advice": "" if answer.is_completed else ADVICE.get(answer.note, answer.advice),
        "conflict": conflict_told(answer.conflict),
        "was_lost": answer.was_lost,
    }


def plan_told(plan: Plan) -> Told:
    outlines: Dict[Tuple[str, ...], List[Ring]] = {}
    return {
        "id": plan.plan_id,
        "status": plan.status,
        "usage": plan.usage,
        "aircraft": plan.aircraft,
        "priority": plan.priority,
        "conflict": conflict_told(plan.conflict),
        "volumes": [volume_told(volume, outlines) for volume in plan.area],
    }


def volume_told(volume: Volume, outlines: Dict[Tuple[str, ...], List[Ring]]) -> Told:
    """A volume with its outlines, which are kept for volumes over the same cells."""
    if volume.cells not in outlines:
        outlines[volume.cells] = rings_of(volume.cells)
    return {
        "lower": volume.lower_metres,
        "upper": volume.upper_metres,
        "start": volume.start,
        "end": volume.end,
        "cells": list(volume.cells),
        "is_rectangle": volume.rectangle is not None,
        "rings": [ring_of_rectangle(volume.rectangle)] if volume.rectangle else outlines[volume.cells],
    }


def blocked_told(blocked: Sequence[Blocked]) -> List[Told]:
    return [
        {"cell": it.cell, "ring": rings_of([it.cell])[0], "conflict": conflict_told(it.conflict)} for it in blocked
    ]


def altitudes_told(found: Altitudes) -> Told:
    """What is known of the altitudes of a drawing, as far as they are filled in."""
    ground = found.ground_above_sea
    told: Told = {"ground": ground, "lower": None, "upper": None, "warning": "", "is_below": False}
    try:
        lower, upper = found.flight
    except AreaError:
        return told
    return {**told, "lower": lower, "upper": upper, "warning": found.warning, "is_below": found.is_below_ground}


def search_told(found: Search) -> Told:
    """What is known of the times at which a flight is free."""
    return {
        "from": found.within.start,
        "to": found.within.end,
        "requests": found.requests,
        "decided": found.decided,
        "free": [[window.start, window.end] for window in found.windows],
        "own": [{"id": own.plan_id, "start": own.window.start, "end": own.window.end} for own in found.own],
        "is_done": found.is_done,
        "is_whole": found.is_whole,
    }


def trouble_of(why: Exception) -> Optional[Told]:
    """Why nothing came of a request, in words; None of an error that is this server's own."""
    if isinstance(why, (ShapeError, UnitError, AreaError, Wrong)):
        return trouble("drawn", "", str(why))
    if isinstance(why, Refused):
        told = trouble("refused", why.word, str(why.fault or why.advice))
        return {**told, "text": told["text"] + PASSWORD} if why.word == "unauthorized" else told
    if isinstance(why, NoAnswer):
        told = trouble("too_many", "", TOO_MANY) if why.last.startswith("429") else trouble("no_answer", "", str(why))
        return {**told, "may_stand": why.may_stand}
    if isinstance(why, BadAnswer):
        return trouble("other_server", "", str(why))
    if isinstance(why, DeskError):
        return trouble("refused", "", str(why))
    if isinstance(why, OSError):
        return trouble("password", "", f"the file of the password can't be read: {why.strerror}")
    return None


def trouble(kind: str, word: str, told: str) -> Told:
    return {"kind": kind, "word": word, "text": told, "may_stand": False}
