"""What the command prints: tables, JSON, and lines on standard error."""
from __future__ import annotations

import json
import sys
from typing import Any, Dict, Iterable, Optional, Sequence

from uss_desk_client.answers import Answer, Plan
from uss_desk_client.areas import Rectangle, Volume
from uss_desk_client.units import datetime_of

DONE, REFUSED, WORDS, FILE, DESK = 0, 1, 2, 3, 4
"""The exit statuses."""


def warn(words: str) -> None:
    print(f"uss-plan: {words}", file=sys.stderr, flush=True)


def fail(words: str, status: int) -> int:
    warn(words)
    return status


def print_json(value: Any) -> None:
    print(json.dumps(value), flush=True)


def table(names: Sequence[str], rows: Iterable[Sequence[str]]) -> str:
    """Rows of words in columns, with their names above."""
    lines = [names, *rows]
    widths = [max(len(line[at]) for line in lines) for at in range(len(names))]
    return "\n".join("  ".join(word.ljust(width) for word, width in zip(line, widths)).rstrip() for line in lines)


def tell(asked: Any, plan_id: str, answer: Answer) -> int:
    """Prints an answer about a plan; the exit status."""
    if asked.json:
        print_json(answer_json(plan_id, answer))
    else:
        print(f"{plan_id}  {answer}")
    return DONE if answer.is_completed else REFUSED


def answer_json(plan_id: str, answer: Answer) -> Dict[str, Any]:
    return {
        "flight_plan_id": plan_id,
        "planning_result": answer.result,
        "flight_plan_status": answer.status,
        "notes": answer.note,
        "advice": answer.advice,
        "conflict": None if answer.conflict is None else answer.conflict.to_json(),
        "was_lost": answer.was_lost,
    }


def plan_json(plan: Plan) -> Dict[str, Any]:
    return {
        "flight_plan_id": plan.plan_id,
        "flight_plan_status": plan.status,
        "usage_state": plan.usage,
        "uas_state": plan.aircraft,
        "priority": plan.priority,
        "conflict": None if plan.conflict is None else plan.conflict.to_json(),
        "area": [volume.to_json() for volume in plan.area],
    }


def row_of(plan: Plan) -> Sequence[str]:
    """A plan as a row of the list."""
    area = plan.area
    return (
        plan.plan_id,
        plan.status,
        str(plan.priority),
        short(min(volume.start for volume in area)),
        short(max(volume.end for volume in area)),
        f"{min(volume.lower_metres for volume in area):g} to {max(volume.upper_metres for volume in area):g}",
        footprint(area),
        f"priority {plan.conflict.priority}" if plan.conflict else "",
    )


def footprint(area: Sequence[Volume]) -> str:
    """How many cells an area has, and rectangles."""
    cells = {cell for volume in area for cell in volume.cells}
    rectangles = {volume.rectangle for volume in area if volume.rectangle}
    told = f"{len(rectangles)} rectangle{'s' * (len(rectangles) > 1)}"
    return str(len(cells)) if not rectangles else f"{len(cells)} and {told}" if cells else told


def rectangle_told(rectangle: Rectangle) -> str:
    return (
        f"rectangle: face {rectangle.face}, i {rectangle.i_min} to {rectangle.i_max}, "
        f"j {rectangle.j_min} to {rectangle.j_max}, level {rectangle.level}"
    )


def short(second: int) -> str:
    return f"{datetime_of(second):%Y-%m-%d %H:%M}"


def write(path: str, words: str) -> None:
    """Writes into a file; - is the terminal."""
    if path == "-":
        sys.stdout.write(words)
        return
    with open(path, "w", encoding="utf-8") as file:
        file.write(words)


def is_answered(question: str) -> Optional[bool]:
    """Whether somebody at a terminal says yes; None if there is no terminal."""
    if not (sys.stdin.isatty() and sys.stderr.isatty()):
        return None
    print(f"uss-plan: {question} [y/N] ", end="", file=sys.stderr, flush=True)
    return sys.stdin.readline().strip().lower() in ("y", "yes")
