"""The commands that look: list, show, why, check; and those that ask nobody: cells, body."""
from __future__ import annotations

import json
from typing import Any, Sequence

from uss_desk_client.areas import Volume
from uss_desk_client.bodies import put_body
from uss_desk_client.checking import check
from uss_desk_client.flights import area_asked, document_of, tokens_of
from uss_desk_client.geojson import collection, features_of_plan, features_of_reasons, lines_in
from uss_desk_client.options import desk_of
from uss_desk_client.picture import headline, numbered, page_of, svg_of, windows
from uss_desk_client.printing import DONE, REFUSED, WORDS, fail, plan_json, print_json, rectangle_told, row_of, table
from uss_desk_client.printing import write
from uss_desk_client.units import time_text
from uss_desk_client.why import Reasons, why

COLUMNS = ("id", "status", "priority", "from (UTC)", "to (UTC)", "metres", "cells", "conflict")


def run_list(asked: Any) -> int:
    plans = desk_of(asked).plans()
    if asked.json:
        print_json([plan_json(plan) for plan in plans])
    elif asked.geojson:
        print_json(collection(one for plan in plans for one in features_of_plan(plan)))
    elif not plans:
        print("no plans")
    else:
        print(table(COLUMNS, map(row_of, plans)))
    return DONE


def run_show(asked: Any) -> int:
    plan = desk_of(asked).show(asked.id)
    if asked.body:
        print_json(plan.body())
    elif asked.json:
        print_json(plan_json(plan))
    elif asked.geojson:
        print_json(collection(features_of_plan(plan)))
    else:
        print(f"{plan.plan_id}  {plan.status} ({plan.usage}, {plan.aircraft}), priority {plan.priority}")
        rows = [volume_row(at, volume) for at, volume in enumerate(plan.area)]
        print(table(("volume", "from", "to", "lower m", "upper m", "cells"), rows))
        print(f"conflict: {plan.conflict}" if plan.conflict else "no conflict")
    return DONE


def volume_row(at: int, volume: Volume) -> Sequence[str]:
    return (
        str(at),
        time_text(volume.start),
        time_text(volume.end),
        f"{volume.lower_metres:g}",
        f"{volume.upper_metres:g}",
        rectangle_told(volume.rectangle) if volume.rectangle else str(len(volume.cells)),
    )


def run_why(asked: Any) -> int:
    is_svg = bool(asked.picture) and asked.picture.endswith(".svg")
    if asked.picture and not is_svg and not asked.picture.endswith((".html", ".htm")):
        return fail("--picture is a FILE.svg or a FILE.html", WORDS)
    reasons = why(desk_of(asked), area_asked(asked, is_even=True), asked.priority, asked.id)
    if asked.geojson:
        write(asked.geojson, json.dumps(collection(features_of_reasons(reasons))) + "\n")
    if asked.picture:
        write(asked.picture, (svg_of if is_svg else page_of)(reasons, lines_in(document_of(asked), asked.radius)))
    if asked.json:
        print_json(reasons_json(reasons))
    elif asked.geojson != "-":
        print_reasons(reasons)
    return REFUSED if reasons.blocked else DONE


def reasons_json(reasons: Reasons) -> Any:
    blocked = [{"cell": it.cell, "conflict": it.conflict.to_json()} for it in reasons.blocked]
    return {"blocked": blocked, "free_cells": reasons.free_cells, "requests": reasons.requests}


def print_reasons(reasons: Reasons) -> None:
    """The blocked cells in a table."""
    print(headline(reasons))
    print(windows(reasons))
    rows = [
        (
            str(number),
            it.cell,
            str(it.conflict.priority),
            f"{it.conflict.altitude_metres:g}",
            time_text(it.conflict.second),
            f"{it.conflict.latitude:.6f}",
            f"{it.conflict.longitude:.6f}",
        )
        for number, it in numbered(reasons)
    ]
    if rows:
        print("The first blocked point of each:")
        print(table(("cell", "token", "priority held", "metres", "time", "latitude", "longitude"), rows))


def run_check(asked: Any) -> int:
    with open(asked.file, "rb") as file:
        fault = check(file.read())
    if asked.json:
        print_json(None if fault is None else {**fault.__dict__, "text": str(fault)})
    else:
        print(fault or "nothing in this body would be refused for its form")
    return REFUSED if fault else DONE


def run_cells(asked: Any) -> int:
    tokens = tokens_of(asked, document_of(asked))
    if asked.json:
        print_json(tokens)
    else:
        print("\n".join(tokens))
    return DONE


def run_body(asked: Any) -> int:
    usage = "InUse" if asked.activate else "Planned"
    print_json(put_body(area_asked(asked), usage, "Nominal", asked.priority, "IfAllowed"))
    return DONE
