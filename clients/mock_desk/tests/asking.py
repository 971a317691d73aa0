"""Requests and answers of the tests, at the moment 1780315000, which is 2026-06-01T11:56:40Z."""
from __future__ import annotations

import json
from typing import Any, Dict, List, Optional, Tuple

from mock_desk.desk import Desk, play
from mock_desk.store import Store

MOMENT = 1780315000
ID = "11111111-1111-4111-8111-111111111111"
NOON = "2026-06-01T12:00:00Z"
ONE = "2026-06-01T13:00:00Z"


def desk(
    equal: Tuple[int, ...] = (),
    moment: int = MOMENT,
    path: str = ":memory:",
    spans: Optional[int] = None,
    most_cells: Optional[int] = None,
    **ceilings: int,
) -> Desk:
    """A desk of operators with their ceilings; of alfa and bravo with 100 if none is named."""
    store = Store(path)
    for name, ceiling in (ceilings or {"alfa": 100, "bravo": 100}).items():
        store.enrol(name, ceiling)
    return Desk(store, equal, lambda: moment, spans, most_cells)


def request(method: str, path: str, operator: str = "alfa", body: Optional[Any] = None) -> bytes:
    """The bytes of a request."""
    text = b"" if body is None else body if isinstance(body, bytes) else json.dumps(body).encode()
    return (
        f"{method} {path} HTTP/1.1\r\nx-operator: {operator}\r\ncontent-length: {len(text)}\r\n\r\n".encode() + text
    )


def ask(at: Desk, *given: Any, **named: Any) -> Tuple[int, Dict[str, Any]]:
    """The status and the body of the answer to one request."""
    ((answer, word),) = play(at, request(*given, **named))
    assert not word
    head, _, body = answer.partition(b"\r\n\r\n")
    return int(head.split()[1]), json.loads(body)


def volume(
    cells: Any = ("04",), lower: int = 0, upper: int = 1000, start: str = NOON, end: str = ONE, **more: Any
) -> Dict[str, Any]:
    """A volume as JSON."""
    block = {"altitude_lower": lower, "altitude_upper": upper, "cells": cells and list(cells), **more}
    times = {"time_start": {"format": "RFC3339", "value": start}, "time_end": {"format": "RFC3339", "value": end}}
    return {"volume": block, **times}


def plan(
    *area: Dict[str, Any],
    priority: int = 10,
    usage: str = "Planned",
    aircraft: str = "Nominal",
    style: str = "IfAllowed",
) -> Dict[str, Any]:
    """The body of a PUT."""
    volumes: List[Dict[str, Any]] = list(area) or [volume()]
    basic = {"usage_state": usage, "uas_state": aircraft, "area": volumes}
    return {
        "execution_style": style,
        "flight_plan": {"astm_f3548_21": {"priority": priority}, "basic_information": basic},
    }


def put(at: Desk, operator: str, plan_id: str, *area: Dict[str, Any], **how: Any) -> Tuple[str, str, str]:
    """The result, the status and the note of a PUT."""
    status, body = ask(at, "PUT", f"/flight_plans/{plan_id}", operator, plan(*area, **how))
    assert status == 200
    return body["planning_result"], body["flight_plan_status"], body["notes"]
