"""Requests as bytes, and the answers that an output is: what checks and measurements (bench/) ask the desk.

All are in the form of docs/api.md. Plans are in an hour of 2026-06-01, and MOMENT is 200 seconds before it.
"""

from __future__ import annotations

import json
import uuid
from collections.abc import Mapping, Sequence
from typing import Any, NamedTuple

MOMENT = 1_780_315_000
"""2026-06-01T11:56:40Z, the moment at which most of these requests are played."""
START, END = "2026-06-01T12:00:00Z", "2026-06-01T13:00:00Z"
FACES = ("1", "3", "5", "7", "9", "b")
"""The tokens of the six faces of the globe."""
READY = b'{"status":"Ready"}'

Json = dict[str, Any]


def plan_id(number: int) -> str:
    """The id of the plan of a number."""
    return str(uuid.UUID(int=number))


def request(method: str, path: str, operator: str, body: bytes = b"") -> bytes:
    """A request."""
    head = f"{method} {path} HTTP/1.1\r\nhost: desk\r\nx-operator: {operator}\r\ncontent-length: {len(body)}\r\n\r\n"
    return head.encode() + body


def with_body(method: str, path: str, operator: str, value: object) -> bytes:
    """A request with a body of JSON."""
    return request(method, path, operator, json.dumps(value, separators=(",", ":")).encode())


def moment(text: str) -> Json:
    """A moment of a volume."""
    return {"format": "RFC3339", "value": text}


def volume(shape: Mapping[str, Any], lower: int = 0, upper: int = 1000, start: str = START, end: str = END) -> Json:
    """A volume of a shape, cells or a rectangle, and altitudes in decimetres."""
    return {
        "time_end": moment(end),
        "time_start": moment(start),
        "volume": {"altitude_lower": lower, "altitude_upper": upper, **shape},
    }


def over(tokens: Sequence[str], lower: int = 0, upper: int = 1000) -> Json:
    """A volume of cells."""
    return volume({"cells": list(tokens)}, lower, upper)


def plan(
    area: Sequence[Json],
    priority: int | None = 10,
    style: str = "IfAllowed",
    usage: str = "Planned",
    aircraft: str = "Nominal",
) -> Json:
    """The body of a PUT."""
    basic = {"area": list(area), "uas_state": aircraft, "usage_state": usage}
    asked = {} if priority is None else {"astm_f3548_21": {"priority": priority}}
    return {"execution_style": style, "flight_plan": {**asked, "basic_information": basic}, "request_id": "r1"}


def put(
    operator: str,
    identity: object,
    area: Sequence[Json],
    priority: int | None = 10,
    style: str = "IfAllowed",
    usage: str = "Planned",
    aircraft: str = "Nominal",
) -> bytes:
    """A PUT of a plan."""
    return with_body("PUT", f"/flight_plans/{identity}", operator, plan(area, priority, style, usage, aircraft))


def show(operator: str, identity: object) -> bytes:
    """A GET of a plan."""
    return request("GET", f"/flight_plans/{identity}", operator)


def delete(operator: str, identity: object) -> bytes:
    """A DELETE of a plan."""
    return request("DELETE", f"/flight_plans/{identity}", operator)


def list_plans(operator: str) -> bytes:
    """A List."""
    return request("GET", "/flight_plans", operator)


def clear(operator: str, extent: Json) -> bytes:
    """A clear of what an operator plans in a volume."""
    return with_body("POST", "/clear_area_requests", operator, {"extent": extent})


def status(operator: str) -> bytes:
    """The question whether the desk is ready."""
    return request("GET", "/status", operator)


class Answer(NamedTuple):
    """An answer: its bytes, and what stands in them."""

    whole: bytes
    status: int
    body: bytes

    @property
    def value(self) -> Any:
        """The JSON of the body."""
        return json.loads(self.body)


def answers(output: bytes) -> list[Answer]:
    """The answers that an output is."""
    found = []
    while output:
        head, _, rest = output.partition(b"\r\n\r\n")
        length = int(head.lower().partition(b"content-length:")[2].split(b"\r\n")[0])
        body, output = rest[:length], rest[length:]
        found.append(Answer(head + b"\r\n\r\n" + body, int(head.split(b" ")[1]), body))
    return found
