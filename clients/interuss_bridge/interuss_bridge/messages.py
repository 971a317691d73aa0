"""Messages of InterUSS flight_planning v1: what they ask of the desk, and the desk's answers in their words.

README.md beside this package says member by member what becomes of what.
"""
from __future__ import annotations

import json
from decimal import Decimal, InvalidOperation
from typing import Any, Dict, List, Mapping, NamedTuple, Optional, Sequence, Tuple

from uss_desk_client import Answer, AreaError, Circle, Polygon, ShapeError, Volume, area_over, cells_of, limits
from uss_desk_client.areas import days_of
from uss_desk_client.shapes import Shape
from uss_desk_client.units import MOST_METRES, Metres, decimetres_down, decimetres_up, read_time, second_down
from uss_desk_client.units import second_up

STYLES = ("Hypothetical", "IfAllowed", "InReality")
USAGES = ("Planned", "InUse", "Closed")
AIRCRAFT = ("Nominal", "OffNominal", "Contingent", "NotSpecified")
NO_ADVISORIES = "NoAdvisoriesOrConditions"
MOST_CLEARS = 64
"""Requests that one area to clear may be cut into."""


class Malformed(Exception):
    """A message that isn't of the published form: answered with 400."""


class NotSupported(Exception):
    """A message of the published form that the desk has no words for: answered as `NotSupported`."""


class Upsert(NamedTuple):
    """What a message asks for a plan."""

    style: str
    usage: str
    aircraft: str
    priority: int
    area: List[Volume]

    @property
    def body(self) -> Dict[str, Any]:
        """The body of the desk's PUT."""
        return {
            "execution_style": self.style,
            "flight_plan": {
                "astm_f3548_21": {"priority": self.priority},
                "basic_information": {
                    "area": [volume.to_json() for volume in self.area],
                    "uas_state": self.aircraft,
                    "usage_state": self.usage,
                },
            },
        }


# ---- reading


def no_constant(word: str) -> Any:
    raise ValueError(f"{word} is no number")


def decimal_of(digits: str) -> Decimal:
    try:
        return Decimal(digits)
    except InvalidOperation:
        raise ValueError(f"{digits[:20]} has too large an exponent") from None


def read_object(data: bytes) -> Mapping[str, Any]:
    """The object that a body is. Numbers with a point are kept as they were written."""
    try:
        value = json.loads(data.decode("utf-8"), parse_float=decimal_of, parse_constant=no_constant)
    except (ValueError, RecursionError) as wrong:
        raise Malformed(f"the body is no JSON: {wrong}") from None
    if not isinstance(value, dict):
        raise Malformed("the body is no object")
    return value


def member(value: Mapping[str, Any], name: str, path: str) -> Mapping[str, Any]:
    """A member that is an object."""
    found = value.get(name)
    if not isinstance(found, dict):
        raise Malformed(f"{path} is no object")
    return found


def word(value: Mapping[str, Any], name: str, path: str, words: Sequence[str]) -> str:
    found = value.get(name)
    if not isinstance(found, str) or found not in words:
        raise Malformed(f"{path} is none of {', '.join(words)}")
    return found


def number(value: Mapping[str, Any], name: str, path: str) -> Metres:
    found = value.get(name)
    if isinstance(found, bool) or not isinstance(found, (int, Decimal)):
        raise Malformed(f"{path} is no number")
    if Decimal(found).copy_abs() > MOST_METRES:
        raise Malformed(f"{path} is above {MOST_METRES:,}")
    return found


def upsert_of(message: Mapping[str, Any]) -> Upsert:
    """What an UpsertFlightPlanRequest asks."""
    if not isinstance(message.get("request_id"), str):
        raise Malformed("request_id is no text")
    style = word(message, "execution_style", "execution_style", STYLES)
    plan = member(message, "flight_plan", "flight_plan")
    path = "flight_plan.basic_information"
    basic = member(plan, "basic_information", path)
    usage = word(basic, "usage_state", f"{path}.usage_state", USAGES)
    aircraft = word(basic, "uas_state", f"{path}.uas_state", AIRCRAFT)
    priority = priority_of(plan)
    volumes = basic.get("area")
    if not isinstance(volumes, list):
        raise Malformed(f"{path}.area is no array")
    area = [part for at, one in enumerate(volumes) for part in volumes_of(one, f"{path}.area[{at}]")]
    if aircraft == "NotSpecified":
        raise NotSupported(f"{path}.uas_state: the desk wants to know it, and NotSpecified tells nothing")
    if not 1 <= len(area) <= limits.MAX_VOLUMES:
        raise NotSupported(
            f"{path}.area: {len(area)} volumes of 64 cells and a day are needed, and the desk takes "
            f"1 to {limits.MAX_VOLUMES}"
        )
    return Upsert(style, usage, aircraft, priority, area)


def priority_of(plan: Mapping[str, Any]) -> int:
    rules = plan.get("astm_f3548_21")
    if rules is None:
        return 0
    if not isinstance(rules, dict):
        raise Malformed("flight_plan.astm_f3548_21 is no object")
    priority = rules.get("priority")
    if priority is None:
        return 0
    if isinstance(priority, bool) or not isinstance(priority, int):
        raise Malformed("flight_plan.astm_f3548_21.priority is no whole number")
    if not 0 <= priority <= limits.MAX_PRIORITY:
        raise NotSupported(f"flight_plan.astm_f3548_21.priority: the desk has 0 to {limits.MAX_PRIORITY}")
    return priority


def volumes_of(volume: Any, path: str) -> List[Volume]:
    """The desk's volumes that contain a Volume4D."""
    shape, altitudes, times = parts_of(volume, path)
    if None in altitudes:
        raise NotSupported(f"{path}.volume: the desk wants both altitudes")
    reach, cells = reach_of(altitudes, times, path), cells_over(shape, path)
    try:
        return area_over(cells, *reach)
    except AreaError as wrong:
        raise NotSupported(f"{path}: {wrong}") from None


def extent_of(message: Mapping[str, Any]) -> List[Volume]:
    """The desk's volumes that contain the area of a ClearAreaRequest. An altitude that isn't there is the desk's
    least or greatest one."""
    if not isinstance(message.get("request_id"), str):
        raise Malformed("request_id is no text")
    shape, (lower, upper), times = parts_of(member(message, "extent", "extent"), "extent")
    altitudes = (limits.LOWEST // 10 if lower is None else lower, limits.HIGHEST // 10 if upper is None else upper)
    reach, cells = reach_of(altitudes, times, "extent"), cells_over(shape, "extent")
    days = days_of(reach.start, reach.end)
    if len(days) > MOST_CLEARS:
        raise NotSupported(f"extent: {len(days)} days are too many to clear at once: at most {MOST_CLEARS}")
    return [Volume(cells, reach.lower, reach.upper, start, end) for start, end in days]


Altitudes = Tuple[Optional[Metres], Optional[Metres]]
Times = Tuple[str, str]


def parts_of(volume: Any, path: str) -> Tuple[Shape, Altitudes, Times]:
    """The outline, altitudes and times of a Volume4D."""
    if not isinstance(volume, dict):
        raise Malformed(f"{path} is no object")
    inner = member(volume, "volume", f"{path}.volume")
    altitudes = [altitude_of(inner, name, f"{path}.volume.{name}") for name in ("altitude_lower", "altitude_upper")]
    times = [time_of(volume, name, f"{path}.{name}") for name in ("time_start", "time_end")]
    shape = outline_of(inner, f"{path}.volume")
    if times[0] is None or times[1] is None:
        raise NotSupported(f"{path}: the desk wants both times")
    return shape, (altitudes[0], altitudes[1]), (times[0], times[1])


class Reach(NamedTuple):
    """Decimetres and Unix seconds that contain a message's altitudes and times."""

    lower: int
    upper: int
    start: int
    end: int


def reach_of(altitudes: Altitudes, times: Times, path: str) -> Reach:
    lower, upper = altitudes
    assert lower is not None and upper is not None
    reach = Reach(decimetres_down(lower), decimetres_up(upper), second_down(times[0]), second_up(times[1]))
    if lower >= upper or reach.start >= reach.end:
        raise Malformed(f"{path}: a volume ends above and after its beginning")
    if reach.lower < limits.LOWEST or reach.upper > limits.HIGHEST:
        raise NotSupported(f"{path}: the desk has altitudes from {limits.LOWEST // 10} to {limits.HIGHEST // 10} m")
    if reach.start < 0 or reach.end > limits.LAST_SECOND:
        raise NotSupported(f"{path}: the desk has times of the years 1970 to 9998")
    return reach


def cells_over(shape: Shape, path: str) -> Tuple[str, ...]:
    """At most 64 cells that contain an outline."""
    try:
        return tuple(cells_of(shape))
    except ShapeError as wrong:
        raise Malformed(f"{path}: {wrong}") from None


def altitude_of(inner: Mapping[str, Any], name: str, path: str) -> Optional[Metres]:
    """Metres above the WGS84 ellipsoid."""
    if inner.get(name) is None:
        return None
    altitude = member(inner, name, path)
    word(altitude, "reference", f"{path}.reference", ("W84",))
    word(altitude, "units", f"{path}.units", ("M",))
    return number(altitude, "value", f"{path}.value")


def time_of(volume: Mapping[str, Any], name: str, path: str) -> Optional[str]:
    """The text of a time."""
    if volume.get(name) is None:
        return None
    time = member(volume, name, path)
    word(time, "format", f"{path}.format", ("RFC3339",))
    value = time.get("value")
    if not isinstance(value, str) or not read_time(value):
        raise Malformed(f"{path}.value is no time of RFC 3339")
    return value


def outline_of(inner: Mapping[str, Any], path: str) -> Shape:
    circle, polygon = inner.get("outline_circle"), inner.get("outline_polygon")
    if circle is not None and polygon is not None:
        raise Malformed(f"{path} has both a circle and a polygon")
    if circle is not None:
        circle = member(inner, "outline_circle", f"{path}.outline_circle")
        radius = member(circle, "radius", f"{path}.outline_circle.radius")
        word(radius, "units", f"{path}.outline_circle.radius.units", ("M",))
        return Circle(
            place_of(circle.get("center"), f"{path}.outline_circle.center"),
            number(radius, "value", f"{path}.outline_circle.radius.value"),
        )
    if polygon is not None:
        polygon = member(inner, "outline_polygon", f"{path}.outline_polygon")
        vertices = polygon.get("vertices")
        if not isinstance(vertices, list) or len(vertices) < 3:
            raise Malformed(f"{path}.outline_polygon.vertices is no array of three places")
        return Polygon(
            [place_of(vertex, f"{path}.outline_polygon.vertices[{at}]") for at, vertex in enumerate(vertices)]
        )
    raise NotSupported(f"{path}: the desk wants an outline")


def place_of(value: Any, path: str) -> Tuple[float, float]:
    """Longitude and latitude in degrees."""
    if not isinstance(value, dict):
        raise Malformed(f"{path} is no object")
    return float(number(value, "lng", f"{path}.lng")), float(number(value, "lat", f"{path}.lat"))


# ---- answering


def planning_response(result: str, status: str, notes: str, conflict: Optional[bool]) -> Dict[str, Any]:
    """An UpsertFlightPlanResponse or a DeleteFlightPlanResponse; `has_conflict` is there if it is told."""
    response: Dict[str, Any] = {
        "planning_result": result,
        "flight_plan_status": status,
        "includes_advisories": NO_ADVISORIES,
    }
    if notes:
        response["notes"] = notes
    if conflict is not None:
        response["has_conflict"] = conflict
    return response


def response_of(answer: Answer, tells_conflict: bool) -> Dict[str, Any]:
    """The desk's answer in published words."""
    notes = ""
    if not answer.is_completed:
        where = f" ({answer.conflict})" if answer.conflict else ""
        notes = f"{answer.note}{where}: {answer.advice}"
    return planning_response(
        answer.result, answer.status, notes, answer.note == "conflict" if tells_conflict else None
    )
