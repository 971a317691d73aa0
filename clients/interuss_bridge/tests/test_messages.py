"""What messages ask, member by member, with the numbers written by hand; README.md says the same."""
import copy
import json
import random
from collections.abc import Iterator
from typing import Any

import pytest

from interuss_bridge.messages import Malformed, NotSupported, Upsert, extent_of, read_object, response_of, upsert_of
from uss_desk_client import Answer, Conflict

VOLUME: Any = {
    "volume": {
        "outline_polygon": {
            "vertices": [{"lat": 47.0, "lng": 8.0}, {"lat": 47.0, "lng": 8.01}, {"lat": 47.01, "lng": 8.01}]
        },
        "altitude_lower": {"value": 60.05, "reference": "W84", "units": "M"},
        "altitude_upper": {"value": 120, "reference": "W84", "units": "M"},
    },
    "time_start": {"value": "2026-06-01T12:00:00.9Z", "format": "RFC3339"},
    "time_end": {"value": "2026-06-01T13:00:00.1Z", "format": "RFC3339"},
}
MESSAGE: Any = {
    "request_id": "r",
    "execution_style": "IfAllowed",
    "flight_plan": {
        "basic_information": {"usage_state": "Planned", "uas_state": "Nominal", "area": [VOLUME]},
        "astm_f3548_21": {"priority": 7},
    },
}
NOON = 1_780_315_200


def asked(message: Any) -> Upsert:
    return upsert_of(read_object(json.dumps(message).encode()))


def put(path: tuple[Any, ...], value: Any) -> Any:
    message = copy.deepcopy(MESSAGE)
    holder = message
    *before, last = path
    for name in before:
        holder = holder[name]
    if value is ...:
        del holder[last]
    else:
        holder[last] = value
    return message


BASIC = ("flight_plan", "basic_information")
AREA = (*BASIC, "area", 0)


def test_a_message() -> None:
    upsert = asked(MESSAGE)
    (volume,) = upsert.area
    assert (volume.lower, volume.upper, volume.start, volume.end) == (600, 1_200, NOON, NOON + 3_601)
    assert 1 <= len(volume.cells) <= 64
    assert (upsert.style, upsert.usage, upsert.aircraft, upsert.priority) == ("IfAllowed", "Planned", "Nominal", 7)
    assert upsert.body["flight_plan"]["astm_f3548_21"] == {"priority": 7}


def test_what_is_passed_over() -> None:
    message = put(("flight_plan", "additional_information"), {"x": 1})
    message["flight_plan"]["uspace_flight_authorisation"] = {"uas_class": "C1"}
    assert asked(message) == asked(MESSAGE)
    assert asked(put(("flight_plan", "astm_f3548_21"), ...)).priority == 0


@pytest.mark.parametrize(
    "path, value, told",
    [
        (("request_id",), ..., "request_id"),
        (("execution_style",), "Maybe", "execution_style"),
        (("flight_plan",), [], "flight_plan"),
        ((*BASIC, "usage_state"), "Accepted", "usage_state"),
        ((*BASIC, "uas_state"), None, "uas_state"),
        ((*BASIC, "area"), {}, "area is no array"),
        (("flight_plan", "astm_f3548_21", "priority"), "7", "priority is no whole"),
        (AREA, 5, r"area\[0\] is no object"),
        ((*AREA, "volume", "altitude_lower", "reference"), "SFC", "reference is none of W84"),
        ((*AREA, "volume", "altitude_lower", "units"), "FT", "units is none of M"),
        ((*AREA, "volume", "altitude_lower", "value"), "60", "value is no number"),
        ((*AREA, "volume", "altitude_lower", "value"), 120, "ends above and after"),
        ((*AREA, "time_start", "format"), "UNIX", "format is none"),
        ((*AREA, "time_end", "value"), "noon", "no time"),
        ((*AREA, "time_end", "value"), "2026-06-01T12:00:00Z", "ends above and after"),
        ((*AREA, "volume", "outline_polygon", "vertices"), [{"lat": 1, "lng": 2}] * 2, "three places"),
        ((*AREA, "volume", "outline_polygon", "vertices"), [{"lat": 1, "lng": 2}] * 3, "at least three places"),
        ((*AREA, "volume", "outline_polygon", "vertices", 0, "lat"), 91, "beyond 90"),
        ((*AREA, "volume", "outline_circle"), {}, "both a circle and a polygon"),
    ],
)
def test_what_is_not_of_the_published_form(path: tuple[Any, ...], value: Any, told: str) -> None:
    with pytest.raises(Malformed, match=told):
        asked(put(path, value))


@pytest.mark.parametrize(
    "path, value, told",
    [
        ((*BASIC, "uas_state"), "NotSpecified", "NotSpecified"),
        ((*BASIC, "area"), [], "0 volumes"),
        ((*BASIC, "area"), [VOLUME] * 33, "33 volumes"),
        (("flight_plan", "astm_f3548_21", "priority"), 1_001, "0 to 1000"),
        ((*AREA, "volume", "altitude_lower"), ..., "both altitudes"),
        ((*AREA, "time_start"), None, "both times"),
        ((*AREA, "volume", "outline_polygon"), ..., "outline"),
        ((*AREA, "volume", "altitude_upper", "value"), 20_000.1, "altitudes from -1000 to 20000 m"),
        ((*AREA, "time_end", "value"), "2026-07-10T12:00:00Z", "make 39 volumes"),
    ],
)
def test_what_the_desk_has_no_words_for(path: tuple[Any, ...], value: Any, told: str) -> None:
    with pytest.raises(NotSupported, match=told):
        asked(put(path, value))


@pytest.mark.parametrize(
    "data", [b"", b"[]", b"{", b"\xff", b'{"a":NaN}', b'{"a":1e99999999999999999999}', b"[" * 9_999]
)
def test_no_objects(data: bytes) -> None:
    with pytest.raises(Malformed):
        read_object(data)


@pytest.mark.parametrize("number", ["1e400", "1e999999999", "1" * 400, "-1e10"])
@pytest.mark.parametrize(
    "path", [(*AREA, "volume", "altitude_upper", "value"), (*AREA, "volume", "outline_polygon", "vertices", 0, "lng")]
)
def test_huge_numbers(path: tuple[Any, ...], number: str) -> None:
    with pytest.raises(Malformed, match="above 1,000,000,000"):
        upsert_of(read_object(json.dumps(put(path, "NUMBER")).replace('"NUMBER"', number).encode()))


def places(value: Any, path: tuple[Any, ...] = ()) -> Iterator[tuple[Any, ...]]:
    """The paths of all members and items of a value."""
    for name, part in (
        value.items() if isinstance(value, dict) else enumerate(value) if isinstance(value, list) else ()
    ):
        yield (*path, name)
        yield from places(part, (*path, name))


ODD: list[Any] = [
    None,
    True,
    0,
    -1,
    91,
    1e9,
    1e-300,
    2**70,
    "",
    "x",
    [],
    {},
    [[]],
    [{}],
    {"value": 1},
    "W84",
    "1970-01-01T00:00:00Z",
    "9999-12-31T23:59:59Z",
    "\ud800",
    [VOLUME] * 40,
    {"lat": 0, "lng": 0},
]


@pytest.mark.parametrize("seed", range(300))
def test_whatever_comes_is_read_or_refused(seed: int) -> None:
    some = random.Random(seed)
    message = copy.deepcopy({**MESSAGE, "extent": VOLUME})
    if some.random() < 0.3:
        message["extent"]["volume"]["outline_circle"] = {
            "center": {"lat": 47, "lng": 8},
            "radius": {"value": 300, "units": "M"},
        }
        del message["extent"]["volume"]["outline_polygon"]
    for _ in range(some.choice([1, 1, 2, 3])):
        *before, last = some.choice(list(places(message)))
        holder = message
        for name in before:
            holder = holder[name]
        holder[last] = copy.deepcopy(some.choice(ODD))
    for read in (upsert_of, extent_of):
        try:
            read(read_object(json.dumps(message).encode()))
        except (Malformed, NotSupported) as refused:
            assert str(refused)


def test_a_circle_and_30_hours() -> None:
    message = put((*AREA, "volume", "outline_polygon"), ...)
    message["flight_plan"]["basic_information"]["area"][0]["volume"]["outline_circle"] = {
        "center": {"lat": 47, "lng": 8},
        "radius": {"value": 300, "units": "M"},
    }
    message["flight_plan"]["basic_information"]["area"][0]["time_end"]["value"] = "2026-06-02T18:00:00Z"
    assert [(volume.start, volume.end) for volume in asked(message).area] == [
        (NOON, NOON + 86_400),
        (NOON + 86_400, NOON + 108_000),
    ]


def test_an_extent_without_altitudes_is_of_all() -> None:
    extent = copy.deepcopy(VOLUME)
    del extent["volume"]["altitude_lower"], extent["volume"]["altitude_upper"]
    (volume,) = extent_of(read_object(json.dumps({"request_id": "r", "extent": extent}).encode()))
    assert (volume.lower, volume.upper) == (-10_000, 200_000)
    with pytest.raises(Malformed):
        extent_of({"extent": extent})


def test_an_extent_of_many_days() -> None:
    extent = copy.deepcopy(VOLUME)
    message = {"request_id": "r", "extent": extent}
    extent["time_start"]["value"], extent["time_end"]["value"] = "2026-06-01T00:00:00Z", "2026-08-04T00:00:00Z"
    days = extent_of(read_object(json.dumps(message).encode()))
    assert len(days) == 64 and days[0].cells == days[63].cells
    assert all(one.end == other.start == one.start + 86_400 for one, other in zip(days, days[1:]))
    extent["time_end"]["value"] = "2026-08-04T00:00:00.1Z"
    with pytest.raises(NotSupported, match="65 days are too many"):
        extent_of(read_object(json.dumps(message).encode()))


def test_answers() -> None:
    done = response_of(Answer("Completed", "OkToFly"), False)
    assert done == {
        "planning_result": "Completed",
        "flight_plan_status": "OkToFly",
        "includes_advisories": "NoAdvisoriesOrConditions",
    }
    blocked = Answer("Rejected", "NotPlanned", "conflict", Conflict("0000000000000001", 600, NOON, 30))
    told = response_of(blocked, True)
    assert told["has_conflict"] is True
    assert told["notes"].startswith("conflict (priority 30 at -35.264390 -45.000000, 60 m")
    assert response_of(Answer("Completed", "Planned"), True)["has_conflict"] is False
