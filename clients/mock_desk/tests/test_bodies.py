"""Bodies of PUT and POST: members, volumes and times."""
import json
from collections.abc import Sequence
from typing import Any, Optional

import pytest
from asking import ID, NOON, ONE, ask, desk, plan, volume

RECTANGLE = {"face": 0, "i_min": 0, "i_max": 65535, "j_min": 0, "j_max": 0, "level": 24}


def word(body: Any) -> Any:
    """The word of the refusal of a PUT's body, or its note if it isn't refused."""
    given = ask(desk(), "PUT", f"/flight_plans/{ID}", "alfa", body)[1]
    return given.get("error", given.get("notes"))


def changed(body: Any, path: Sequence[Any], value: Any) -> Any:
    """A body with another value at a path of members, or without the member if the value is ...."""
    body = json.loads(json.dumps(body))
    holder = body
    for name in path[:-1]:
        holder = holder[name]
    holder[path[-1]] = value
    if value is ...:
        del holder[path[-1]]
    return body


BASIC = ("flight_plan", "basic_information")


@pytest.mark.parametrize(
    "path, value, wanted",
    [
        (("execution_style",), "ifAllowed", "bad_member"),
        (("execution_style",), None, "bad_member"),
        (("flight_plan",), [], "bad_member"),
        ((*BASIC, "usage_state"), "Open", "bad_member"),
        ((*BASIC, "uas_state"), ..., "bad_member"),
        ((*BASIC, "area"), {}, "bad_member"),
        ((*BASIC, "area"), [], "bad_volume"),
        (("flight_plan", "astm_f3548_21"), None, ""),
        (("flight_plan", "astm_f3548_21"), [], "bad_member"),
        (("flight_plan", "astm_f3548_21", "priority"), ..., ""),
        (("flight_plan", "astm_f3548_21", "priority"), None, ""),
        (("flight_plan", "astm_f3548_21", "priority"), True, "bad_member"),
        (("flight_plan", "astm_f3548_21", "priority"), "10", "bad_member"),
        (("flight_plan", "astm_f3548_21", "priority"), 10.0, "bad_member"),
        (("flight_plan", "astm_f3548_21", "priority"), 1001, "bad_member"),
        (("flight_plan", "astm_f3548_21", "priority"), -1, "bad_member"),
        (("flight_plan", "astm_f3548_21", "priority"), 1 << 64, "bad_member"),
        ((*BASIC, "area", 0, "volume", "altitude_lower"), -10_001, "bad_volume"),
        ((*BASIC, "area", 0, "volume", "altitude_lower"), -10_000, ""),
        ((*BASIC, "area", 0, "volume", "altitude_lower"), 1000, "bad_volume"),
        ((*BASIC, "area", 0, "volume", "altitude_upper"), 200_000, ""),
        ((*BASIC, "area", 0, "volume", "altitude_upper"), 200_001, "bad_volume"),
        ((*BASIC, "area", 0, "volume", "altitude_upper"), 1e3, "bad_volume"),
        ((*BASIC, "area", 0, "volume", "cells"), ["04"] * 64, ""),
        ((*BASIC, "area", 0, "volume", "cells"), ["04"] * 65, "bad_volume"),
        ((*BASIC, "area", 0, "volume", "cells"), [], "bad_volume"),
        ((*BASIC, "area", 0, "volume", "cells"), [4], "bad_volume"),
        ((*BASIC, "area", 0, "volume", "cells"), None, "bad_volume"),
        ((*BASIC, "area", 0, "volume", "rectangle"), None, ""),
        ((*BASIC, "area", 0, "volume", "rectangle"), RECTANGLE, "bad_volume"),
        ((*BASIC, "area", 0, "time_start", "format"), "rfc3339", "bad_volume"),
        ((*BASIC, "area", 0, "time_start"), ONE, "bad_volume"),
        ((*BASIC, "area", 0), None, "bad_volume"),
    ],
)
def test_members(path: Sequence[Any], value: Any, wanted: str) -> None:
    assert word(changed(plan(), path, value)) == wanted


def test_the_first_fault_decides() -> None:
    wide = volume(None, rectangle={**RECTANGLE, "i_max": 65536})
    assert word(plan(volume(None, rectangle=RECTANGLE))) == ""
    assert word(plan(wide, volume(["0"]))) == "too_many_cells"
    assert word(plan(volume(["0"]), wide)) == "bad_volume"
    assert word(plan(volume(None, rectangle={**RECTANGLE, "i_max": 65536}, end=NOON))) == "bad_volume"
    assert word(plan(volume(["0"]), style="x")) == "bad_member"
    assert word(plan(*[volume()] * 32)) == ""
    assert word(plan(*[volume(["0"])] * 33)) == "bad_volume"


def test_a_member_named_twice_has_its_last_value() -> None:
    text = json.dumps(plan())
    assert word(text.replace('"IfAllowed"', '"x", "execution_style": "IfAllowed"').encode()) == ""
    assert word(text.replace('"IfAllowed"', '"IfAllowed", "execution_style": "x"').encode()) == "bad_member"


@pytest.mark.parametrize(
    "body",
    [b"", b"{", b"{} x", b"{'a':1}", b"\xef\xbb\xbf{}", b'{"a":NaN}', b'{"a":01}', b'{"a":"\xff"}', b'{"a":1,}'],
)
def test_no_json(body: Any) -> None:
    assert word(body) == "bad_json"


def test_extents() -> None:
    def told(body: Any) -> Any:
        return ask(desk(), "POST", "/clear_area_requests", "alfa", body)[1].get("error", "")

    assert told({"extent": volume()}) == ""
    assert told({"extent": None}) == "bad_member"
    assert told([]) == "bad_member"
    assert told({"extent": {}}) == "bad_volume"


@pytest.mark.parametrize(
    "end, second",
    [
        ("2026-06-01T13:00:00Z", 1780318800),
        ("2026-06-01t13:00:00z", 1780318800),
        ("2026-06-01T13:00:00.000Z", 1780318800),
        ("2026-06-01T13:00:00.001Z", 1780318801),
        ("2026-06-01T14:30:00+01:30", 1780318800),
        ("2026-06-01T11:30:00-01:30", 1780318800),
        ("2026-06-01T13:00:00-00:00", 1780318800),
        ("2026-06-02T12:59:00+23:59", 1780318800),
        ("2026-06-01T13:00:00." + "0" * 43 + "Z", 1780318800),
        ("2026-06-01T13:00:00." + "0" * 44 + "Z", None),
        ("2026-06-01T13:00:60Z", None),
        ("2026-06-01T24:00:00Z", None),
        ("2026-06-31T13:00:00Z", None),
        ("2026-06-01T13:00:00+24:00", None),
        ("2026-06-01T13:00:00+01:60", None),
        ("2026-06-01 13:00:00Z", None),
        ("2026-06-01T13:00:00", None),
        ("2026-06-01T13:00:00.Z", None),
        ("\u0662026-06-01T13:00:00Z", None),
    ],
)
def test_times(end: str, second: Optional[int]) -> None:
    at = desk()
    ask(at, "PUT", f"/flight_plans/{ID}", "alfa", plan(volume(end=end)))
    shown = ask(at, "GET", f"/flight_plans/{ID}")[1]
    assert shown.get("error") == ("no_such_plan" if second is None else None)
    if second is not None:
        assert shown["area"][0]["second_end"] == second


def test_the_first_and_the_last_second() -> None:
    at = desk(moment=0)

    def put(start: str, end: str) -> Any:
        return ask(at, "PUT", f"/flight_plans/{ID}", "alfa", plan(volume(start=start, end=end)))[1]

    assert put("1969-12-31T23:59:59Z", "1970-01-01T00:00:01Z") == {"error": "bad_volume"}
    assert put("1970-01-01T00:00:00Z", "1970-01-01T00:00:01Z")["notes"] == ""
    late = "9998-12-31T23:59:59Z"
    assert put(late, "9999-01-01T00:00:00Z")["notes"] == "horizon"
    assert put(late, "9999-01-01T00:00:00.1Z") == {"error": "bad_volume"}
