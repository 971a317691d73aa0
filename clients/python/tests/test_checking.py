"""What the desk would refuse, with the words written by hand from docs/api.md."""
import copy
import json
from typing import Any, Optional

import pytest

from uss_desk_client.checking import Fault, check, check_clear
from uss_desk_client.covers import cover_size

MOMENT = 1_780_315_000
VOLUME: Any = {
    "time_end": {"format": "RFC3339", "value": "2026-06-01T13:00:00Z"},
    "time_start": {"format": "RFC3339", "value": "2026-06-01T12:00:00Z"},
    "volume": {"altitude_lower": 0, "altitude_upper": 1000, "cells": ["04"]},
}
BODY: Any = {
    "execution_style": "IfAllowed",
    "flight_plan": {
        "astm_f3548_21": {"priority": 10},
        "basic_information": {"area": [VOLUME, VOLUME], "uas_state": "Nominal", "usage_state": "Planned"},
    },
}
BASIC = "flight_plan.basic_information"
RECTANGLE = {"face": 0, "i_min": 0, "i_max": 100, "j_min": 0, "j_max": 100, "level": 24}


def fault_of(body: Any) -> Fault:
    """What the desk would refuse in a body, which has a fault."""
    fault = check(body)
    assert fault
    return fault


def put(path: tuple[Any, ...], value: Any) -> Any:
    """The body with another value at a path, or without the member if the value is Ellipsis."""
    body = json.loads(json.dumps(BODY))
    holder = body
    *before, last = path
    for name in before:
        holder = holder[name]
    if value is ...:
        del holder[last]
    else:
        holder[last] = value
    return body


def in_second(*path: Any) -> tuple[Any, ...]:
    return ("flight_plan", "basic_information", "area", 1, *path)


def test_a_body_is_as_large_as_it_is_sent() -> None:
    """The limit is 131,072 bytes, and the client sends no blanks."""
    body: Any = {**BODY, "x": [0] * 50_000}
    text = json.dumps(body, separators=(",", ":"))
    body["y"] = "z" * (131_072 - len(text) - len(',"y":""'))
    assert len(json.dumps(body, separators=(",", ":"))) == 131_072 and check(body) is None
    body["y"] += "z"
    assert fault_of(body).word == "too_large"


def test_a_good_body() -> None:
    assert check(BODY) is None
    assert check(json.dumps(BODY).encode(), moment=MOMENT, ceiling=10, stored="NotPlanned") is None


@pytest.mark.parametrize(
    "path, value, word, volume, member",
    [
        (("execution_style",), "Maybe", "bad_member", None, "execution_style"),
        (("flight_plan",), ..., "bad_member", None, "flight_plan"),
        (("flight_plan", "basic_information"), None, "bad_member", None, BASIC),
        (("flight_plan", "basic_information", "usage_state"), "planned", "bad_member", None, f"{BASIC}.usage_state"),
        (("flight_plan", "basic_information", "uas_state"), "NotSpecified", "bad_member", None, f"{BASIC}.uas_state"),
        (("flight_plan", "basic_information", "area"), {}, "bad_member", None, f"{BASIC}.area"),
        (("flight_plan", "astm_f3548_21"), [], "bad_member", None, "flight_plan.astm_f3548_21"),
        (
            ("flight_plan", "astm_f3548_21", "priority"),
            10.0,
            "bad_member",
            None,
            "flight_plan.astm_f3548_21.priority",
        ),
        (
            ("flight_plan", "astm_f3548_21", "priority"),
            1_001,
            "bad_member",
            None,
            "flight_plan.astm_f3548_21.priority",
        ),
        (
            ("flight_plan", "astm_f3548_21", "priority"),
            True,
            "bad_member",
            None,
            "flight_plan.astm_f3548_21.priority",
        ),
        (("flight_plan", "basic_information", "area"), [], "bad_volume", None, f"{BASIC}.area"),
        (("flight_plan", "basic_information", "area"), [VOLUME] * 33, "bad_volume", None, f"{BASIC}.area"),
        (in_second(), 5, "bad_volume", 1, "volume"),
        (in_second("volume", "altitude_lower"), 0.5, "bad_volume", 1, "volume.altitude_lower"),
        (in_second("volume", "altitude_lower"), -10_001, "bad_volume", 1, "volume.altitude_lower"),
        (in_second("volume", "altitude_lower"), 1_000, "bad_volume", 1, "volume.altitude_upper"),
        (in_second("volume", "altitude_upper"), 200_001, "bad_volume", 1, "volume.altitude_upper"),
        (
            in_second("volume", "altitude_upper"),
            {"value": 100, "units": "M"},
            "bad_volume",
            1,
            "volume.altitude_upper",
        ),
        (in_second("time_start"), "2026-06-01T12:00:00Z", "bad_volume", 1, "time_start"),
        (in_second("time_start", "format"), "rfc3339", "bad_volume", 1, "time_start.format"),
        (in_second("time_start", "value"), "2026-06-01T13:00:00Z", "bad_volume", 1, "time_end.value"),
        (in_second("time_start", "value"), "2026-05-31T12:59:59Z", "bad_volume", 1, "time_end.value"),
        (in_second("time_end", "value"), "noon", "bad_volume", 1, "time_end.value"),
        (in_second("volume", "cells"), [], "bad_volume", 1, "volume.cells"),
        (in_second("volume", "cells"), ["04"] * 65, "bad_volume", 1, "volume.cells"),
        (in_second("volume", "cells"), ["04", "c"], "bad_volume", 1, "volume.cells[1]"),
        (in_second("volume", "cells"), None, "bad_volume", 1, "volume"),
        (in_second("volume", "rectangle"), RECTANGLE, "bad_volume", 1, "volume"),
    ],
)
def test_one_wrong_member(
    path: tuple[Any, ...], value: Any, word: Optional[str], volume: Optional[int], member: str
) -> None:
    fault = fault_of(put(path, value))
    assert (fault.word, fault.volume, fault.member) == (word, volume, member)
    assert member in str(fault)


@pytest.mark.parametrize(
    "name, value, word, member",
    [
        ("face", 6, "bad_volume", ".face"),
        ("i_min", 101, "bad_volume", ".i_max"),
        ("j_max", 2**30, "bad_volume", ".j_max"),
        ("level", 25, "bad_volume", ".level"),
        ("level", 7, "bad_volume", ".level"),
        ("j_min", -1, "bad_volume", ".j_min"),
        ("i_max", 2**30 - 1, "too_many_cells", ""),
    ],
)
def test_one_wrong_number_of_a_rectangle(name: str, value: Any, word: Optional[str], member: str) -> None:
    shape = {"altitude_lower": 0, "altitude_upper": 1, "rectangle": {**RECTANGLE, name: value}}
    fault = fault_of(put(in_second("volume"), shape))
    assert (fault.word, fault.volume, fault.member) == (word, 1, "volume.rectangle" + member)


def test_the_first_fault_decides() -> None:
    body = put(in_second("volume", "cells"), ["x"])
    body["flight_plan"]["basic_information"]["area"][0] = {**VOLUME, "time_start": None}
    assert fault_of(body).volume == 0
    body["flight_plan"]["astm_f3548_21"]["priority"] = -1
    assert fault_of(body).word == "bad_member"


@pytest.mark.parametrize(
    "text, word",
    [
        (b"", "bad_json"),
        (b"{", "bad_json"),
        (b"\xff", "bad_json"),
        (b"\xef\xbb\xbf{}", "bad_json"),
        (b'{"a":NaN}', "bad_json"),
        (b'{"a":1e400}', "bad_json"),
        (b'{"a":01}', "bad_json"),
        (b'{"a":"\\ud800"}', "bad_json"),
        (b'{"a":"\t"}', "bad_json"),
        (b"[" * 128 + b"]" * 128, "bad_json"),
        (b"[" * 127 + b"]" * 127, "bad_member"),
        (b"{}", "bad_member"),
        (b'{"a":"[[["}', "bad_member"),
        (b" " * 131_073, "too_large"),
        (b"[]", "bad_member"),
    ],
)
def test_texts(text: bytes, word: Optional[str]) -> None:
    assert fault_of(text).word == word


def test_the_last_value_of_a_member_counts() -> None:
    text = json.dumps(BODY)
    assert check(text.replace('"priority": 10', '"priority": 9999, "priority": 10')) is None
    assert fault_of(text.replace('"priority": 10', '"priority": 10, "priority": -0')).word == "bad_member"


@pytest.mark.parametrize(
    "change, words, word",
    [
        ({"execution_style": "InReality"}, {"stored": "Planned"}, "style"),
        ({"usage_state": "InUse", "uas_state": "OffNominal"}, {"stored": "NotPlanned"}, "state"),
        ({"usage_state": "InUse", "uas_state": "OffNominal"}, {"stored": "Planned"}, None),
        ({"usage_state": "InUse", "uas_state": "OffNominal"}, {"stored": "Contingent"}, "state"),
        ({"usage_state": "InUse"}, {"stored": "Closed"}, "closed"),
        ({"usage_state": "Closed"}, {"stored": "NotPlanned"}, "not_planned"),
        ({"usage_state": "Closed"}, {"stored": "Planned", "ceiling": 0, "moment": MOMENT + 10**6}, None),
        ({}, {"stored": "OkToFly"}, "state"),
        ({}, {"moment": "2026-06-01T13:00:00Z"}, "ended"),
        ({}, {"moment": "2026-06-01T12:59:59Z"}, None),
        ({}, {"moment": "2026-05-02T12:00:00Z"}, None),
        ({}, {"moment": "2026-05-02T11:59:59Z"}, "horizon"),
        ({}, {"ceiling": 9}, "priority"),
        (
            {"usage_state": "InUse", "uas_state": "OffNominal"},
            {"stored": "Planned", "moment": MOMENT + 10**6, "ceiling": 9},
            "priority",
        ),
    ],
)
def test_the_notes(change: dict[str, str], words: Any, word: Optional[str]) -> None:
    body = copy.deepcopy(BODY)
    for name, value in change.items():
        (body if name in body else body["flight_plan"]["basic_information"])[name] = value
    fault = check(body, **words)
    assert (fault and fault.word) == word


@pytest.mark.parametrize(
    "body, word, member",
    [
        ({"extent": VOLUME}, None, None),
        ({}, "bad_member", "extent"),
        ({"extent": []}, "bad_member", "extent"),
        ({"extent": {}}, "bad_volume", "extent.volume"),
        ({"extent": {**VOLUME, "time_end": None}}, "bad_volume", "extent.time_end"),
    ],
)
def test_clears(body: Any, word: Optional[str], member: Optional[str]) -> None:
    fault = check_clear(body)
    assert (fault and (fault.word, fault.member)) == (word and (word, member))


@pytest.mark.parametrize(
    "i, j, level, count",
    [
        ((0, 2**30 - 1), (0, 2**30 - 1), 8, 1),
        ((0, 2**30 - 1), (0, 2**29 - 1), 8, 2),
        ((0, 100), (0, 0), 24, 2),
        ((1, 2**30 - 2), (0, 2**30 - 1), 8, 1),
        ((2**22, 3 * 2**22 - 1), (0, 2**22 - 1), 8, 2),
    ],
)
def test_sizes_of_covers(i: tuple[int, int], j: tuple[int, int], level: int, count: int) -> None:
    assert cover_size(i, j, level, 1_024) == count
