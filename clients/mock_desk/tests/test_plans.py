"""States, refusals in a PUT, conflicts, Show, List and Clear, by the tables of the rules."""
import pathlib
from typing import Any, Optional

import pytest
from asking import ID, MOMENT, NOON, ONE, ask, desk, plan, put, volume
from mock_desk import cells

OTHER = "22222222-2222-4222-8222-222222222222"


def test_the_life_of_a_plan() -> None:
    at = desk()
    assert put(at, "alfa", ID) == ("Completed", "Planned", "")
    assert put(at, "alfa", ID) == ("Completed", "Planned", "")
    assert put(at, "alfa", ID, usage="InUse") == ("Completed", "OkToFly", "")
    assert put(at, "alfa", ID, usage="InUse", aircraft="Contingent") == ("Completed", "OffNominal", "")
    assert ask(at, "DELETE", f"/flight_plans/{ID}") == (
        200,
        {"flight_plan_status": "Closed", "notes": "", "planning_result": "Completed"},
    )
    assert put(at, "alfa", ID) == ("Rejected", "Closed", "closed")
    assert put(at, "alfa", ID, usage="Closed") == ("Completed", "Closed", "")


# stored usage and aircraft, asked usage and aircraft, the note ("" is Completed) and the status
STATES = [
    (None, "InUse", "OffNominal", "state", "NotPlanned"),
    (None, "InUse", "Contingent", "state", "NotPlanned"),
    (None, "Planned", "OffNominal", "state", "NotPlanned"),
    (None, "Closed", "Contingent", "not_planned", "NotPlanned"),
    (None, "InUse", "Nominal", "", "OkToFly"),
    (("InUse", "Nominal"), "Planned", "Nominal", "state", "OkToFly"),
    (("InUse", "Nominal"), "InUse", "OffNominal", "", "OffNominal"),
    (("InUse", "OffNominal"), "Planned", "Nominal", "state", "OffNominal"),
    (("InUse", "OffNominal"), "InUse", "Nominal", "", "OkToFly"),
    (("InUse", "Contingent"), "Planned", "Nominal", "state", "OffNominal"),
    (("InUse", "Contingent"), "InUse", "Nominal", "state", "OffNominal"),
    (("InUse", "Contingent"), "InUse", "OffNominal", "state", "OffNominal"),
    (("InUse", "Contingent"), "InUse", "Contingent", "", "OffNominal"),
    (("InUse", "Contingent"), "Closed", "Nominal", "", "Closed"),
    (("Closed", "Nominal"), "Planned", "Contingent", "closed", "Closed"),
    (("Closed", "Nominal"), "InUse", "OffNominal", "closed", "Closed"),
    (("Closed", "Nominal"), "Closed", "OffNominal", "", "Closed"),
]


@pytest.mark.parametrize("stored, usage, aircraft, note, status", STATES)
def test_states(stored: Optional[tuple[str, str]], usage: str, aircraft: str, note: str, status: str) -> None:
    at = desk()
    if stored:
        put(at, "alfa", ID)
        assert put(at, "alfa", ID, usage=stored[0], aircraft=stored[1])[0] == "Completed"
    result = "Rejected" if note else "Completed"
    assert put(at, "alfa", ID, usage=usage, aircraft=aircraft) == (result, status, note)


def test_styles() -> None:
    at = desk()
    assert put(at, "alfa", ID, style="InReality") == ("NotSupported", "NotPlanned", "style")
    assert put(at, "alfa", ID, style="Hypothetical") == ("Completed", "Planned", "")
    assert ask(at, "GET", f"/flight_plans/{ID}") == (404, {"error": "no_such_plan"})
    put(at, "alfa", ID)
    assert put(at, "alfa", ID, style="InReality", aircraft="OffNominal") == ("NotSupported", "Planned", "style")
    assert put(at, "alfa", ID, style="InReality", usage="InUse", aircraft="OffNominal") == (
        "Completed",
        "OffNominal",
        "",
    )
    assert put(at, "alfa", ID, style="InReality", usage="Closed") == ("Completed", "Closed", "")


def test_moments() -> None:
    # 2026-06-01T11:56:40Z is the moment: what ends at it has ended
    at = desk()
    assert put(at, "alfa", ID, volume(start="2026-06-01T11:00:00Z", end="2026-06-01T11:56:40Z"))[2] == "ended"
    assert put(at, "alfa", ID, volume(start="2026-06-01T11:00:00Z", end="2026-06-01T11:56:41Z"))[2] == ""
    # thirty days on: 2026-07-01T11:56:40Z
    assert put(at, "alfa", OTHER, volume(start="2026-07-01T11:56:41Z", end="2026-07-01T12:00:00Z"))[2] == "horizon"
    assert put(at, "alfa", OTHER, volume(start="2026-07-01T11:56:40.9Z", end="2026-07-01T12:00:00Z"))[2] == ""


def test_priorities() -> None:
    at = desk(alfa=10)
    assert put(at, "alfa", ID, priority=11) == ("Rejected", "NotPlanned", "priority")
    assert put(at, "alfa", ID, priority=10)[2] == ""
    at.store.enrol("alfa", 9)
    assert put(at, "alfa", ID, usage="InUse", aircraft="OffNominal")[2] == "priority"
    assert put(at, "alfa", ID, usage="Closed")[2] == ""


def test_200_plans() -> None:
    at = desk()
    for number in range(200):
        token = cells.token_of(2 * number + 1)
        assert put(at, "alfa", f"{number:032x}", volume([token]))[0] == "Completed"
    assert put(at, "alfa", f"{200:032x}", volume(["b"])) == ("Rejected", "NotPlanned", "plans_limit")
    assert put(at, "alfa", f"{199:032x}", volume(["b"]))[0] == "Completed"
    assert put(at, "bravo", f"{200:032x}", volume(["9"]))[0] == "Completed"


def test_a_conflict() -> None:
    at = desk()
    put(at, "alfa", ID)
    answer = ask(
        at,
        "PUT",
        f"/flight_plans/{ID}",
        "bravo",
        plan(volume(["1"], 500, 2000, "2026-06-01T12:30:00Z", "2026-06-01T14:00:00Z")),
    )
    conflict = {"altitude": 500, "cell": "0000000000000001", "priority": 10, "second": 1780317000}
    refused = {
        "conflict": conflict,
        "flight_plan_status": "NotPlanned",
        "notes": "conflict",
        "planning_result": "Rejected",
    }
    assert answer == (200, refused)
    assert put(at, "bravo", ID, volume(["1"]), priority=9)[2] == "conflict"
    assert put(at, "bravo", ID, volume(["1"]), priority=11)[2] == ""


def test_own_plans_block_too_but_not_the_stored_version() -> None:
    at = desk()
    put(at, "alfa", ID)
    assert put(at, "alfa", OTHER)[2] == "conflict"
    assert put(at, "alfa", ID)[2] == ""


def test_volumes_that_touch() -> None:
    at = desk()
    put(at, "alfa", ID)
    assert put(at, "bravo", ID, volume(start=ONE, end="2026-06-01T14:00:00Z"))[2] == ""
    assert put(at, "bravo", OTHER, volume(lower=1000, upper=1001))[2] == ""
    assert put(at, "bravo", "3" * 32, volume(["0c"]))[2] == ""


def test_the_greatest_priority_at_the_first_point() -> None:
    # the first leaf is bravo's at 20 alone; at the second both are
    at = desk(equal=(10,), alfa=100, bravo=100, c=100)
    first, second = cells.token_of(1), cells.token_of(3)
    put(at, "alfa", ID, volume([second]), priority=30)
    put(at, "bravo", ID, volume([second], 500, 600), priority=30)
    put(at, "bravo", OTHER, volume([first], 100, 200), priority=20)
    put(at, "bravo", "3" * 32, volume([first], 100, 200), priority=20)
    body = ask(at, "PUT", f"/flight_plans/{ID}", "c", plan(volume(["04"], 150, 1000)))[1]
    assert body["conflict"] == {"altitude": 150, "cell": "0000000000000001", "priority": 20, "second": 1780315200}


def test_spans() -> None:
    # one cell, and cells that follow each other, are one span; these two are two
    two = volume(["04", "14"])
    at = desk(spans=2)
    assert put(at, "alfa", ID, two)[2] == ""
    assert put(at, "alfa", ID, two, usage="InUse")[2] == ""
    assert put(at, "alfa", OTHER, volume(["3"])) == ("Rejected", "NotPlanned", "spans_limit")
    assert put(at, "alfa", OTHER, volume(["3"]), style="Hypothetical")[2] == "spans_limit"
    assert put(at, "bravo", OTHER, volume(["5", "9"]))[2] == ""
    assert put(at, "alfa", OTHER, volume(["5"]))[2] == "spans_limit"
    assert put(at, "alfa", ID, volume(["04", "14", "3"]), usage="InUse", aircraft="OffNominal")[2] == "spans_limit"
    ask(at, "DELETE", f"/flight_plans/{ID}")
    assert put(at, "alfa", OTHER, volume(["04", "0c", "1c"]))[2] == ""


def test_cells() -> None:
    # copies count, and cells in one another; a rectangle of three squares in a row is three cells
    at = desk(most_cells=3)
    row = volume(None, rectangle={"face": 5, "i_min": 0, "i_max": 0, "j_min": 0, "j_max": 191, "level": 24})
    assert put(at, "alfa", ID, volume(["04", "04", "0c", "1"])) == ("Rejected", "NotPlanned", "cells_limit")
    assert put(at, "alfa", ID, volume(["04"]), volume(["0c"]))[2] == ""
    assert put(at, "alfa", ID, volume(["04", "0c", "04"]))[2] == ""
    assert put(at, "alfa", ID, volume(["04", "04"]), usage="InUse")[2] == ""
    assert put(at, "alfa", OTHER, volume(["3", "5"]), style="Hypothetical")[2] == "cells_limit"
    assert put(at, "alfa", OTHER, volume(["04", "3"]))[2] == "cells_limit"
    assert put(at, "bravo", OTHER, row)[2] == ""
    assert put(at, "bravo", ID, volume(["9"]))[2] == "cells_limit"
    more = volume(["04", "0c", "3", "5"])
    assert put(at, "alfa", ID, more, usage="InUse", aircraft="OffNominal")[2] == "cells_limit"
    ask(at, "DELETE", f"/flight_plans/{ID}")
    assert put(at, "alfa", ID, usage="Closed")[2] == ""
    assert put(at, "alfa", OTHER, volume(["3", "5"]))[2] == "cells_limit"
    assert put(at, "alfa", OTHER, volume(["3"]))[2] == ""
    ask(at, "POST", "/clear_area_requests", "alfa", {"extent": volume(["1"])})
    assert put(at, "alfa", OTHER, volume(["3", "3", "5"]))[2] == ""


def test_spans_before_cells() -> None:
    at = desk(spans=1, most_cells=1)
    assert put(at, "alfa", ID, volume(["04", "14"]))[2] == "spans_limit"
    assert put(at, "alfa", ID, volume(["04", "04"]))[2] == "cells_limit"
    assert put(at, "alfa", ID)[2] == ""
    assert put(at, "bravo", ID, volume(["04", "04"]))[2] == "cells_limit"
    assert put(at, "bravo", ID)[2] == "conflict"


def test_permitted_priorities() -> None:
    at = desk(equal=(10,))
    put(at, "alfa", ID)
    assert put(at, "bravo", ID)[2] == ""
    assert put(at, "bravo", OTHER, priority=9)[2] == "conflict"
    put(at, "bravo", ID, priority=11)
    shown = ask(at, "GET", f"/flight_plans/{ID}", "alfa")[1]
    assert shown["conflict"] == {"altitude": 0, "cell": "0000000000000001", "priority": 11, "second": 1780315200}


def test_shown_and_listed() -> None:
    at = desk()
    rectangle = {"face": 0, "i_min": 0, "i_max": 7, "j_min": 0, "j_max": 0, "level": 24}
    put(at, "alfa", OTHER, volume(["0C", "1c", "0C"]), volume(None, rectangle=rectangle))
    put(at, "alfa", ID, volume(["3"]), usage="InUse")
    ask(at, "DELETE", f"/flight_plans/{ID}")
    window: Any = {"altitude_lower": 0, "altitude_upper": 1000, "second_end": 1780318800, "second_start": 1780315200}
    closed: Any = {
        "area": [{**window, "cells": ["3"]}],
        "flight_plan_id": ID,
        "flight_plan_status": "Closed",
        "priority": 10,
    }
    area: Any = [{**window, "cells": ["0c", "1c", "0c"]}, {**window, "rectangle": rectangle}]
    planned: Any = {"area": area, "flight_plan_id": OTHER, "flight_plan_status": "Planned", "priority": 10}
    rows = [
        {**closed, "uas_state": "Nominal", "usage_state": "Closed"},
        {**planned, "uas_state": "Nominal", "usage_state": "Planned"},
    ]
    assert ask(at, "GET", "/flight_plans") == (200, {"flight_plans": rows})
    assert ask(at, "GET", "/flight_plans", "bravo") == (200, {"flight_plans": []})


def test_cleared() -> None:
    at = desk()
    put(at, "alfa", ID)
    put(at, "alfa", OTHER, volume(["3"]))
    put(at, "bravo", ID, volume(["0c"]))
    ask(at, "DELETE", f"/flight_plans/{ID}")
    told = {"outcome": {"message": "cleared 1", "success": True}}
    assert ask(at, "POST", "/clear_area_requests", "alfa", {"extent": volume(["1"])}) == (200, told)
    assert ask(at, "GET", f"/flight_plans/{ID}", "alfa")[0] == 404
    assert ask(at, "GET", f"/flight_plans/{ID}", "bravo")[0] == 200


def test_two_starts_over_a_file(tmp_path: pathlib.Path) -> None:
    path = str(tmp_path / "mock.db")
    at = desk(path=path)
    put(at, "alfa", ID, usage="InUse")
    put(at, "bravo", ID, volume(["3"]))
    ask(at, "POST", "/clear_area_requests", "bravo", {"extent": volume(["3"])})
    at.store.close()
    again = desk(path=path, moment=MOMENT + 1, alfa=5)
    assert ask(again, "GET", f"/flight_plans/{ID}")[1]["flight_plan_status"] == "OkToFly"
    assert ask(again, "GET", f"/flight_plans/{ID}", "bravo")[0] == 404
    assert put(again, "bravo", OTHER)[2] == "conflict"
    assert put(again, "alfa", ID)[2] == "state"
    assert put(again, "alfa", ID, usage="InUse")[2] == "priority"


@pytest.mark.parametrize(
    "start, end, word", [(NOON, "2026-06-02T12:00:00Z", ""), (NOON, "2026-06-02T12:00:00.01Z", "bad_volume")]
)
def test_an_end_with_a_fraction_is_a_second_later(start: str, end: str, word: str) -> None:
    status, body = ask(desk(), "PUT", f"/flight_plans/{ID}", "alfa", plan(volume(start=start, end=end)))
    assert body.get("error", "") == word
