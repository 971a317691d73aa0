"""Flights of two operators by the client in Python, through nginx."""

from __future__ import annotations

from collections.abc import Sequence

import pytest
from clients.given import FAR, FIELD, WOOD, at, desk_of
from clients.ground import Place, along_grid, cells_with_leaf, meet, metres_from, size_of
from harness.rows import Rows
from harness.setting import Setting
from uss_desk_client import Answer, Desk, Polygon, Refused, Volume, area_of, cells_of, new_id, why

pytestmark = pytest.mark.proxy

CELL = "479aa0a5c"
"""A cell within FIELD, 300 m wide."""
BEGINNING = [(-45.010, -35.272), (-44.988, -35.271), (-44.990, -35.255), (-45.011, -35.258)]
AROUND_IT = [(-45.004, -35.267), (-44.980, -35.266), (-44.982, -35.249), (-45.003, -35.252)]
"""Two polygons around the place where the curve of all leaves begins, on three faces."""


def result_of(answer: Answer) -> tuple[str, str]:
    """What came of a request, and the plan's status."""
    return answer.result, answer.status


@pytest.mark.quick
def test_life_of_a_plan(rows: Rows, setting: Setting) -> None:
    """A plan's life, and what it does to another operator's."""
    alfa, bravo = desk_of(setting, "alfa"), desk_of(setting, "bravo")
    rows.equal("ready", "Ready", alfa.status())
    field, plan_id = area_of(Polygon(FIELD), (60, 120), at(12), at(13)), new_id()
    rows.equal("planned", ("Completed", "Planned"), result_of(alfa.plan(plan_id, field, 10)))
    blocked_for_another(rows, bravo, field)
    rows.equal("activated", ("Completed", "OkToFly"), result_of(alfa.activate(plan_id)))
    shown = alfa.show(plan_id)
    rows.equal("shown", (tuple(field), 10, "InUse", None), (shown.area, shown.priority, shown.usage, shown.conflict))
    rows.equal("changed", ("Completed", "OkToFly"), result_of(alfa.change(plan_id, priority=20)))
    rows.equal("reported", ("Completed", "OffNominal"), result_of(alfa.report(plan_id, "Contingent")))
    refused = alfa.activate(plan_id)
    rows.equal("no way back", ("Rejected", "OffNominal", "state"), (*result_of(refused), refused.note))
    rows.equal("closed", ("Completed", "Closed"), result_of(alfa.close(plan_id)))
    wood = area_of(Polygon(WOOD), (60, 120), at(12), at(13))
    rows.equal("free again", "Completed", bravo.try_plan(wood, 10).result)
    thirty_hours(rows, alfa)
    clockwise(rows, alfa)
    rows.equal("cleared", 1, alfa.clear(area_of(Polygon(FIELD), (-1_000, 20_000), at(0), at(24))).count)
    rows.equal("left", 2, len(alfa.plans()))


def blocked_for_another(rows: Rows, bravo: Desk, field: Sequence[Volume]) -> None:
    """Another operator's polygon meets it, and the blocked leaf lies in both."""
    wood = area_of(Polygon(WOOD), (100, 200), at(12, 30), at(14))
    answer = bravo.plan(new_id(), wood, 10)
    rows.equal("blocked", ("Rejected", "NotPlanned", "conflict"), (*result_of(answer), answer.note))
    conflict = answer.conflict
    assert conflict
    rows.equal("blocked from", (100.0, at(12, 30), 10), (conflict.altitude_metres, conflict.time, conflict.priority))
    for name, ring, area in (("field", FIELD, field), ("wood", WOOD, wood)):
        cells = cells_with_leaf(area, conflict)
        rows.holds(f"the leaf lies in the cover of the {name}", cells)
        most = max(map(size_of, cells), default=0)
        rows.at_most(f"how far the leaf lies outside of the {name}", most, metres_from(ring, conflict))
    reasons = why(bravo, wood, 10)
    both = {cell for cell in wood[0].cells if any(meet(cell, other) for other in field[0].cells)}
    rows.equal("why tells the cells that meet", both, {*reasons.blocked_cells})
    rows.equal("over it", "Completed", bravo.try_plan(wood, 11).result)


def test_leaf_in_both_polygons(rows: Rows, setting: Setting) -> None:
    """The blocked leaf lies in both polygons. Before it on the curve, a centimetre away, comes a leaf that isn't in
    both covers: so this is tried where a polygon's edge is that of its cover, and where no leaf comes before."""
    in_both(rows, setting, "a field along the grid", along_grid(CELL), FIELD)
    in_both(rows, setting, "the curve's beginning", BEGINNING, AROUND_IT)


def in_both(rows: Rows, setting: Setting, name: str, one: Sequence[Place], other: Sequence[Place]) -> None:
    """The blocked leaf of two polygons lies in both."""
    alfa, bravo = desk_of(setting, "alfa"), desk_of(setting, "bravo")
    areas = [area_of(Polygon(ring), (60, 120), at(20), at(21)) for ring in (one, other)]
    rows.equal(f"{name}: planned", "Completed", alfa.plan(new_id(), areas[0], 10).result)
    conflict = bravo.try_plan(areas[1], 10).conflict
    assert conflict
    metres = [metres_from(ring, conflict) for ring in (one, other)]
    rows.equal(f"{name}: the leaf lies in both polygons", [0.0, 0.0], metres)
    rows.equal(f"{name}: cleared", 1, alfa.clear(areas[0]).count)


def thirty_hours(rows: Rows, alfa: Desk) -> None:
    """A flight of over a day has a volume for each day."""
    plan_id = new_id()
    area = area_of(Polygon(FAR), (30.05, 99.91), at(6), at(12, day=1))
    rows.equal("30 hours", "Completed", alfa.plan(plan_id, area, 1).result)
    shown = [(volume.lower, volume.upper, volume.start_time, volume.end_time) for volume in alfa.show(plan_id).area]
    wanted = [(300, 1_000, at(6), at(6, day=1)), (300, 1_000, at(6, day=1), at(12, day=1))]
    rows.equal("30 hours shown", wanted, shown)


def clockwise(rows: Rows, alfa: Desk) -> None:
    """A ring that runs the other way covers the same, and not the rest of the globe."""
    area = area_of(Polygon(FAR[::-1]), (200, 210), at(12), at(13))
    rows.equal("clockwise", cells_of(Polygon(FAR)), list(area[0].cells))
    rows.equal("clockwise planned", "Completed", alfa.plan(new_id(), area, 1).result)


def test_refusals(rows: Rows, setting: Setting) -> None:
    """What nginx, the desk and the client itself refuse, by their words."""
    for what, wanted, desk in (
        ("a wrong password", ("unauthorized", 401), Desk(setting.url, user="alfa", password="b")),
        ("a stranger", ("unauthorized", 401), Desk(setting.url, user="nobody", password="b")),
        ("no route", ("no_route", 404), Desk(f"{setting.url}/desk", user="alfa", password="a")),
    ):
        rows.equal(what, wanted, refused_by(desk))
    with_fault = [Volume(("04",), 0, 200_001, 0, 1)]
    try:
        desk_of(setting, "alfa").plan(new_id(), with_fault)
        rows.equal("too high", "bad_volume", None)
    except Refused as refused:
        assert refused.fault
        got = refused.word, refused.fault.volume, refused.fault.member
        rows.equal("too high", ("bad_volume", 0, "volume.altitude_upper"), got)


def refused_by(desk: Desk) -> tuple[str, int] | None:
    """The word and the status by which a List is refused."""
    try:
        desk.plans()
    except Refused as refused:
        return refused.word, refused.status
    return None
