"""When a flight is free and who is planned over one, through nginx with its limits."""

from __future__ import annotations

import pathlib
import time

import pytest
from clients.given import FAR, PATIENCE, WOOD, at, desk_of
from clients.ground import cells_with_leaf
from harness.rows import Rows
from harness.setting import Setting
from uss_desk_client import Change, NoAnswer, Polygon, Watch, area_of, new_id

pytestmark = pytest.mark.proxy


def refused_by_the_proxy(folder: pathlib.Path) -> list[str]:
    """The lines of the proxy's log whose status is 429."""
    lines = (folder / "access.log").read_text(encoding="utf-8").splitlines()
    return [line for line in lines if line.split("\t")[5] == "429"]


def test_free_times(rows: Rows, setting: Setting) -> None:
    """The times between flights of two operators; a whole day is searched, and nginx refuses none of the requests."""
    alfa, bravo = desk_of(setting, "alfa"), desk_of(setting, "bravo")
    over_wood = [at(0), at(12), at(13), at(15), at(16), at(23, 50)]
    mine = new_id()
    for desk, name, begin, end in ((bravo, new_id(), at(12), at(13)), (alfa, mine, at(15), at(16))):
        area = area_of(Polygon(WOOD), (60, 120), begin, end)
        rows.equal(f"planned from {begin:%H}", "Completed", desk.plan(name, area, 10).result)
    flight = area_of(Polygon(WOOD), (100, 110), at(0), at(0, 15))
    found = alfa.find_free(flight, (over_wood[0], over_wood[-1]), priority=10)
    free = [(window.start_time, window.end_time) for window in found.windows]
    rows.equal("free", list(zip(over_wood[::2], over_wood[1::2])), free)
    rows.equal("own", [mine], [own.plan_id for own in found.own])
    rows.at_most("requests", 60, found.requests)
    whole = area_of(Polygon(FAR), (60, 120), at(0), at(0, 0, day=1))
    rows.equal("a day that is blocked", "Completed", bravo.plan(new_id(), whole, 10).result)
    flight = area_of(Polygon(FAR), (100, 110), at(0), at(0, 15))
    found = alfa.find_free(flight, (at(0), at(0, 0, day=1)), priority=10)
    rows.equal("nothing free", ((), True), (found.windows, found.is_whole))
    rows.at_most("requests of a blocked day", 200, found.requests)
    rows.equal("refused by the proxy", [], refused_by_the_proxy(setting.folder))


def look(watch: Watch) -> list[Change]:
    """The changes at the first look that is answered: nginx permits a List each five seconds."""
    for _ in range(PATIENCE):
        try:
            return watch.look()
        except NoAnswer:
            time.sleep(1)
    raise AssertionError("the desk doesn't answer")


def test_watch_over_a_restart(rows: Rows, setting: Setting) -> None:
    """A desk that is killed between two looks is no change; a flight over another one is."""
    alfa, bravo = desk_of(setting, "alfa"), desk_of(setting, "bravo")
    plan_id, area = new_id(), area_of(Polygon(FAR), (300, 360), at(1), at(2))
    rows.equal("planned", "Completed", alfa.plan(plan_id, area, 10).result)
    watch = alfa.watching()
    look(watch)
    setting.kill()
    rows.equal("after a restart", [], look(watch))
    rows.equal("over it", "Completed", bravo.plan(new_id(), area, 50).result)
    changes = look(watch)
    rows.equal("a change", [(plan_id, ("blocked",))], [(change.plan_id, change.what) for change in changes])
    now = changes[0].now
    assert now and now.conflict
    point = now.conflict
    rows.equal("blocked from", (50, 300.0, at(1)), (point.priority, point.altitude_metres, point.time))
    # the least leaf that both covers have, which may lie outside of the polygon
    rows.holds("the leaf lies in the flight's cover", cells_with_leaf(area, point))
    rows.equal("its words", f"{plan_id}  somebody is planned over it: {point}", str(changes[0]))
