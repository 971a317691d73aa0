"""Flights of two operators, drawn, refused, moved, flown and ended in their pages."""

import re
import time
from dataclasses import replace
from datetime import date, timedelta

import pytest
from clients.given import desk_itself
from harness.rows import Rows
from harness.setting import Setting
from map.browser import Driver, Page, Programs
from map.given import ELSEWHERE, HOUR, MIDDLE, WIDE
from map.troubles import troubles
from selenium.webdriver.common.keys import Keys
from uss_desk_client import Polygon, area_of, new_id

pytestmark = [pytest.mark.alone, pytest.mark.proved, pytest.mark.browser, pytest.mark.proxy, pytest.mark.slow]

LOOKS = 200
"""Seconds in which the page looks for conflicts, which it does each minute, also after a look that failed."""


def test_flights(rows: Rows, setting: Setting, programs: Programs, driver: Driver) -> None:
    """Plans, is refused, sees what blocks, moves it until it is free, activates, hears of a conflict, closes, clears.
    The page looks for conflicts each minute: meanwhile another operator's page goes through what may go wrong."""
    bravo = Page(driver, programs["bravo"].address)
    block(rows, setting, bravo)
    alfa = Page(driver, programs["alfa"].address)
    refused_and_moved(rows, setting, alfa)
    before = len(alfa.messages())
    planned_over(rows, setting)
    troubles(rows, setting, Page(driver, programs["carol"].address), programs["carol"])
    hears_of_it(rows, setting, alfa.front(), before)
    changed_by_mouse(rows, alfa)
    ended(rows, setting, alfa)
    for page in (alfa, bravo):
        rows.equal("complaints of the page", [], page.front().errors())


def block(rows: Rows, setting: Setting, bravo: Page) -> None:
    """Bravo draws by keys alone, asks, and plans for three hours."""
    bravo.go_to(*MIDDLE)
    bravo.draw_by_keys(
        "polygon", [(Keys.ARROW_UP, 1), (Keys.ARROW_RIGHT, 2), (Keys.ARROW_DOWN, 2), (Keys.ARROW_LEFT, 2)]
    )
    bravo.until("the cells", lambda: "cells: they take" in bravo.text("#cover"))
    rows.holds(
        "bravo: what it takes beyond the shape",
        re.search(
            r"\d+ cells: they take [\d.,]+ k?m², [\d.,]+ k?m² \(\d+ %\) " r"beyond the [\d.,]+ k?m² drawn",
            bravo.text("#cover"),
        ),
    )
    bravo.altitudes(60, 120)
    bravo.type("#draft-priority", "20")
    bravo.lengthen(2 * HOUR)
    bravo.keys("#ask", Keys.ENTER)
    rows.equal("bravo: free", "free", bravo.verdict())
    rows.equal("bravo: nothing was stored by asking", 0, len(desk_itself(setting, "bravo").plans()))
    bravo.keys("#plan", Keys.ENTER)
    bravo.told("Plan polygon 1: done, it is planned")
    (plan,) = desk_itself(setting, "bravo").plans()
    rows.equal(
        "bravo: planned",
        ("Planned", 20, 600, 1200),
        (plan.status, plan.priority, plan.area[0].lower, plan.area[0].upper),
    )
    seen_when(rows, bravo)


def seen_when(rows: Rows, bravo: Page) -> None:
    """The bars show what is there at a moment and at an altitude, and playing moves the moment."""

    def shown() -> int:
        return len(bravo.all("path.plan.planned"))

    rows.equal("bravo: shown", 1, shown())
    bravo.keys("#height", Keys.HOME)
    bravo.until("nothing at the lowest altitude", lambda: not shown() and bravo.find("#altitude-alone").is_selected())
    bravo.click("#altitude-alone")
    bravo.until("shown at all altitudes", shown)
    at = bravo.value("#moment", "value")
    bravo.keys("#moment", Keys.ARROW_LEFT)
    bravo.until("nothing a step before it begins", lambda: not shown() and bravo.find("#moment-alone").is_selected())
    bravo.keys("#moment", Keys.ARROW_RIGHT)
    bravo.until("shown as it begins", shown)
    bravo.click("#play")
    bravo.until("moments that are played", lambda: bravo.value("#moment", "value") != at)
    bravo.until("shown while it is played", lambda: shown() == 1)
    bravo.click("#play")
    over_the_edge_of_a_day(rows, bravo)
    bravo.click("#moment-alone")


def over_the_edge_of_a_day(rows: Rows, bravo: Page) -> None:
    """From the first moment of a day the keys go on into the day before, and from there back again."""

    def place() -> tuple[str, str]:
        return bravo.value("#day", "value"), bravo.text("#moment-told")[:5]

    bravo.keys("#moment", Keys.HOME)
    today, first = place()
    rows.equal("bravo: the first moment of a day", "00:00", first)
    bravo.keys("#moment", Keys.ARROW_LEFT)
    yesterday = (date.fromisoformat(today) - timedelta(1)).isoformat()
    rows.equal("bravo: a step before it", (yesterday, "23:55"), place())
    bravo.keys("#moment", Keys.ARROW_RIGHT)
    rows.equal("bravo: and back", (today, "00:00"), place())


def refused_and_moved(rows: Rows, setting: Setting, alfa: Page) -> None:
    """Alfa draws by the mouse where bravo is, is refused, and moves the flight by the bar of time until it is free."""
    alfa.go_to(*MIDDLE)
    alfa.draw_by_mouse("polygon", [(0.3, 0.3), (0.7, 0.35), (0.65, 0.7), (0.35, 0.65)])
    alfa.type("#draft-name", "survey")
    alfa.altitudes(60, 120)
    alfa.type("#draft-priority", "10")
    alfa.click("#plan")
    message = alfa.told("Plan survey: refused (conflict), it stays not planned")
    rows.holds("alfa: the first blocked point is told", "priority 20 at 47.3" in message)
    rows.equal("alfa: blocked", "blocked", alfa.verdict())
    alfa.until("blocked cells on the map", lambda: alfa.all("path.blocked"))
    cells = len(alfa.all("#asked tbody tr"))
    rows.equal("alfa: cells that are blocked", (cells, True), (len(alfa.all("path.blocked")), cells > 1))
    rows.holds("alfa: by priority", f"priority 20 in {cells} cells" in alfa.text("#asked"))
    times_are_local(rows, alfa)
    dragged(rows, setting, alfa)
    lives_over_a_reload(rows, alfa)
    moved = move_until_free(setting, alfa)
    rows.holds("alfa: it took more than one step", moved > 1)
    alfa.click("#plan")
    alfa.told("Plan survey: done, it is planned")
    (plan,) = desk_itself(setting, "alfa").plans()
    (other,) = desk_itself(setting, "bravo").plans()
    rows.holds("alfa: planned behind bravo's", plan.area[0].start >= other.area[0].end)
    alfa.click("#activate")
    alfa.told("Activate survey: done, it is in use")
    rows.has("alfa: said beneath the button", "Activate survey: done, it is in use", alfa.said())
    rows.equal("alfa: in use", "OkToFly", desk_itself(setting, "alfa").show(plan.plan_id).status)


def times_are_local(rows: Rows, alfa: Page) -> None:
    """Times are those of the browser, with UTC beside."""
    date_if_another = r"(?:\d{4}-\d\d-\d\d )?"
    times = rf"(\d\d):\d\d to {date_if_another}\d\d:\d\d here, {date_if_another}(\d\d):\d\dZ"
    found = re.search(times, alfa.text("#cover"))
    assert found, alfa.text("#cover")
    here, utc = found.groups()
    offset = alfa.js("return -new Date().getTimezoneOffset() / 60")
    rows.equal("alfa: local time and UTC", (True, offset % 24), (offset in (1, 2), (int(here) - int(utc)) % 24))


def dragged(rows: Rows, setting: Setting, alfa: Page) -> None:
    """A corner is dragged by the mouse, then the flight in the bar of time, there and back: each is asked again."""
    (before,) = alfa.drafts()
    asked = puts_of(setting, "alfa")
    alfa.drag(".handle.place", -40, -30)
    alfa.until("another corner", lambda: bool(alfa.drafts()[0]["places"][0] != before["places"][0]))
    rows.equal("alfa: the others stay", before["places"][1:], alfa.drafts()[0]["places"][1:])
    asked = asked_again(rows, setting, alfa, asked)
    for across in (25, -25):
        start = alfa.drafts()[0]["start"]
        alfa.drag("#draft-bar rect", across, 0)
        moved = alfa.until("another time", lambda: int(alfa.drafts()[0]["start"] - start))
        length = alfa.drafts()[0]["end"] - alfa.drafts()[0]["start"]
        rows.equal("alfa: moved by the mouse, whole", (True, 0, HOUR), (moved * across > 0, moved % 300, length))
        asked = asked_again(rows, setting, alfa, asked)


def puts_of(setting: Setting, name: str) -> int:
    """How many PUTs of an operator have gone through the proxy."""
    lines = (setting.folder / "access.log").read_text(encoding="utf-8").splitlines()
    return sum(line.split("\t")[2:4] == [name, "PUT"] for line in lines)


def asked_again(rows: Rows, setting: Setting, alfa: Page, before: int) -> int:
    """Waits until a draft is asked again, and what was found; how many PUTs there are then."""
    alfa.until("asked again", lambda: puts_of(setting, "alfa") > before)
    rows.equal("alfa: asked again", "blocked", alfa.verdict())
    return puts_of(setting, "alfa")


def lives_over_a_reload(rows: Rows, alfa: Page) -> None:
    """What was drawn is there after a reload, to the last digit."""
    before = alfa.drafts()
    alfa.load()
    rows.equal("alfa: drafts after a reload", before, alfa.drafts())
    rows.equal("alfa: one draft", ["survey"], [one["name"] for one in before])
    alfa.click(f"tr[data-id='{before[0]['id']}'] .name")
    alfa.until("the shape", lambda: alfa.all("path.shape.chosen") and alfa.all("path.plan.draft"))
    rows.equal(
        "alfa: its fields after a reload",
        ("survey", "10"),
        (alfa.value("#draft-name", "value"), alfa.value("#draft-priority", "value")),
    )
    alfa.click("#ask")
    rows.equal("alfa: still blocked", "blocked", alfa.verdict())


def move_until_free(setting: Setting, alfa: Page) -> int:
    """Presses the keys of the bar of time until the flight is free; how often. After each the draft is asked again,
    once it has come to rest."""
    for step in range(1, 13):
        asked = puts_of(setting, "alfa")
        alfa.keys("#draft-bar", Keys.PAGE_UP)
        alfa.until("asked again", lambda: puts_of(setting, "alfa") > asked)
        if alfa.verdict() == "free":
            return step
    raise TimeoutError("alfa: no free time within twelve hours")


def planned_over(rows: Rows, setting: Setting) -> None:
    """Bravo is planned over a flight in use, and over one of alfa's that is planned elsewhere, for later that day."""
    (plan,) = desk_itself(setting, "alfa").plans()
    rows.equal("bravo: over it", "Completed", desk_itself(setting, "bravo").plan(new_id(), plan.area, 30).result)
    later = [replace(volume, start=volume.start + 9 * HOUR, end=volume.end + 9 * HOUR) for volume in plan.area]
    desk_itself(setting, "alfa").plan(ELSEWHERE, later, 10).demand()
    desk_itself(setting, "bravo").plan(new_id(), later, 40).demand()


def hears_of_it(rows: Rows, setting: Setting, alfa: Page, before: int) -> None:
    """The page has told of both by itself, within the minute and a little; that the desk was killed meanwhile, and
    didn't answer for a while, it doesn't tell."""
    message = alfa.told("survey: it has a conflict", LOOKS)
    rows.holds("alfa: with its point", "priority 30 at 47.3" in message)
    # the look that has told of the one may have been taken before the other was there
    other = alfa.told("11111111: it is new at the desk, and wasn't planned in this page; it has a conflict", LOOKS)
    rows.holds("alfa: the other one's point", "priority 40 at 47.3" in other)
    rows.equal("alfa: nothing else is told", before + 2, len(alfa.messages()))
    looked_at = "1 in use, 1 within a day: last looked at"
    alfa.until("what is looked at", lambda: looked_at in alfa.text("#watch"))
    rows.holds("alfa: in the title", alfa.driver.title.startswith("(2!)"))
    desk_itself(setting, "alfa").clear(desk_itself(setting, "alfa").show(ELSEWHERE).area)
    rows.holds(
        "alfa: on the map and in the table",
        alfa.all(".conflict-mark") and "conflict with priority 30" in alfa.text("#plans"),
    )


def changed_by_mouse(rows: Rows, alfa: Page) -> None:
    """Reports, a way back that is refused, and a report that is the last word."""
    alfa.click("#off-nominal")
    alfa.told("Report off-nominal: survey: done, it is off-nominal")
    alfa.click("#activate")
    alfa.told("Activate survey: refused (conflict), it stays off-nominal")
    alfa.click("#contingent")
    alfa.click("#question .danger")
    alfa.told("Report contingent: survey: done, it is off-nominal")
    rows.equal("alfa: contingent", ("‼ contingent", []), (alfa.text("#plan-status"), alfa.all("#activate")))


def ended(rows: Rows, setting: Setting, alfa: Page) -> None:
    """Closes the flight, and clears it."""
    alfa.click("#close")
    alfa.click("#question button:not(.danger)")
    rows.equal("alfa: not closed", "OffNominal", desk_itself(setting, "alfa").plans()[0].status)
    alfa.click("#close")
    alfa.click("#question .danger")
    alfa.told("Close survey: done, it is closed")
    rows.equal("alfa: closed", "Closed", desk_itself(setting, "alfa").plans()[0].status)
    alfa.click("#clear")
    alfa.until("the question", lambda: "Remove survey from the desk?" in alfa.text("#question"))
    alfa.click("#question .danger")
    alfa.told("Clear: 1 flight removed")
    rows.equal("alfa: cleared", [], desk_itself(setting, "alfa").plans())
    desk_itself(setting, "bravo").clear(
        area_of(Polygon(WIDE), (-1_000, 20_000), int(time.time()) - 12 * HOUR, int(time.time()) + 40 * HOUR)
    )
