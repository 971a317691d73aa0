"""What may go wrong between the page and the desk: all is told, and nothing is lost that was drawn."""

import base64
import http.client
import re

from clients.given import desk_itself
from harness.rows import Rows
from harness.setting import Setting
from map.browser import PATIENCE, Page, Program
from map.given import AROUND_ASIDE, ASIDE, OPERATORS, SHORT
from selenium.webdriver.common.keys import Keys
from uss_desk_client import Polygon, area_of, new_id

TRIES = 30
"""How often a List is asked that comes too soon behind others."""


def troubles(rows: Rows, setting: Setting, page: Page, program: Program) -> None:
    """A wrong password, a desk that is killed or held, too many requests: all is told, and nothing is lost."""
    page.go_to(*ASIDE)
    page.draw_by_keys("line", [(Keys.ARROW_UP, 1), (Keys.ARROW_RIGHT, 2)])
    page.until("the cells", lambda: "cells: they take" in page.text("#cover"))
    page.altitudes(60, 120)
    drawn = page.drafts()
    wrong_password(rows, page, program)
    killed(rows, setting, page)
    held(rows, setting, page)
    free_time(rows, setting, page)
    too_many(rows, setting, page)
    rows.equal(
        "carol: nothing that was drawn is lost",
        [one["places"] for one in drawn],
        [one["places"] for one in page.drafts()],
    )
    rows.equal("complaints of the page", [], page.errors())


def wrong_password(rows: Rows, page: Page, program: Program) -> None:
    """A wrong password is told; once it is mended, a button asks again."""
    program.set_password("another word")
    page.click("#plan")
    page.told("Plan line 1: the user's name or password is wrong")
    program.set_password(OPERATORS["carol"])
    page.click("#chosen .message.trouble button")
    page.told("Plan line 1: done, it is planned")
    rows.holds("carol: planned after the password was mended", page.all("#activate"))


def killed(rows: Rows, setting: Setting, page: Page) -> None:
    """The desk is killed and started again: a change is asked again until it is done. Where a start takes longer than
    the page asks, its button asks again."""
    done, late = "Activate line 1: done, it is in use", f"no answer within {SHORT} s"

    def is_done() -> bool:
        said = " ".join(it for it in page.messages() if "Activate line 1" in it)
        if late in said:
            page.click("#chosen .message.trouble button")
        return done in said

    setting.kill()
    page.click("#activate")
    page.until("the flight in use", is_done)
    rows.equal(
        "carol: in use at the desk that was started again", "OkToFly", desk_itself(setting, "carol").plans()[0].status
    )


def held(rows: Rows, setting: Setting, page: Page) -> None:
    """The desk doesn't answer: that is told, and what was asked is asked again by a button."""
    page.click("#change")
    with setting.held():
        page.click("#ask")
        page.click("#asked button")
        rows.equal("carol: stopped", "stopped", page.verdict())
        page.click("#ask")
        rows.equal("carol: no answer", "trouble", page.verdict())
        rows.holds("carol: told in the page", f"no answer within {SHORT} s" in page.text("#asked"))
        page.until("the header", lambda: "the desk doesn't answer" in page.text("#desk"))
    page.until("the header", lambda: "the desk answers" in page.text("#desk"))
    page.click("#ask")
    rows.equal("carol: answered again", "free", page.verdict())


def too_many(rows: Rows, setting: Setting, page: Page) -> None:
    """Too many requests in a short time are told beneath the button that asked them: after the Lists that the proxy
    lets through at once, there is one more each five seconds."""
    words = "The flights couldn't be listed: too many requests in a short time"
    for _ in range(TRIES):
        while listed(setting) == 200:
            pass
        page.click("#list-again")
        page.until("the list", lambda: not page.all("#list-again[disabled]"))
        if any(words in it for it in page.messages()):
            break
    page.told(words)
    rows.has("carol: said beneath the button", "couldn't be listed", page.text("#plans .said"))


def listed(setting: Setting) -> int:
    """The status of a List of carol's."""
    word = base64.b64encode(f"carol:{OPERATORS['carol']}".encode()).decode()
    link = http.client.HTTPConnection("127.0.0.1", setting.nginx.port, timeout=PATIENCE)
    try:
        link.request("GET", "/flight_plans", headers={"authorization": f"Basic {word}"})
        return link.getresponse().status
    finally:
        link.close()


def free_time(rows: Rows, setting: Setting, page: Page) -> None:
    """Others hold the place for an hour: the free times of the day begin when that ends."""
    (plan,) = desk_itself(setting, "carol").plans()
    start, end = plan.area[0].start, plan.area[0].end
    rows.equal(
        "bravo: over it",
        "Completed",
        desk_itself(setting, "bravo")
        .plan(new_id(), area_of(Polygon(AROUND_ASIDE), (0, 300), start - 60, end), 90)
        .result,
    )
    page.click("#find-free")
    page.until("the free times", lambda: page.value("#times", "data-state") == "free")
    rows.equal("carol: one free time", 1, len(page.all(".free-times li")))
    rows.holds("carol: found by few requests", puts_told(page) < 30)
    page.until("the free time in the bar of time", lambda: len(page.all(".free-span")) == 1)
    page.click(".free-times button")
    page.until("the flight is moved", lambda: bool(page.drafts()[0]["start"] != start))
    rows.equal("carol: to where it is free", [end], [one["start"] for one in page.drafts()])
    page.click("#plan")
    page.told("Change line 1: done, it is in use")
    page.until("the form is put away", lambda: not page.all("#draft-name") and not page.all("#draft-bar"))
    rows.equal("carol: moved", end, desk_itself(setting, "carol").show(plan.plan_id).area[0].start)


def puts_told(page: Page) -> int:
    """How many requests have found the free times."""
    found = re.search(r"found by (\d+) request", page.text("#times"))
    assert found, page.text("#times")
    return int(found[1])
