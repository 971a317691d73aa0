"""A flight from its first corner to its end by the keyboard alone: no step loses the focus."""

import pytest
from clients.given import desk_itself
from harness.rows import Rows
from harness.setting import Setting
from map.browser import Driver, Page, Programs
from map.given import MEADOW
from selenium.webdriver.common.keys import Keys

pytestmark = [pytest.mark.alone, pytest.mark.browser, pytest.mark.proxy]

CORNERS = [(Keys.ARROW_UP, 1), (Keys.ARROW_RIGHT, 2), (Keys.ARROW_DOWN, 2), (Keys.ARROW_LEFT, 2)]
FIELDS = {
    "draft-name": "by keys",
    "draft-above": Keys.END,
    "draft-lower": "600",
    "draft-upper": "700",
    "draft-priority": "10",
}
"""What is typed into which field, in the order of the page. The last choice is above the WGS84 ellipsoid."""
NEAR = 12
"""How often the tabulator is pressed at most from one button of a card to another."""


def tabs_to(page: Page, name: str) -> int:
    """Presses the tabulator until an element has the focus; how often."""
    seen = list[str]()
    while name not in seen and len(seen) < 60:
        page.press(Keys.TAB)
        seen.append(page.js("return document.activeElement.id"))
    assert name in seen, f"{name} isn't reached: {seen}"
    return len(seen)


def press(rows: Rows, page: Page, name: str, words: str) -> None:
    """Presses a button of the card, and waits for what is said and until the next can be pressed."""
    rows.at_most(f"the way to {name}", NEAR, tabs_to(page, name))
    page.press(Keys.ENTER)
    page.told(words)
    page.until("it is at rest", lambda: not page.all("#plan-actions button[disabled]"))
    has_focus = page.js("return document.getElementById('chosen').contains(document.activeElement)")
    rows.holds(f"the focus is in the card after {name}", has_focus)


def test_life_by_keys(rows: Rows, setting: Setting, programs: Programs, driver: Driver) -> None:
    """Draws four corners, fills in the fields, plans, activates, looks again and closes."""
    page = Page(driver, programs["bravo"].address)
    page.go_to(*MEADOW)
    page.draw_by_keys("polygon", CORNERS)
    page.until("the size", lambda: page.text("#drawn-told").startswith("4 corners, "))
    for name, words in FIELDS.items():
        tabs_to(page, name)
        page.press(words)
    page.until("it can be planned", lambda: not page.all("#draft-actions button[disabled]"))
    press(rows, page, "plan", "Plan by keys: done, it is planned")
    press(rows, page, "activate", "Activate by keys: done, it is in use")
    rows.at_most("the way to close", NEAR, tabs_to(page, "close"))
    page.press(Keys.ENTER)
    page.until("the question", lambda: page.all("#question[open]"))
    rows.equal("the focus is at the harmless answer", "No", page.js("return document.activeElement.textContent"))
    page.press(Keys.ENTER)
    page.until("the focus is back", lambda: bool(page.js("return document.activeElement.id === 'close'")))
    press(rows, page, "look", "by keys: no conflict")
    page.press_back()
    rows.equal("close stands before it", "close", page.js("return document.activeElement.id"))
    page.press(Keys.ENTER)
    page.until("the question", lambda: page.all("#question[open]"))
    page.press_back()
    page.press(Keys.ENTER)
    page.told("Close by keys: done, it is closed")
    page.until("it can be cleared", lambda: page.all("#clear:not([disabled])"))
    rows.at_most("the way to clear", NEAR, tabs_to(page, "clear"))
    rows.equal("complaints of the page", [], page.errors())
    bravo = desk_itself(setting, "bravo")
    (closed,) = [plan for plan in bravo.plans() if (plan.status, plan.area[0].lower) == ("Closed", 6000)]
    rows.equal("as it was typed", (10, 7000), (closed.priority, closed.area[0].upper))
    bravo.clear(closed.area)
