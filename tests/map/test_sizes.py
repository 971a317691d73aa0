"""The page on small and large screens, in dark and in light, and by the keyboard."""

import pytest
from clients.given import desk_itself
from harness.rows import Rows
from harness.setting import Setting
from map.browser import Driver, Page, Programs
from map.given import MEADOW, MIDDLE
from selenium.webdriver.common.keys import Keys

pytestmark = [pytest.mark.alone, pytest.mark.proved, pytest.mark.browser, pytest.mark.proxy]

SIZES = ((390, 844), (1200, 800), (3840, 2160))


def test_sizes(rows: Rows, programs: Programs, driver: Driver) -> None:
    """Of use at 360 pixels and at 4k, dark and light, and by keys."""
    page = Page(driver, programs["bravo"].address)
    page.go_to(*MIDDLE)
    page.size(360, 740, is_mobile=True)
    before = len(page.drafts())
    page.draw_by_keys("circle", [(Keys.ARROW_UP, 1)])
    page.altitudes(60, 120)
    page.type("#draft-priority", "95")
    page.click("#ask")
    rows.equal("360 pixels: asked", "free", page.verdict())
    rows.equal("360 pixels: drawn", before + 1, len(page.drafts()))
    fits(rows, page, "360 pixels", 360)
    page.size(3840, 2160)
    fits(rows, page, "4k", 3840)
    rows.holds("4k: larger letters", page.js("return parseFloat(getComputedStyle(document.body).fontSize)") >= 22)
    colours(rows, page)
    reached_by_keys(rows, page)


def fits(rows: Rows, page: Page, what: str, width: int) -> None:
    """Nothing but what scrolls by itself reaches beyond the page's width; what is pressed is large enough."""
    rows.equal(f"{what}: the page's width", width, page.js("return document.documentElement.scrollWidth"))
    small = page.js(
        """return [...document.querySelectorAll("button:not(.plain), select, input:not([type=checkbox])")]
        .filter((one) => one.offsetParent && !one.closest(".wide"))
        .map((one) => [one.id || one.textContent, one.getBoundingClientRect()])
        .filter(([, box]) => box.left < 0 || box.right > innerWidth || Math.max(box.height, box.width) < 24)
        .map(([name]) => name)"""
    )
    rows.equal(f"{what}: what can't be pressed", [], small)


def colours(rows: Rows, page: Page) -> None:
    """In dark and in light, words stand out from their ground by 4.5 to 1."""
    found = {}
    for scheme in ("light", "dark"):
        page.scheme(scheme)
        found[scheme] = page.js(CONTRASTS)
        rows.equal(f"{scheme}: words that don't stand out", [], [one for one in found[scheme] if one[1] < 4.5])
    rows.holds("dark isn't light", found["dark"] != found["light"])


CONTRASTS = """
    const style = getComputedStyle(document.documentElement);
    const light = (name) => {
        const hex = style.getPropertyValue(name).trim().slice(1).match(/../g).slice(0, 3);
        const parts = hex.map((two) => parseInt(two, 16) / 255);
        const [red, green, blue] = parts.map((one) => (one <= 0.03928 ? one / 12.92 : ((one + 0.055) / 1.055) ** 2.4));
        return 0.2126 * red + 0.7152 * green + 0.0722 * blue;
    };
    const pairs = [["--main-ink", "--main"]];
    for (const name of ["ink", "dim", "danger", "done", "planned", "in-use", "off", "closed", "draft", "blocked"]) {
        pairs.push([`--${name}`, "--panel"], [`--${name}`, "--paper"]);
    }
    return pairs.map(([one, other]) => {
        const [low, high] = [light(one), light(other)].sort((a, b) => a - b);
        return [`${one} on ${other}`, (high + 0.05) / (low + 0.05)];
    });
"""


def reached_by_keys(rows: Rows, page: Page) -> None:
    """The tabulator reaches what acts, and shows where it is."""
    wanted = {"go-to", "map", "moment", "height", "new-polygon", "ask", "plan", "list-again", "draft-bar", "theme"}
    page.js("document.activeElement.blur(); scrollTo(0, 0)")
    seen, unseen = set[str](), list[str]()
    for _ in range(90):
        page.press(Keys.TAB)
        name, outline = page.js(
            """const one = document.activeElement;
            return [one === document.body ? "body" : one.id, getComputedStyle(one).outlineStyle]"""
        )
        seen.add(name)
        if outline == "none" and name not in ("body", "draft-bar"):
            unseen.append(name)
        if wanted <= seen:
            break
    rows.equal("keys: not reached", set(), wanted - seen)
    rows.equal("keys: reached, and not shown", [], unseen)


def test_what_is_said(rows: Rows, setting: Setting, programs: Programs, driver: Driver) -> None:
    """What the desk said stands in view beneath the pressed button, at each size, and is read out; what is chosen is
    scrolled to."""
    page = Page(driver, programs["bravo"].address)
    page.go_to(*MEADOW)
    page.size(390, 844, is_mobile=True)
    page.click("#new-circle")
    page.until("the map is in view", lambda: page.is_in_view("#map"))
    page.click("#drawing button:first-of-type")
    page.until("the card is in view", lambda: page.is_in_view("#chosen h2"))
    page.until("the focus is in the card", lambda: bool(page.js("return document.activeElement.tagName === 'H2'")))
    page.type("#draft-metres", "200")
    page.altitudes(60, 120)
    page.type("#draft-priority", "101")
    page.click("#plan")
    said_beneath(rows, page, "refused (priority)", "spoken-at-once", "assertive")
    page.type("#draft-priority", "10")
    page.click("#plan")
    said_beneath(rows, page, "done, it is planned", "spoken", "polite")
    for width, height in SIZES:
        page.size(width, height, is_mobile=width < 400)
        page.click("#chosen .said .message button:last-child")
        page.click("#look")
        said_beneath(rows, page, "no conflict", "spoken", "polite")
    page.size(390, 844, is_mobile=True)
    name = page.js("return document.querySelector('tr.chosen').dataset.id")
    page.click("#plan-actions button:last-child")
    page.click(f"tr[data-id='{name}'] .name")
    page.until("the chosen card is in view", lambda: page.is_in_view("#chosen h2"))
    page.click("#activate")
    said_beneath(rows, page, "done, it is in use", "spoken", "polite")
    bravo = desk_itself(setting, "bravo")
    bravo.clear(bravo.show(name).area)


def said_beneath(rows: Rows, page: Page, words: str, region: str, manner: str) -> None:
    """Something is said beneath the buttons of the chosen flight, in view, and to whoever can't see it."""
    page.until(words, lambda: words in page.said())
    size = page.js("return `${innerWidth} x ${innerHeight}`")
    rows.holds(
        f"{words}, at {size}: in view", page.until("in view", lambda: page.is_in_view("#chosen .said .message"))
    )
    rows.has(
        f"{words}, at {size}: read out", words, page.js(f"return document.getElementById('{region}').textContent")
    )
    rows.equal(f"{words}: how it is read out", manner, page.value(f"#{region}", "aria-live"))
