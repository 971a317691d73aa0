"""What is drawn is what is planned: no corner is lost, no altitude is guessed, and what may be a mistake is asked."""

import pathlib
import struct
from collections.abc import Iterator

import pytest
from clients.given import desk_itself
from harness.rows import Rows
from harness.setting import Setting
from map.browser import Driver, Page, Program, Programs
from map.given import MAP_PATIENCE, MEADOW

pytestmark = [pytest.mark.alone, pytest.mark.browser, pytest.mark.proxy]

BUTTONS = {
    "S2 cells": "#has-cells",
    "Go": ".tools [type=submit]",
    "zoom out": ".leaflet-control-zoom-out",
    "zoom in": ".leaflet-control-zoom-in",
    "the day before": "#time .row button:nth-of-type(2)",
    "the day after": "#time .row button:nth-of-type(3)",
    "only what is there now": "#moment-alone",
    "closed flights": "#has-closed",
    "List again": "#list-again",
}
"""What may be pressed while one draws."""
RING = [(0.3, 0.5), (0.33, 0.35), (0.42, 0.25), (0.5, 0.22), (0.58, 0.25), (0.67, 0.35), (0.7, 0.5), (0.65, 0.65),
        (0.55, 0.7), (0.4, 0.68)]  # fmt: skip
"""Points of the map around its middle, one more than buttons."""
SIDE = 1_201


@pytest.fixture
def page(programs: Programs, driver: Driver) -> Page:
    """Bravo's page over a meadow."""
    made = Page(driver, programs["bravo"].address)
    made.go_to(*MEADOW)
    return made


def test_corners(rows: Rows, page: Page) -> None:
    """Each click on the map is a corner, whatever is pressed before it; their number is shown before one plans."""
    page.click("#new-polygon")
    page.click_map(*RING[0])
    for count, ((name, selector), point) in enumerate(zip(BUTTONS.items(), RING[1:]), 2):
        page.click(selector)
        page.until("the map is at rest", lambda: not page.all(".leaflet-zoom-anim"))
        page.click_map(*point)
        rows.has(f"a corner after {name}", f"{count} corners", page.text("#drawing"))
    page.click("#drawing button:last-child")
    rows.equal("corners that are kept", 10, len(page.drafts()[-1]["places"]))
    page.until("the size", lambda: page.text("#drawn-told").startswith("10 corners, "))
    rows.holds("the size in km²", page.text("#drawn-told").endswith(" km²"))
    discard(page)


def discard(page: Page) -> None:
    """Discards what was drawn."""
    page.click("#discard")
    page.click("#question .danger")
    page.until("the form is put away", lambda: not page.all("#draft-name"))


def test_mistakes(rows: Rows, setting: Setting, page: Page) -> None:
    """A ring that crosses itself is named by its corners; a drawing that is very large is planned after a question."""
    page.draw_by_mouse("polygon", [(0.3, 0.3), (0.7, 0.7), (0.7, 0.3), (0.3, 0.7)])
    page.altitudes(600, 700)
    crossing = "the ring crosses itself: the edge from corner 1 to corner 2 and that from corner 3 to corner 4"
    page.until("what is wrong", lambda: crossing in page.text("#cover"))
    page.click("#plan")
    page.told(crossing)
    rows.has("said beneath the button", crossing, page.said())
    discard(page)
    page.draw_by_mouse("circle", [(0.5, 0.5)])
    page.type("#draft-metres", "6000")
    page.altitudes(600, 700)
    page.until("the size", lambda: page.text("#drawn-told") in ("113 km²", "114 km²"))
    before = len(desk_itself(setting, "bravo").plans())
    page.click("#plan")
    page.until("the question", lambda: "is very large: 11" in page.text("#question"))
    page.click("#question button:not(.danger)")
    rows.equal("not planned", before, len(desk_itself(setting, "bravo").plans()))
    page.click("#plan")
    page.click("#question .danger")
    page.told("Plan circle 1: done, it is planned")
    rows.equal("planned", before + 1, len(desk_itself(setting, "bravo").plans()))
    page.click("#clear")
    page.click("#question .danger")
    page.told("Clear: 1 flight removed")


def test_altitudes_that_are_typed(rows: Rows, page: Page) -> None:
    """Altitudes are empty at first; nothing is asked without them; what they come to is shown, with a warning."""
    page.draw_by_mouse("circle", [(0.4, 0.4)])
    empty = [page.value(f"#draft-{name}", "value") for name in ("lower", "upper", "ground")]
    rows.equal("empty at first", ["", "", ""], empty)
    rows.equal("nothing can be asked", 3, len(page.all("#draft-actions button[disabled]")))
    rows.has("what is missing", "Fill in both altitudes", page.text("#drawn"))
    page.altitudes(60, 120)
    page.until("a warning", lambda: "Nothing is known of the ground here" in page.text("#altitude-warning"))
    page.altitudes(60, 120, "ground")
    page.until("what is missing", lambda: "the height of the ground isn't known here" in page.text("#cover"))
    rows.holds("no altitudes above the ellipsoid", not page.all("#above-ellipsoid"))
    discard(page)


@pytest.fixture
def hilly(setting: Setting, tmp_path: pathlib.Path) -> Iterator[Program]:
    """The map's program with a tile of the ground, 500 m above the sea, and a grid of the sea, 50 m above the
    ellipsoid."""
    (tmp_path / "N46E007.hgt").write_bytes(struct.pack(">h", 500) * SIDE * SIDE)
    (tmp_path / "sea.gtx").write_bytes(struct.pack(">4d2i4f", -90, -180, 180, 180, 2, 2, 50, 50, 50, 50))
    words = ["--heights", str(tmp_path), "--geoid", str(tmp_path / "sea.gtx")]
    made = Program(setting, "carol", MAP_PATIENCE, *words)
    yield made
    made.end()


def test_altitudes_over_known_ground(rows: Rows, setting: Setting, driver: Driver, hilly: Program) -> None:
    """With tiles of heights the altitudes above the ground are sent above the ellipsoid, wherever it is drawn."""
    page = Page(driver, hilly.address)
    page.go_to(*MEADOW)
    page.draw_by_mouse("circle", [(0.5, 0.5)])
    rows.equal("above the ground at first", "ground", page.value("#draft-above", "value"))
    page.until("the ground", lambda: page.value("#draft-ground", "placeholder") == "500")
    page.altitudes(60, 120)
    page.until("it is underground", lambda: "lies below the ground, which rises to 550 m" in page.text("#drawn"))
    page.click("#plan")
    page.until("the question", lambda: "lies below the ground" in page.text("#question"))
    page.click("#question button:not(.danger)")
    page.altitudes(560, 620, "sea")
    page.until("above the sea", lambda: "610 m to 670 m above the WGS84 ellipsoid" in page.text("#drawn"))
    page.altitudes(60, 120, "ground")
    page.until("above the ground", lambda: "610 m to 670 m above the WGS84 ellipsoid" in page.text("#drawn"))
    page.click("#plan")
    page.told("Plan circle 1: done, it is planned")
    plan = next(one for one in desk_itself(setting, "carol").plans() if one.area[0].lower > 1200)
    rows.equal("as it is planned", (6100, 6700), (plan.area[0].lower, plan.area[0].upper))
    rows.equal("complaints of the page", [], page.errors())
    desk_itself(setting, "carol").clear(plan.area)
