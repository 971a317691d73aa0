"""Makes the pictures of docs/clients.md: a day of flights, one that is drawn and blocked, the same on a phone.

    PYTHONPATH=tests:clients/python:clients/map /usr/bin/python3 -m map.pictures      (with pngquant)
"""

import pathlib
import struct
import subprocess
import time
from collections.abc import Sequence
from typing import Any

from clients.given import desk_itself
from harness.places import DOCS
from harness.setting import Setting
from map.browser import Page, Program, browser
from map.given import HOUR, MAP_PATIENCE, OPERATORS
from uss_desk_client import Circle, Corridor, Polygon, area_of, new_id
from uss_desk_client.shapes import Shape

Place = tuple[float, float]
GROUND, SEA = 408, 47
"""Metres: the ground above the sea, the sea above the ellipsoid."""
IMAGES = DOCS / "images"


def run() -> None:
    """Makes the pictures anew."""
    with Setting(OPERATORS) as setting, browser() as driver:
        program = Program(setting, "alfa", MAP_PATIENCE, *heights_in(setting.folder))
        try:
            make_pictures(setting, Page(driver, program.address))
        finally:
            program.end()


def heights_in(folder: pathlib.Path) -> Sequence[str]:
    """The options of the map's program for flat ground and a flat sea, as they are near Zurich."""
    (folder / "N47E008.hgt").write_bytes(struct.pack(">h", GROUND) * 1_201**2)
    (folder / "sea.gtx").write_bytes(struct.pack(">4d2i4f", -90, -180, 180, 180, 2, 2, SEA, SEA, SEA, SEA))
    return ["--heights", str(folder), "--geoid", str(folder / "sea.gtx")]


def above_ellipsoid(lower: float, upper: float) -> tuple[float, float]:
    """Altitudes above the ground as the desk counts them."""
    return lower + GROUND + SEA, upper + GROUND + SEA


def make_pictures(setting: Setting, page: Page) -> None:
    """A day of flights; one that is drawn and blocked, in the dark; the same on a phone."""
    page.size(1200, 760)
    page.scheme("light")
    day = page.js(
        """const day = new Date();
        return Math.round(new Date(day.getFullYear(), day.getMonth(), day.getDate() + 1) / 1000)"""
    )
    page.js(
        """const key = `uss_desk_map drafts alfa ${arguments[0]}`;
        localStorage.setItem(key, JSON.stringify(arguments[1]));""",
        setting.url,
        plan_a_day(setting, day),
    )
    page.load()
    page.go_to(47.3772, 8.5410)
    page.click("tr[data-id='33333333-3333-4333-8333-333333333333'] .name")
    time.sleep(1)
    page.js("document.querySelector('#flights').scrollTo(0, 0)")
    page.js("document.querySelectorAll('.message').forEach((one) => one.remove()); document.activeElement.blur()")
    save(page, "map-flights.png")
    draw_a_blocked_one(page, day)
    page.scheme("dark")
    save(page, "map-blocked.png")
    page.scheme("light")
    page.size(390, 844, is_mobile=True)
    page.js("scrollTo(0, 0)")
    save(page, "map-small.png")


FLIGHTS: Sequence[tuple[str, str, list[Place], float, tuple[int, int], tuple[float, float], int]] = (
    (
        "field survey",
        "polygon",
        [(8.5200, 47.3700), (8.5360, 47.3690), (8.5400, 47.3790), (8.5280, 47.3830), (8.5190, 47.3780)],
        0,
        (60, 120),
        (9, 11),
        10,
    ),
    (
        "river line",
        "line",
        [(8.5300, 47.3640), (8.5450, 47.3665), (8.5600, 47.3650), (8.5720, 47.3690)],
        150,
        (30, 90),
        (10, 12.5),
        20,
    ),
    ("lake", "circle", [(8.5580, 47.3800)], 450, (80, 180), (9.5, 14), 10),
    ("test flight", "circle", [(8.5480, 47.3890)], 250, (0, 60), (14, 16), 10),
)
"""Of the pictures: name, kind, places, metres, altitudes, hours, priority."""


def shape_of(kind: str, places: Sequence[Place], metres: float) -> Shape:
    """The shape that one has drawn."""
    if kind == "circle":
        return Circle(places[0], metres)
    return Polygon(places) if kind == "polygon" else Corridor(places, metres)


def plan_a_day(setting: Setting, day: int) -> list[dict[str, Any]]:
    """Flights of alfa and of bravo; what the browser keeps of alfa's, as if they had been drawn there."""
    alfa, bravo, kept = desk_itself(setting, "alfa"), desk_itself(setting, "bravo"), list[dict[str, Any]]()
    for digit, (name, kind, places, metres, (lower, upper), hours, priority) in zip("1234", FLIGHTS):
        plan_id = f"{digit * 8}-{digit * 4}-4{digit * 3}-8{digit * 3}-{digit * 12}"
        start, end = (day + int(hour * HOUR) for hour in hours)
        area = area_of(shape_of(kind, places, metres), above_ellipsoid(lower, upper), start, end)
        alfa.plan(plan_id, area, priority).demand()
        kept.append(
            {
                "id": plan_id,
                "name": name,
                "kind": kind,
                "places": places,
                "cells": [],
                "metres": metres,
                "above": "ground",
                "lower": lower,
                "upper": upper,
                "ground": None,
                "start": start,
                "end": end,
                "priority": priority,
                "at_most": 64,
            }
        )
    alfa.activate(kept[1]["id"]).demand()
    alfa.close(kept[3]["id"])
    for place, radius, height, hours in (
        ((8.5640, 47.3830), 300, (100, 300), (10, 13)),
        ((8.5480, 47.3740), 350, (0, 300), (9, 13)),
    ):
        start, end = (day + hour * HOUR for hour in hours)
        area = area_of(Circle(place, radius), above_ellipsoid(*height), start, end)
        bravo.plan(new_id(), area, 40).demand()
    return kept


def draw_a_blocked_one(page: Page, day: int) -> None:
    """Draws one by the mouse, and asks what blocks it."""
    page.draw_by_mouse("polygon", [(0.42, 0.38), (0.7, 0.36), (0.74, 0.62), (0.5, 0.66)])
    page.type("#draft-name", "roof inspection")
    page.altitudes(60, 120, "ground")
    page.js("document.activeElement.blur()")
    while page.drafts()[-1]["start"] < day + 10 * HOUR:
        page.click(".draft-form .row button:last-child")
    page.click("#ask")
    page.verdict()
    page.click("#draft-actions button:last-child")
    page.click(f"tr[data-id='{page.drafts()[-1]['id']}'] .name")
    page.js("document.querySelector('#chosen').scrollIntoView(); document.activeElement.blur()")
    time.sleep(1)


def save(page: Page, name: str) -> None:
    """Saves what the page shows."""
    time.sleep(1)
    page.driver.save_screenshot(str(IMAGES / name))
    subprocess.run(
        ["pngquant", "--force", "--speed", "1", "--output", IMAGES / name, "64", IMAGES / name], check=True
    )
    print(f"{IMAGES / name}: {(IMAGES / name).stat().st_size:,} bytes")


if __name__ == "__main__":
    run()
