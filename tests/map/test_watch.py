"""What has changed of an operator's flights is told, by whoever it was changed; a desk that restarts is no change."""

from collections.abc import Iterator, Sequence
from dataclasses import replace

import pytest
from clients.given import at, desk_itself
from harness.rows import Rows
from harness.setting import Setting
from map.browser import Driver, Page, Program
from map.given import MAP_PATIENCE
from uss_desk_client import Circle, Desk, area_of

pytestmark = [pytest.mark.alone, pytest.mark.browser, pytest.mark.proxy]

NAMES = "abcde"
IDS = [f"{letter * 8}-{letter * 4}-4{letter * 3}-8{letter * 3}-{letter * 12}" for letter in NAMES]
"""Of flights that lie side by side, and are called by the beginnings of their ids."""


def plan(desk: Desk, number: int, priority: int = 10) -> None:
    """Plans a flight for tomorrow."""
    area = area_of(Circle((9.0 + number / 50, 46.5), 200), (600, 700), at(12), at(13))
    desk.plan(IDS[number], area, priority).demand()


@pytest.fixture
def program(setting: Setting) -> Iterator[Program]:
    """The map's program of alfa at the desk's own port, where it may list as often as it wants."""
    words = ["--url", f"http://127.0.0.1:{setting.port}", "--operator", "alfa"]
    made = Program(setting, "alfa", MAP_PATIENCE, *words)
    yield made
    made.end()


def test_changes(rows: Rows, setting: Setting, program: Program, driver: Driver) -> None:
    """Each flight that was changed elsewhere is told with what has changed, and nothing else."""
    alfa, bravo = desk_itself(setting, "alfa"), desk_itself(setting, "bravo")
    for number in range(4):
        plan(alfa, number)
    page = Page(driver, program.address)
    rows.equal("nothing is new at first", [], [it for it in page.messages() if "aaaaaaaa" in it])
    stored = {one.plan_id: one for one in alfa.plans()}
    bravo.plan(IDS[4], stored[IDS[0]].area, 77).demand()
    alfa.activate(IDS[1]).demand()
    moved = [replace(one, start=one.start + 3600, end=one.end + 3600, upper=8000) for one in stored[IDS[2]].area]
    alfa.change(IDS[2], moved, 12).demand()
    told = listed_again(page)
    wanted = [
        ("aaaaaaaa: it has a conflict: another flight was planned over it. First point: priority 77 at 46.",),
        ("bbbbbbbb: it is in use, and was planned.",),
        ("cccccccc: its priority is 12, and was 10;", "its time is", "it flies at 600 m to 800 m, and did at 600 m"),
    ]
    rows.equal("flights that are told of", len(wanted), len(told))
    for parts, words in zip(wanted, reversed(told)):
        rows.equal("what has changed", [], [part for part in parts if part not in words])
    setting.kill()
    desk_itself(setting, "alfa").status()
    rows.equal("after a restart nothing is told", [], listed_again(page))
    bravo.clear(stored[IDS[0]].area)
    rows.equal("a conflict that has gone", ["aaaaaaaa: it has no conflict any more."], plain(listed_again(page)))
    for name in IDS[:4]:
        alfa.clear(alfa.show(name).area)
    gone = " ".join(f"{name[:8]}: it isn't at the desk any more." for name in IDS[:4])
    rows.equal("many changes, in one message", [f"4 flights have changed. {gone}"], plain(listed_again(page)))


def listed_again(page: Page) -> Sequence[str]:
    """Lists the flights again; what is told of it, newest first."""
    page.js("document.querySelectorAll('.message > button').forEach((one) => one.click())")
    page.until("no message", lambda: not page.messages())
    page.click("#list-again")
    page.until("the list", lambda: not page.all("#list-again[disabled]"))
    return page.messages()


def plain(told: Sequence[str]) -> Sequence[str]:
    """What is told without the time and the buttons, oldest first."""
    return [words.split(" ", 1)[1].replace(" Look at it", "").strip() for words in reversed(told)]
