"""A desk that is killed in mid-run and started again, while a client plans, changes and closes at its own port."""

from __future__ import annotations

import random
import threading
import time
from collections.abc import Callable
from datetime import datetime

import pytest
from clients.given import at, desk_itself
from harness.requests import FACES
from harness.rows import Rows
from harness.setting import Setting
from uss_desk_client import Answer, Circle, Desk, area_of, area_over

pytestmark = pytest.mark.proxy

PLANS, STEPS_A_KILL = 40, 14


class Killer:
    """Kills the desk in mid-run, a few moments after each so many steps of the work have begun. However late a kill
    comes on a busy machine, the next one waits for it."""

    def __init__(self, setting: Setting) -> None:
        self._setting, self._steps, self._some = setting, 0, random.Random(1)
        self._thread: threading.Thread | None = None

    def __enter__(self) -> Killer:
        return self

    def __exit__(self, *_: object) -> None:
        self._wait()

    def step(self) -> None:
        """A step of the work begins."""
        self._steps += 1
        if self._steps % STEPS_A_KILL == 0:
            self._wait()
            self._thread = threading.Thread(target=self._kill, args=(self._some.uniform(0, 0.01),))
            self._thread.start()

    def _kill(self, seconds: float) -> None:
        """Kills the desk after so many seconds."""
        time.sleep(seconds)
        self._setting.kill()

    def _wait(self) -> None:
        """Waits until the last kill was done."""
        if self._thread:
            self._thread.join()


def second(moment: datetime) -> int:
    """A moment in Unix seconds."""
    return int(moment.timestamp())


def life_of(desk: Desk, plan_id: str, number: int, do: Callable[[Callable[[], Answer]], None]) -> tuple[str, int]:
    """Plans a flight, activates each third, closes each fourth; its status and priority then."""
    area = area_of(Circle((8 + number / 100, 47), 50), (10, 20), at(12), at(13), 6)
    status, priority = "Planned", number
    do(lambda: desk.plan(plan_id, area, number))
    if number % 3 == 0:
        do(lambda: desk.activate(plan_id, area, number + 1))
        status, priority = "OkToFly", number + 1
    if number % 4 == 0:
        do(lambda: desk.close(plan_id))
        status = "Closed"
    return status, priority


@pytest.mark.quick
def test_kills(rows: Rows, setting: Setting, record_property: Callable[[str, object], None]) -> None:
    """What was answered is there, once."""
    alfa = desk_itself(setting, "alfa")
    for begin in (-24, 0, 24, 48):
        alfa.clear(area_over(FACES, -10_000, 200_000, second(at(begin)), second(at(begin + 24))))
    rows.equal("before the kills", 0, len(alfa.plans()))
    starts, wanted, results = setting.starts, dict[str, tuple[str, int]](), list[Answer]()
    with Killer(setting) as killer:

        def do(step: Callable[[], Answer]) -> None:
            killer.step()
            results.append(step())

        for number in range(PLANS):
            plan_id = f"00000000-0000-4000-8000-{number:012d}"
            wanted[plan_id] = life_of(alfa, plan_id, number, do)
    rows.equal("while the desk is killed", {"Completed"}, {answer.result for answer in results})
    there = {plan.plan_id: (plan.status, plan.priority) for plan in alfa.plans()}
    rows.equal("what was answered is there, once", wanted, there)
    rows.holds("the desk was killed", setting.starts - starts >= 3)
    record_property("kills of the desk", setting.starts - starts)
    record_property("answers that a kill lost at first", sum(answer.was_lost for answer in results))
