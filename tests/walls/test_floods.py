"""Several floods at once at the queue, and an operator that asks now and then. Everything takes a fifth of the time, or
more on a machine that is too slow for that."""

from __future__ import annotations

import threading
import time
from typing import NamedTuple

import pytest
from harness.rows import Rows
from walls.given import Walls, exchange, request, status_of, walls_of
from walls.stub import Came, as_a_desk

pytestmark = [pytest.mark.alone, pytest.mark.proxy, pytest.mark.slow]

FLOODS = ("alfa", "bravo", "carol", "delta")
AT_ONCE = 16
"""What nginx.conf lets an operator have under way at once."""
SECONDS = (0.2, 0.5, 1.0)
"""That the desk takes for each request: a second, in a fifth of the time, in half of it, and in all of it."""
KEPT = 1.2
"""Up to so many times these seconds the desk takes for a request on a machine that is fast enough for them."""
MOST = 3
"""Requests of others that the desk takes up while the quiet one waits. So it waits for four at most: these, and what is
left of the one before."""
FULL = 80
"""Requests after which the oldest one in the queue is as old as one gets."""


class Paced:
    """A desk that answers one request each so many seconds. What a machine takes for each itself is within them."""

    def __init__(self, seconds: float) -> None:
        self._seconds, self._last = seconds, 0.0

    def reply(self, came: Came) -> bytes:
        """The answer, when its moment has come."""
        self._last = max(time.monotonic(), self._last + self._seconds)
        time.sleep(max(0.0, self._last - time.monotonic()))
        return as_a_desk(came)


class Found(NamedTuple):
    """The statuses of the floods, those of the quiet one and for how many others it waited each time, and the seconds
    that the desk took for each request."""

    floods: set[int]
    quiet: list[int]
    waits: list[int]
    each: float


def flood(walls: Walls, name: str, ended: threading.Event, statuses: list[int]) -> None:
    """Asks one thing after the other."""
    sent = request("PUT", "/flight_plans/x", f"x-operator: {name}\r\nconnection: close\r\n".encode(), body=b"{}")
    while not ended.is_set():
        statuses.append(status_of(exchange(walls.queue_port, sent)))


def flooded(seconds: float) -> Found:
    """Four operators that have sixteen requests each at the queue, and the fifth that asks now and then."""
    ended, statuses, quiet, waits = threading.Event(), list[int](), list[int](), list[int]()
    texts = {"mul(6000)": f"mul({6000 * seconds:.0f})", "timeout queue 100s": f"timeout queue {100 * seconds:.0f}s"}
    with walls_of(Paced(seconds).reply, queue_texts=texts) as walls:
        threads = [
            threading.Thread(target=flood, args=(walls, name, ended, statuses))
            for name in FLOODS
            for _ in range(AT_ONCE)
        ]
        for thread in threads:
            thread.start()
        time.sleep(FULL * seconds)
        for _ in range(12):
            came = len(walls.stub.came)
            got = exchange(walls.queue_port, request("GET", "/status", b"x-operator: echo\r\nconnection: close\r\n"))
            others = [one.field(b"x-operator") != [b"echo"] for one in walls.stub.came[came:]]
            quiet.append(status_of(got))
            waits.append(others.index(False) if quiet[-1] == 200 else len(others))
            time.sleep(0.2)
        moments = [one.moment for one in walls.stub.came]
        ended.set()
        for thread in threads:
            thread.join()
    return Found(set(statuses), quiet, waits, (moments[-1] - moments[0]) / len(moments))


def test_floods(rows: Rows) -> None:
    """Four operators have sixteen requests each at the queue, of a second each; the fifth waits four at most."""
    for seconds in SECONDS:
        found = flooded(seconds)
        if found.each <= KEPT * seconds:
            break
    rows.equal("the floods", {200}, found.floods)
    rows.equal("the quiet one", [200] * 12, found.quiet)
    rows.at_most(f"the longest wait, of {found.waits}, with {found.each:.2f} s for each", MOST, max(found.waits))
