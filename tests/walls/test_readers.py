"""Clients that read a List slowly: how many there may be, and for how long."""

from __future__ import annotations

import contextlib
import json
import socket
import time
from collections import Counter
from collections.abc import Iterator

import pytest
from harness.rows import Rows
from walls.given import ALFA, PATIENCE, Walls, exchange, status_of, walls_of
from walls.given import request as asked
from walls.stub import Came, answer

pytestmark = [pytest.mark.proxy, pytest.mark.quick]

LIST = answer(200, json.dumps("x" * 8_000_000).encode())
ANY_NUMBER = {"rate=12r/m;": "rate=100r/s;", "zone=lists burst=1": "zone=lists burst=99"}
"""Any number of Lists."""
TIMES = {"short": "send_timeout 3s;", "long": "send_timeout 60s;"}
"""A third of the time that a slow client has, and six times as much."""
SLOWLY, STEADILY = 700, 16_000
"""Bytes in each tenth of a second, where some 40 KB have to be read in three seconds: half of that, and twelve times
that."""


@pytest.fixture
def walls(request: pytest.FixtureRequest) -> Iterator[Walls]:
    """The proxy before a stub that has a List of 8 MB, with the time for slow clients that the parameter names."""

    def reply(came: Came) -> bytes:
        return LIST if came.first.startswith(b"GET /flight_plans ") else answer(200, b"{}")

    with walls_of(reply, texts={**ANY_NUMBER, "send_timeout 10s;": TIMES[request.param]}) as made:
        yield made


def reader(walls: Walls) -> socket.socket:
    """A client that has asked for alfa's List and has small buffers, so that it takes no more than it reads."""
    link = socket.socket()
    link.setsockopt(socket.SOL_SOCKET, socket.SO_RCVBUF, 16_384)
    link.settimeout(PATIENCE)
    link.connect(("127.0.0.1", walls.port))
    link.sendall(asked("GET", "/flight_plans", ALFA))
    return link


@pytest.mark.parametrize("walls", ["long"], indirect=True)
def test_many(rows: Rows, walls: Walls) -> None:
    """Of twenty that read nothing four are served, and there is nothing for the others; the operator is served beside
    them."""
    with contextlib.ExitStack() as left:
        links = [left.enter_context(reader(walls)) for _ in range(20)]
        got = Counter(status_of(link.recv(12)) for link in links)
        rows.equal("their answers", {200: 4, 429: 16}, got)
        rows.equal("beside them", 200, status_of(exchange(walls.port, asked("GET", "/status", ALFA))))


def seconds_of(walls: Walls, each: int, most: float) -> tuple[float, int]:
    """For how many seconds a client that reads so many bytes each tenth of a second is served, at most so long, and how
    many bytes it has then."""
    begun, size = time.monotonic(), 0
    with reader(walls) as link, contextlib.suppress(ConnectionError):
        while time.monotonic() < begun + most and (part := link.recv(each)):
            size += len(part)
            time.sleep(0.1)
    return time.monotonic() - begun, size


@pytest.mark.parametrize("walls", ["short"], indirect=True)
def test_long(rows: Rows, walls: Walls) -> None:
    """One that reads steadily is served; one that reads a twentieth of that is cut off."""
    seconds, size = seconds_of(walls, STEADILY, 10)
    rows.holds(f"a steady client is served: {size} bytes in {seconds:.0f} s", seconds >= 10)
    seconds, size = seconds_of(walls, SLOWLY, 60)
    rows.at_most(f"seconds until a slow client is cut off ({size} bytes)", 45, seconds)
