"""What strangers have nginx write."""

from __future__ import annotations

import os
from collections import Counter
from concurrent.futures import ThreadPoolExecutor

import pytest
from harness.ports import until
from harness.rows import Rows, named
from walls.given import ALFA, Walls, basic, exchange, read, request, status_of

pytestmark = [pytest.mark.proxy, pytest.mark.quick]

MOST = 150
"""Bytes of a request's lines in all logs together."""
REQUESTS = 300
AT_ONCE = 8
ODD = b"/" + b"\xff" * 3000
STRANGE: list[tuple[str, bytes, set[int]]] = [
    ("odd bytes in a path", b"GET %s HTTP/1.1\r\nhost: localhost\r\n\r\n" % ODD, {400}),
    ("6,000 odd bytes", b"GET /%s HTTP/1.1\r\nhost: localhost\r\n\r\n" % (b"\xff" * 6000), {414}),
    ("quotes in a path", b"GET /%s HTTP/1.1\r\nhost: localhost\r\n\r\n" % (b'"\\' * 1500), {401, 429}),
    ("a long path", b"GET /%s HTTP/1.1\r\nhost: localhost\r\n\r\n" % (b"a" * 3000), {401, 429}),
    ("a long method", b"%s / HTTP/1.1\r\nhost: localhost\r\n\r\n" % (b"A" * 3000), {401, 405, 429}),
    ("wrong passwords", request("GET", "/" + "a" * 2000, basic("alfa", "b" * 500)), {401, 429}),
    ("unknown names", request("GET", "/" + "a" * 2000, basic("n" * 900, "b")), {401, 429}),
    ("too large a body", request("PUT", "/" + "a" * 2000, b"content-length: 999999999\r\n"), {401, 413, 429}),
    ("no request", b"\xff\x00" * 1500 + b"\r\n\r\n", {400}),
    ("another name", request("GET", "/" + "a" * 2000, host="e" * 1500), {421}),
    ("a page", request("GET", "/" + "a" * 2000, b"origin: http://%s\r\n" % (b"e" * 1500)), {403}),
]
"""What a stranger sends, and the statuses of the answers."""


def size_of_logs(walls: Walls) -> int:
    """The bytes of both logs."""
    return sum(os.path.getsize(walls.folder / f"{name}.log") for name in ("access", "error"))


@pytest.mark.parametrize("sent, statuses", named(STRANGE))
def test_bytes_of_a_request(sent: bytes, statuses: set[int], walls: Walls) -> None:
    """However long what a stranger sends is, its lines are short."""
    # nginx waits for the rest of such a body for two seconds
    count = AT_ONCE if 413 in statuses else REQUESTS
    with ThreadPoolExecutor(AT_ONCE) as pool:
        answers = Counter(pool.map(lambda _: status_of(exchange(walls.port, sent, "127.0.0.7")), range(count)))
    assert set(answers) <= statuses
    until("a line for each request", lambda: walls.log("access").count("\n") == count)
    assert size_of_logs(walls) / count <= MOST


def test_flood(rows: Rows, walls: Walls) -> None:
    """A flood that is refused by the limits, beside an operator whose lines have all that it sent."""
    with ThreadPoolExecutor(AT_ONCE) as pool:
        sent = request("GET", "/" + "b" * 3000)
        list(pool.map(lambda _: exchange(walls.port, sent, "127.0.0.7"), range(REQUESTS)))
    rows.at_most("bytes of logs a request", MOST, size_of_logs(walls) / REQUESTS)
    rows.equal("lines of error.log", "", walls.log("error"))
    path = "/flight_plans/11111111-1111-4111-8111-111111111111"
    got = read(exchange(walls.port, request("GET", path, ALFA)))
    rows.equal("an operator, and its path", (200, path), (got.status, walls.line_of(got.fields["x-request-id"])[4]))
