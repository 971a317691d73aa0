"""The desk at its own port, one request a connection: each status but 500, clients that hang up or stall, two lives of
a file."""

from __future__ import annotations

import contextlib
import itertools
import pathlib
import socket
import subprocess
import threading
import time
from collections.abc import Iterator
from concurrent.futures import ThreadPoolExecutor

import pytest
from harness import requests
from harness.program import run
from harness.rows import Rows
from harness.serving import Served
from serve.desks import Row, connected, serving
from serve.given import (
    ABOVE,
    BLOCKED,
    BODY,
    CLOSED,
    PLAN,
    PUT,
    READY,
    SHOWN,
    STORED,
    TOO_LARGE,
    asked,
    curl,
    operator,
)
from serve.silent import WAITED, silent

pytestmark = pytest.mark.alone


REFUSED = 7
"""curl's status for a connection that is refused."""
# what is refused, its answer, curl's words behind the URL's path, and what curl is given
REFUSALS: list[tuple[str, str, tuple[str, ...], str, bytes]] = [
    ("two operators", '{"error":"bad_operator"} 400', (*operator("alfa"), *operator("bravo")), "/status", b""),
    ("no operator", '{"error":"bad_operator"} 400', (), "/status", b""),
    ("unknown operator", '{"error":"unknown_operator"} 403', operator("carol"), "/status", b""),
    ("no route", '{"error":"no_route"} 404', operator("alfa"), "/plans", b""),
    ("another method", '{"error":"method"} 405', (*operator("alfa"), "-X", "DELETE"), "/status", b""),
    ("a HEAD", '{"error":"method"} 405', (*operator("alfa"), "-X", "HEAD"), "/status", b""),
    (
        "a body that is too large",
        '{"error":"too_large"} 413',
        (*operator("alfa"), "-H", "Expect:", *PUT),
        PLAN,
        TOO_LARGE,
    ),
    (
        "a chunked body",
        '{"error":"transfer_encoding"} 501',
        (*operator("alfa"), "-H", "transfer-encoding: chunked", *PUT),
        PLAN,
        BODY,
    ),
    ("a head that is no head", '{"error":"bad_head"} 400', ("-H", "content-length: +1"), "/status", b""),
]


def other_addresses() -> list[str]:
    """Addresses of this machine other than the desk's."""
    own = subprocess.run(["hostname", "-I"], capture_output=True, text=True, check=True).stdout.split()
    return ["127.0.0.2", "[::1]", *(f"[{address}]" if ":" in address else address for address in own)]


def hang_up(port: int) -> None:
    """A client that hangs up in mid-request, and one that says nothing."""
    connected(port, f"PUT {PLAN} HTTP/1.1\r\nx-operator: alfa\r\ncontent-le".encode()).close()
    connected(port).close()


def test_statuses(rows: Rows) -> None:
    """Each status but 500, and nobody is served at another address."""
    with serving(rows, 16) as desk:
        for address in other_addresses():
            status, _ = curl(f"http://{address}:{desk.port}/status")
            rows.equal(f"the port at {address}", REFUSED, status)
        second = run("serve", "--port", str(desk.port), "--requests", "1", "alfa=100")
        in_use = f"uss_desk: 127.0.0.1:{desk.port}: in use by another program\nuss_desk: network\n"
        rows.equal("a port in use", (4, b"", in_use), (second.status, second.output, second.errors))
        url, alfa = f"{desk.url}{PLAN}", operator("alfa")
        rows.equal("ready", READY, asked(*alfa, f"{desk.url}/status"))
        rows.equal("put", STORED, asked(*alfa, *PUT, url, given=BODY))
        hang_up(desk.port)
        again = asked(*alfa, "-H", "Expect: 100-continue", *PUT, url, given=BODY)
        rows.equal("after a client hung up", STORED, again)
        rows.equal("blocked", BLOCKED, asked(*operator("bravo"), *PUT, url, given=ABOVE))
        for what, wanted, words, path, given in REFUSALS:
            rows.equal(what, wanted, asked(*words, f"{desk.url}{path}", given=given))
        rows.equal("close", CLOSED, asked(*alfa, "-X", "DELETE", url))


@pytest.mark.quick
def test_two_lives(rows: Rows, room: pathlib.Path) -> None:
    """Over a file: the plan that the first desk stored is shown by the second, which ends after its last connection."""
    file, alfa = ("--db", str(room / "desk.db")), operator("alfa")
    with serving(rows, 1, *file, "alfa=100") as desk:
        rows.equal("put in a file", STORED, asked(*alfa, *PUT, f"{desk.url}{PLAN}", given=BODY))
    with serving(rows, 25, *file) as desk:
        for _ in range(24):
            rows.equal("the plan in the file", SHOWN, asked(*alfa, f"{desk.url}{PLAN}"))
        rows.equal("after 24 of 25 connections", None, desk.process.poll())
        rows.equal("the last connection", READY, asked(*alfa, f"{desk.url}/status"))


def test_closed_streams(rows: Rows, room: pathlib.Path) -> None:
    """If standard input and standard error are closed at the start, no client is sent a line for the administrator."""
    operators = room / "operators"
    operators.write_text("alfa 100\n", encoding="utf-8")
    closed = ["sh", "-c", 'exec "$@" <&- 2>&-', "sh"]
    with Served("--operators", str(operators), under=closed) as desk:
        for number in range(3):
            operators.write_text(f"alfa 100\nbravo {'x' * (number + 1)}\n", encoding="utf-8")
            answer = desk.ask(requests.status("alfa"))
            rows.equal(f"answer {number}", b"HTTP/1.1 200 OK\r\n", answer[:17])


# ---- clients that stall


def waits(what: str, desk: Served, begun: float) -> Iterator[Row]:
    """Asks whether the desk is ready, and looks whether the answer comes after the 10 seconds for which the desk waits
    for the client before, which came after this moment."""
    yield what, READY, asked(*operator("alfa"), f"{desk.url}/status")
    seconds = time.monotonic() - begun
    yield f"{what}: 10 seconds, and not twice as many: {seconds:.1f}", True, WAITED <= seconds < 2 * WAITED


def told(client: socket.socket) -> bytes:
    """What a client is still sent."""
    client.settimeout(2)
    with contextlib.suppress(OSError):
        return client.recv(1)
    return b""


def stalled(desk: Served) -> Iterator[Row]:
    """A client that sends half a head and waits."""
    begun = time.monotonic()
    with connected(desk.port, b"GET /status HTTP/1.1\r\nx-op") as client:
        yield from waits("after a client that stalls", desk, begun)
        yield "the client that stalled has no answer", b"", told(client)


def dripping(desk: Served) -> Iterator[Row]:
    """A client that sends a byte a second."""
    is_over = threading.Event()

    def drip() -> None:
        with contextlib.suppress(OSError):
            while not is_over.wait(1):
                client.sendall(b"x")

    begun = time.monotonic()
    with connected(desk.port, b"x") as client:
        thread = threading.Thread(target=drip)
        thread.start()
        yield from waits("after a client that sends a byte a second", desk, begun)
        is_over.set()
        thread.join()


def rows_of(found: Iterator[Row]) -> list[Row]:
    """Rows, once the last is found."""
    return list(found)


@pytest.mark.slow
def test_clients_that_stall(rows: Rows, room: pathlib.Path) -> None:
    """Each is left after ten seconds, and the next client is served: at three desks beside each other."""
    with serving(rows, 2) as one, serving(rows, 2) as other, ThreadPoolExecutor() as pool:
        told = [pool.submit(rows_of, found) for found in (stalled(one), dripping(other), silent(room))]
        for row in itertools.chain.from_iterable(future.result() for future in told):
            rows.equal(*row)
