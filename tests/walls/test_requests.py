"""Requests that have to pass, and what the proxy and the queue refuse themselves."""

from __future__ import annotations

import pytest
from harness.ports import until
from harness.rows import Rows
from walls.given import ALFA, Walls, exchange, read, request, walls_of
from walls.stub import READY

pytestmark = [pytest.mark.proxy, pytest.mark.quick]

PLAN = "/flight_plans/11111111-1111-4111-8111-111111111111"


@pytest.mark.parametrize("method", ["DELETE", "GET", "PUT", "POST"])
def test_body(method: str, rows: Rows, walls: Walls) -> None:
    """A request of any method may have a body: the desk has it, and answers."""
    got = exchange(walls.port, request(method, PLAN, ALFA, body=b"{}"))
    rows.equal("the answer's body", READY, got.partition(b"\r\n\r\n")[2])
    came = walls.stub.came[-1]
    rows.equal("what the desk has", (f"{method} {PLAN} HTTP/1.1".encode(), b"{}"), (came.first, came.body))
    rows.equal("whom it is told", [b"alfa"], came.field(b"x-operator"))


def test_bytes_of_a_path(rows: Rows, walls: Walls) -> None:
    """Odd bytes in a path: whoever refuses it, the refusal is JSON, and nothing comes to the desk but printed bytes."""
    for byte in b'!"<>?\\^`{|}~\x01\x1f#%\x7f\x80\xa0\xff':
        got = read(exchange(walls.port, b"GET /x%c HTTP/1.1\r\nhost: localhost\r\n%s\r\n" % (byte, ALFA)))
        wanted = 200 if chr(byte) in '!"<>?\\^`{|}~' else 400
        rows.equal(f"byte {byte}", wanted, got.status)


NAMES: list[tuple[str, str, int]] = [
    ("localhost", "localhost", 200),
    ("with a port", "localhost:8081", 200),
    ("in capitals", "LOCALHOST", 200),
    ("an address", "127.0.0.1", 200),
    ("a name of nginx_names.conf", "desk.example", 200),
    ("another name", "evil.example", 421),
    ("another name with a port", "evil.example:8081", 421),
    ("a longer name", "localhost.evil.example", 421),
    ("another address", "192.0.2.1", 421),
]


def test_names(rows: Rows) -> None:
    """The port without TLS is asked under its own names, nginx's other port and the queue at this machine."""
    with walls_of(files={"nginx_names.conf": "desk.example 1;\n"}) as walls:
        for what, host, status in NAMES:
            got = read(exchange(walls.port, request("GET", "/status", ALFA, host=host)))
            rows.equal(what, status, got.status)
            inner = read(
                exchange(walls.nginx.inner_port, request("GET", "/status", b"x-operator: alfa\r\n", host=host))
            )
            status = 421 if host == "desk.example" else status
            rows.equal(f"{what}, at nginx's other port", status, inner.status)
            if host != "LOCALHOST":
                queued = read(exchange(walls.queue_port, request("GET", "/x", b"x-operator: alfa\r\n", host=host)))
                rows.equal(f"{what}, at the queue", status, queued.status)
        bare = read(exchange(walls.port, b"GET /status HTTP/1.0\r\n" + ALFA + b"\r\n"))
        rows.equal("no name, in HTTP/1.0", 200, bare.status)


def test_ids(rows: Rows, walls: Walls) -> None:
    """The answer, nginx's log and the desk's request have the same id, whatever the client sent; so has the log of the
    queue of a request that went wrong."""
    forged = b"x-request-id: forged\r\n"
    for what, sent, status in (
        ("answered", request("GET", "/status", ALFA, forged), 200),
        ("refused", request("GET", "/status", forged), 401),
        ("of a page", request("GET", "/status", ALFA, forged, b"origin: http://evil.example\r\n"), 403),
    ):
        got = read(exchange(walls.port, sent))
        found = got.fields["x-request-id"]
        rows.equal(f"{what}: status and length of the id", (status, 32), (got.status, len(found)))
        rows.equal(f"{what}: in access.log", str(status), walls.line_of(found)[5])
        if status == 200:
            rows.equal("at the desk", [found.encode()], walls.stub.came[-1].field(b"x-request-id"))
    walls.stub.__exit__()
    got = read(exchange(walls.port, request("GET", "/status", ALFA)))
    rows.equal("without a desk", (502, {"error": "bad_gateway"}), (got.status, got.value))
    line = f"request {got.fields['x-request-id']} of alfa: 502"
    until("the queue's log of it", lambda: line in walls.queue_log.read_text())
