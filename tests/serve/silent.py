"""A client that asks for a large List and reads nothing, and another that asks after it: the List has 8 MB, which is
more than the buffers of a connection take."""

from __future__ import annotations

import contextlib
import pathlib
import re
import socket
import time
from collections.abc import Iterator

import crowds
from harness.program import run
from harness.requests import list_plans, over, plan_id, put
from harness.requests import status as status_asked
from harness.serving import Served
from serve.desks import Row

PLANS = 200
PATIENCE = 60
WAITED = 9.9
"""Seconds that a desk waits for a client at least: it says ten."""
MOMENT = "1780315000"


def large_plans() -> Iterator[bytes]:
    """PUTs of plans of 32 volumes of 64 leaves, which lie in one cell: a long text, and one span a volume."""
    leaves = [crowds.token_of(crowds.cell_at(30, at)) for at in range(crowds.CELLS)]
    for number in range(PLANS):
        lowers = range(320 * number, 320 * (number + 1), 10)
        yield put("alfa", plan_id(number + 1), [over(leaves, lower, lower + 10) for lower in lowers])


def opened(port: int, asked: bytes, room: int | None = None) -> socket.socket:
    """A connection that has sent a request; `room` is how much it takes in unread."""
    client = socket.socket()
    if room:
        client.setsockopt(socket.SOL_SOCKET, socket.SO_RCVBUF, room)
    client.settimeout(PATIENCE)
    client.connect(("127.0.0.1", port))
    client.sendall(asked)
    return client


def taken(client: socket.socket) -> tuple[str, bytes, int]:
    """All that still comes by a connection, to its end, a reset, or the end of patience; the status, and the body."""
    told = b""
    with contextlib.suppress(OSError):
        for part in iter(lambda: client.recv(65536), b""):
            told += part
    client.close()
    head, _, body = told.partition(b"\r\n\r\n")
    length = re.search(rb"content-length: (\d+)", head)
    return head[9:12].decode() or "no answer", body, int(length[1]) if length else 0


def silent(room: pathlib.Path) -> Iterator[Row]:
    """Its answer is cut off after ten seconds, and the next clients are served."""
    file = ("--db", str(room / "silent.db"))
    ran = run("play", *file, "--at", MOMENT, "alfa=100", given=b"".join(large_plans()))
    yield "plans of a large List", PLANS, ran.output.count(b'"planning_result":"Completed"')
    with Served(*file, connections=3) as desk:
        begun = time.monotonic()
        client = opened(desk.port, list_plans("alfa"), room=4096)
        told = taken(opened(desk.port, status_asked("alfa")))
        yield "after a client that reads nothing", ("200", b'{"status":"Ready"}'), told[:2]
        seconds = time.monotonic() - begun
        what = f"after a client that reads nothing: 10 seconds, and not twice as many: {seconds:.1f}"
        yield what, True, WAITED <= seconds < 2 * WAITED
        _, body, length = taken(client)
        yield f"its answer is cut off: {len(body)} of {length} bytes", True, len(body) < length
        status, body, length = taken(opened(desk.port, list_plans("alfa")))
        yield "a client that reads", ("200", length), (status, len(body))
        ended = desk.end()
        yield "the end of the desk", (0, ""), (ended.status, ended.errors)
