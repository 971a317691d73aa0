"""Desks that serve so many connections and then end."""

from __future__ import annotations

import contextlib
import socket
from collections.abc import Iterator

from harness.rows import Rows
from harness.serving import Served

OPERATORS = ("alfa=100", "bravo=100")
Row = tuple[str, object, object]
"""What, what was wanted, what was got."""


@contextlib.contextmanager
def serving(rows: Rows, connections: int, *words: str, at: int | None = None) -> Iterator[Served]:
    """A desk for so many connections, of two operators unless there are words; it listens at once, and ends by itself
    after the last of them."""
    with Served(*(words or OPERATORS), connections=connections, at=at) as desk:
        yield desk
        ended = desk.end()
        rows.equal("the desk's end", (0, ""), (ended.status, ended.errors))


def connected(port: int, sent: bytes = b"") -> socket.socket:
    """A connection that has sent something."""
    client = socket.create_connection(("127.0.0.1", port), timeout=300)
    client.sendall(sent)
    return client
