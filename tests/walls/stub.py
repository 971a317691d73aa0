"""A port in the place of a desk: it keeps each request as it came, and answers at once or late."""

from __future__ import annotations

import contextlib
import io
import socketserver
import threading
import time
from collections.abc import Callable
from typing import cast

READY = b'{"status":"Ready"}'
UNKNOWN = b'{"error":"unknown_operator"}'
BEHIND = 0.02
"""Seconds in which something may come behind a request."""
OPERATORS = (b"alfa", b"bravo", b"carol", b"delta", b"echo")


def answer(status: int, body: bytes) -> bytes:
    """An answer as the desk writes it."""
    head = f"HTTP/1.1 {status} OK\r\ncontent-type: application/json\r\ncontent-length: {len(body)}\r\n"
    return f"{head}connection: close\r\n\r\n".encode() + body


class Came:
    """A request as it came."""

    def __init__(self, head: bytes, body: bytes) -> None:
        self.head, self.body, self.moment = head, body, time.monotonic()
        self.first = head.split(b"\r\n")[0]

    def field(self, name: bytes) -> list[bytes]:
        """The values of a field."""
        pairs = (line.split(b":", 1) for line in self.head.split(b"\r\n")[1:] if b":" in line)
        return [value.strip() for found, value in pairs if found.strip().lower() == name]


def as_a_desk(came: Came) -> bytes:
    """Ready for operators that are enrolled, and a refusal for others."""
    names = came.field(b"x-operator")
    return answer(200, READY) if len(names) == 1 and names[0] in OPERATORS else answer(403, UNKNOWN)


class Stub:
    """The port. `reply` makes the answer to a request, which is sent after so many seconds."""

    def __init__(self, port: int, reply: Callable[[Came], bytes] = as_a_desk, seconds: float = 0) -> None:
        self.port, self.came, self.seconds = port, list[Came](), seconds
        self.behind = list[bytes]()
        """What came behind a request on its connection."""
        self._reply = reply
        stub = self

        class Taken(socketserver.StreamRequestHandler):
            """One connection."""

            def handle(self) -> None:
                """Takes it."""
                stub.take(self)

        class Server(socketserver.ThreadingTCPServer):
            """The port."""

            allow_reuse_address = daemon_threads = True
            request_queue_size = 128

        self._server = Server(("127.0.0.1", port), Taken)

    def __enter__(self) -> Stub:
        threading.Thread(target=self._server.serve_forever, args=(0.05,), daemon=True).start()
        return self

    def __exit__(self, *_: object) -> None:
        self._server.shutdown()
        self._server.server_close()

    def take(self, connection: socketserver.StreamRequestHandler) -> None:
        """Reads a request, keeps it and answers."""
        head = b"".join(iter(connection.rfile.readline, b"\r\n"))
        if not head.endswith(b"\r\n"):
            return
        came = Came(head, b"")
        lengths = came.field(b"content-length")
        came.body = connection.rfile.read(int(lengths[0])) if lengths else b""
        self.came.append(came)
        time.sleep(self.seconds)
        connection.wfile.write(self._reply(came))
        connection.wfile.flush()
        connection.connection.settimeout(BEHIND)
        with contextlib.suppress(OSError):
            if more := cast(io.BufferedReader, connection.rfile).read1():
                self.behind.append(more)
