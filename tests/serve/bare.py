"""A port in a desk's place that reads whole requests and then hangs up, or answers late; it counts what came."""

from __future__ import annotations

import contextlib
import socketserver
import threading
import time
from collections.abc import Iterator

READY = b"HTTP/1.1 200 OK\r\ncontent-length: 0\r\nconnection: close\r\n\r\n"


class Bare:
    """A port that waits so long after each request and then hangs up, or answers if it is told to."""

    def __init__(self, port: int, seconds: float, answers: bool) -> None:
        self.paths: list[str] = []
        self.most = 0
        self._open = 0
        self._lock, self._may_go = threading.Lock(), threading.Event()
        self._may_go.set()
        self._seconds, self._answer = seconds, READY if answers else b""
        bare = self

        class Taken(socketserver.StreamRequestHandler):
            """One connection."""

            def handle(self) -> None:
                """Takes it."""
                bare.take(self)

        class Server(socketserver.ThreadingTCPServer):
            """The port."""

            allow_reuse_address = daemon_threads = True
            request_queue_size = 128

        self._server = Server(("127.0.0.1", port), Taken)

    def __enter__(self) -> Bare:
        threading.Thread(target=self._server.serve_forever, args=(0.05,), daemon=True).start()
        return self

    def __exit__(self, *_: object) -> None:
        self._server.shutdown()
        self._server.server_close()

    @contextlib.contextmanager
    def held(self) -> Iterator[None]:
        """Within it nothing is answered, and nobody hung up on."""
        self._may_go.clear()
        try:
            yield
        finally:
            self._may_go.set()

    def take(self, connection: socketserver.StreamRequestHandler) -> None:
        """Reads a request, notes its path and how many connections are open, and answers or hangs up."""
        with self._lock:
            self._open += 1
            self.most = max(self.most, self._open)
        path = connection.rfile.readline().split()[1].decode()
        length = 0
        for line in iter(connection.rfile.readline, b"\r\n"):
            name, _, value = line.partition(b":")
            length = int(value) if name.lower() == b"content-length" else length
        connection.rfile.read(length)
        self._may_go.wait()
        time.sleep(self._seconds)
        with self._lock:
            self.paths.append(path)
            self._open -= 1
        connection.wfile.write(self._answer)
