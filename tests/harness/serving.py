"""A desk that serves at a port of this machine."""

from __future__ import annotations

import contextlib
import os
import signal
import socket
import subprocess
import tempfile
from collections.abc import Iterator, Sequence
from typing import IO

from harness.ports import free_port
from harness.program import DESK, Ran

PATIENCE = 300
"""Seconds in which a desk answers or ends."""
TRIES = 5
"""How often another port is taken if somebody else was faster."""


class Served:
    """A desk at a free port, from its first line of output on; it is killed when it is left.

    `words` are further words of the line: `"--db", path`, `"alfa=100"`; `under` is a command before it, as `strace`;
    with `at` it is at that port, or at none.
    """

    port: int
    process: subprocess.Popen[bytes]
    errors: IO[bytes]

    def __init__(
        self, *words: str, connections: int = 1_000_000, under: Sequence[str] = (), at: int | None = None
    ) -> None:
        self._words, self._under, self._at = words, under, at
        self.connections = connections

    @property
    def url(self) -> str:
        """Where it is asked."""
        return f"http://127.0.0.1:{self.port}"

    def start(self) -> None:
        """Starts it, and returns when it listens."""
        for _ in range(TRIES):
            self._start_at(self._at or free_port())
            assert self.process.stdout
            line = self.process.stdout.readline()
            if line == f"listening 127.0.0.1:{self.port}\n".encode():
                return
            ended = self.end()
            if self._at or not ended.errors.endswith("uss_desk: network\n"):
                break
        raise OSError(f"the desk doesn't listen: {line!r}, {ended}")

    def _start_at(self, port: int) -> None:
        """Starts it at a port."""
        self.port, self.errors = port, tempfile.TemporaryFile()
        line = ["serve", "--port", str(port), "--requests", str(self.connections), *self._words]
        self.process = subprocess.Popen(
            [*self._under, *DESK, *line],
            stdin=subprocess.DEVNULL,
            stdout=subprocess.PIPE,
            stderr=self.errors,
            start_new_session=True,
        )

    def ask(self, request: bytes) -> bytes:
        """The answer to a request, over a connection of its own."""
        with socket.create_connection(("127.0.0.1", self.port), timeout=PATIENCE) as connection:
            connection.sendall(request)
            return b"".join(iter(lambda: connection.recv(65_536), b""))

    @contextlib.contextmanager
    def held(self) -> Iterator[None]:
        """Within it the desk answers nothing."""
        self._signal(signal.SIGSTOP)
        try:
            yield
        finally:
            self._signal(signal.SIGCONT)

    def _signal(self, number: signal.Signals) -> None:
        """Signals all its processes: the script uss_desk runs the program as a child of its shell."""
        with contextlib.suppress(ProcessLookupError):
            os.killpg(self.process.pid, number)

    def end(self) -> Ran:
        """How it ends by itself; what it has printed after its first line is in it."""
        output, _ = self.process.communicate(timeout=PATIENCE)
        self.errors.seek(0)
        errors = self.errors.read().decode(errors="replace")
        self.errors.close()
        return Ran(self.process.returncode, output, errors)

    def kill(self) -> None:
        """Kills it, unless it has ended."""
        if not self.errors.closed:
            self._signal(signal.SIGKILL)
            self.end()

    def restart(self) -> None:
        """Kills it, and starts it again with the same words."""
        self.kill()
        self.start()

    def __enter__(self) -> Served:
        self.start()
        return self

    def __exit__(self, *_: object) -> None:
        self.kill()
