"""nginx and HAProxy before a stub, at ports of their own, and requests as bytes from an address of one's choice."""

from __future__ import annotations

import base64
import contextlib
import json
import os
import pathlib
import re
import socket
import subprocess
import sys
import tempfile
from collections.abc import Callable, Iterator, Mapping, Sequence
from typing import Any, NamedTuple

from harness.places import CLIENTS
from harness.ports import free_port, until
from serve.proxy import NginxByTls, queue
from walls.stub import Came, Stub, as_a_desk

PASSWORDS = {"alfa": "a", "bravo": "b"}
PATIENCE = 100
SHORT = 10_000
"""Bytes up to which an answer is looked at while it comes; a longer one ends with its connection."""
Files = Mapping[str, str]
"""Files beside nginx.conf, by their names."""


class NginxBeside(NginxByTls):
    """nginx with further files beside nginx.conf, and with other texts in it."""

    def __init__(self, folder: pathlib.Path, next_port: int, files: Files, texts: Mapping[str, str]) -> None:
        super().__init__(folder, next_port)
        self._files, self._texts = files, texts

    def _write(self) -> None:
        super()._write()
        for name, text in self._files.items():
            (self._folder / name).write_text(text, encoding="utf-8")
        path = self._folder / "nginx.conf"
        text = path.read_text(encoding="utf-8")
        for old, new in self._texts.items():
            assert old in text, old
            text = text.replace(old, new)
        path.write_text(text, encoding="utf-8")


class Walls(NamedTuple):
    """The proxy, the queue behind it and the stub behind that."""

    nginx: NginxBeside
    queue_port: int
    stub: Stub
    folder: pathlib.Path
    """That of nginx."""
    queue_log: pathlib.Path

    @property
    def port(self) -> int:
        """Where nginx is asked without TLS."""
        return self.nginx.port

    def log(self, name: str) -> str:
        """What one of nginx's logs has."""
        return (self.folder / f"{name}.log").read_text(encoding="utf-8")

    def line_of(self, request_id: str) -> list[str]:
        """The fields of the line of access.log that a request has."""
        found = list[str]()

        def is_there() -> bool:
            found[:] = [line for line in self.log("access").splitlines() if line.endswith(request_id)]
            return len(found) == 1

        until("a line in access.log", is_there)
        return found[0].split("\t")


@contextlib.contextmanager
def walls_of(
    reply: Callable[[Came], bytes] = as_a_desk,
    seconds: float = 0,
    files: Files | None = None,
    texts: Mapping[str, str] | None = None,
    queue_texts: Mapping[str, str] | None = None,
    desk_port: int | None = None,
    kind: type[NginxBeside] = NginxBeside,
) -> Iterator[Walls]:
    """nginx and HAProxy before a stub, or before a desk at a port, with other texts in nginx.conf and haproxy.cfg if
    there are any."""
    with tempfile.TemporaryDirectory(prefix="walls-") as name, contextlib.ExitStack() as left:
        folder, inner = pathlib.Path(name), pathlib.Path(name) / "proxy"
        inner.mkdir()
        for made in (folder, inner):
            made.chmod(0o755)
        stub = left.enter_context(Stub(free_port(), reply, seconds))
        queue_port = free_port()
        left.enter_context(queue(folder, queue_port, desk_port or stub.port, queue_texts or {}))
        nginx = kind(inner, queue_port, files or {}, texts or {})
        left.enter_context(nginx)
        yield Walls(nginx, queue_port, stub, inner, folder / "haproxy")


@contextlib.contextmanager
def program(module: str, folders: Sequence[str], *words: str) -> Iterator[str]:
    """A program of clients/ that runs; its first line."""
    paths = os.pathsep.join(str(CLIENTS / folder) for folder in folders)
    setting = {**os.environ, "PYTHONPATH": paths, "PYTHONDONTWRITEBYTECODE": "1"}
    line = [sys.executable, "-m", module, *words]
    with subprocess.Popen(line, stdout=subprocess.PIPE, stderr=subprocess.DEVNULL, text=True, env=setting) as ran:
        try:
            assert ran.stdout
            yield ran.stdout.readline().strip()
        finally:
            ran.terminate()


@contextlib.contextmanager
def mock_desk(*operators: str) -> Iterator[int]:
    """The mock desk at a free port."""
    port = free_port()
    with program("mock_desk", ["mock_desk"], "--port", str(port), *operators) as line:
        assert line.startswith("listening"), line
        yield port


def basic(name: str, password: str) -> bytes:
    """The field that names an operator, with its password."""
    return b"authorization: Basic " + base64.b64encode(f"{name}:{password}".encode()) + b"\r\n"


ALFA = basic("alfa", "a")
BRAVO = basic("bravo", "b")


def is_whole(answer: bytes) -> bool:
    """Whether an answer has its whole body."""
    head, end, body = answer.partition(b"\r\n\r\n")
    found = re.search(rb"(?i)\r\ncontent-length: (\d+)", head)
    return bool(end) and found is not None and len(body) >= int(found[1])


def exchange(port: int, sent: bytes, source: str = "127.0.0.1", patience: float = PATIENCE) -> bytes:
    """The answer to some bytes, from an address of this machine."""
    with socket.create_connection(("127.0.0.1", port), timeout=patience, source_address=(source, 0)) as link:
        got = bytearray()
        with contextlib.suppress(ConnectionError):
            link.sendall(sent)
            while not (len(got) < SHORT and is_whole(bytes(got))) and (part := link.recv(65_536)):
                got += part
        return bytes(got)


def request(method: str, path: str, *fields: bytes, host: str = "localhost", body: bytes | None = None) -> bytes:
    """A request as a client sends it."""
    length = b"" if body is None else b"content-length: %d\r\n" % len(body)
    return (
        f"{method} {path} HTTP/1.1\r\nhost: {host}\r\n".encode() + b"".join(fields) + length + b"\r\n" + (body or b"")
    )


class Answered(NamedTuple):
    """An answer."""

    status: int
    value: Any
    fields: Mapping[str, str]


def read(answer: bytes) -> Answered:
    """What an answer says; its body has to be JSON."""
    head, _, body = answer.partition(b"\r\n\r\n")
    first, *lines = head.decode().split("\r\n")
    fields = {name.lower(): value for name, value in (line.split(": ", 1) for line in lines)}
    return Answered(int(first.split()[1]), json.loads(body), fields)


def status_of(answer: bytes) -> int:
    """The status of an answer; 0 if none came."""
    return int(answer[9:12] or b"0")
