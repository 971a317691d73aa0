"""Client certificates by nginx_mtls.conf, made by the lines that it prints; and what handshakes leave in error.log."""

from __future__ import annotations

import os
import pathlib
import re
import shlex
import socket
import ssl
import subprocess
from collections.abc import Iterator

import pytest
from harness.places import DEPLOY
from harness.rows import Rows
from walls.given import ALFA, BRAVO, PATIENCE, Answered, NginxBeside, Walls, exchange, read, request, walls_of

pytestmark = [pytest.mark.proxy, pytest.mark.quick]

MTLS = (DEPLOY / "nginx_mtls.conf").read_text(encoding="utf-8")
PRINTED = re.findall(r"^# +(openssl .*)$", MTLS, re.MULTILINE)
SUBJECTS = {
    "alfa": "/CN=alfa",
    "further": "/O=Example/CN=alfa",
    "two": "/CN=alfa,CN=bravo",
    "other": "/CN=Alfa B",
    "unit": "/CN=x\\,CN=bravo",
}
"""Subjects of certificates, by the names of their files."""


def made(folder: pathlib.Path) -> None:
    """Makes an authority and certificates by the printed lines, and another authority with a certificate for alfa."""
    for line in PRINTED:
        words = shlex.split(line)
        if "alfa" not in line:
            subprocess.run(words, cwd=folder, capture_output=True, check=True)
            continue
        for name, subject in SUBJECTS.items():
            changed = [word.replace("/CN=alfa", subject) if word.startswith("/") else word for word in words]
            changed = [word.replace("alfa.", f"{name}.") if not word.startswith("/") else word for word in changed]
            subprocess.run(changed, cwd=folder, capture_output=True, check=True)
    for line in PRINTED:
        words = shlex.split(line.replace("operators_ca", "strange_ca").replace("alfa.", "strange."))
        subprocess.run(words, cwd=folder, capture_output=True, check=True)


class NginxByCertificates(NginxBeside):
    """nginx with nginx_mtls.conf."""

    def _write(self) -> None:
        super()._write()
        made(self._folder)


@pytest.fixture
def walls() -> Iterator[Walls]:
    """The proxy that asks for certificates."""
    with walls_of(files={"nginx_mtls.conf": MTLS}, kind=NginxByCertificates) as it:
        yield it


def ask(walls: Walls, name: str | None, *fields: bytes) -> Answered:
    """The answer to whoever has a certificate."""
    context = ssl.create_default_context(cafile=str(walls.folder / "desk.pem"))
    if name:
        context.load_cert_chain(walls.folder / f"{name}.pem", walls.folder / f"{name}.key")
    with socket.create_connection(("127.0.0.1", walls.nginx.tls_port), timeout=PATIENCE) as bare:
        with context.wrap_socket(bare, server_hostname="desk.example") as link:
            link.sendall(request("GET", "/status", *fields, host="desk.example"))
            return read(b"".join(iter(lambda: link.recv(4096), b"")))


def test_certificates(rows: Rows, walls: Walls) -> None:
    """The operator is the certificate's, whatever else the client sends."""
    for name in ("alfa", "further"):
        for what, fields in (
            ("nothing else", ()),
            ("bravo's password", (BRAVO,)),
            ("a name", (b"x-operator: bravo\r\n",)),
        ):
            got = ask(walls, name, *fields)
            rows.equal(f"{SUBJECTS[name]} and {what}", 200, got.status)
            rows.equal("whom the desk is told", [b"alfa"], walls.stub.came[-1].field(b"x-operator"))
            rows.equal("in the log", "alfa", walls.line_of(got.fields["x-request-id"])[2])
    for name in ("two", "other", "unit"):
        rows.equal(f"a certificate of no operator, {SUBJECTS[name]}", 401, ask(walls, name).status)
    for what, certificate in (("no certificate", None), ("another authority's", "strange")):
        got = ask(walls, certificate, ALFA)
        rows.equal(what, (400, {"error": "certificate"}), got[:2])
    rows.equal("the port without TLS", 200, read(exchange(walls.port, request("GET", "/status", ALFA))).status)


def hello() -> bytes:
    """The first bytes of a client that begins a handshake."""
    incoming, outgoing = ssl.MemoryBIO(), ssl.MemoryBIO()
    context = ssl.create_default_context()
    try:
        context.wrap_bio(incoming, outgoing, server_hostname="desk.example").do_handshake()
    except ssl.SSLWantReadError:
        return outgoing.read()
    raise AssertionError("a handshake without a server")


def test_handshakes(rows: Rows) -> None:
    """Handshakes that come to nothing leave no line, whatever byte of them is another."""
    good = hello()
    with walls_of() as walls:
        for at in range(0, len(good), 3):
            for link_bytes in (good[:at] + bytes([good[at] ^ 0xFF]) + good[at + 1 :], os.urandom(60)):
                with socket.create_connection(("127.0.0.1", walls.nginx.tls_port), timeout=PATIENCE) as link:
                    link.sendall(link_bytes)
                    link.shutdown(socket.SHUT_WR)
                    try:
                        while link.recv(4096):
                            pass
                    except ConnectionError:
                        pass
        rows.equal("error.log", "", walls.log("error"))
