"""`GET /healthz`: whether the desk answers, without a password, for whoever watches it."""

from __future__ import annotations

import time
from concurrent.futures import ThreadPoolExecutor

import pytest
from harness.rows import Rows
from walls.given import exchange, read, request, walls_of

pytestmark = [pytest.mark.proxy, pytest.mark.quick]

ASKED = request("GET", "/healthz")
HERE = {"allow 127.0.0.0/8;": "allow 127.0.0.1;"}
"""Other addresses of this machine are strangers."""
READY = (200, {"status": "Ready"})
SHORTLY = {"403 502 504 10s": "403 502 504 1s"}


def looks(begun: float) -> int:
    """How often the desk may have been asked since a moment: once in ten seconds."""
    return 1 + int((time.monotonic() - begun) / 10)


def test_healthz(rows: Rows) -> None:
    """Its answers, and how often the desk is asked."""
    with walls_of(files={"nginx_health.conf": "allow 127.0.0.2;\n"}, texts=HERE) as walls:
        begun = time.monotonic()
        with ThreadPoolExecutor(8) as pool:
            got = [read(it) for it in pool.map(lambda _: exchange(walls.port, ASKED), range(30))]
        rows.equal("at this machine", [READY] * 30, [(it.status, it.value) for it in got])
        rows.at_most("how often the desk is asked", looks(begun), len(walls.stub.came))
        rows.equal("by which name", [b"healthz"], walls.stub.came[0].field(b"x-operator"))
        rows.equal("an address of the file", READY, read(exchange(walls.port, ASKED, "127.0.0.2"))[:2])
        strange = read(exchange(walls.port, ASKED, "127.0.0.3"))
        rows.equal("another address", (403, {"error": "forbidden"}), strange[:2])
        refused = read(exchange(walls.port, request("POST", "/healthz", body=b"{}")))
        rows.equal("another method", (405, {"error": "method"}), refused[:2])
        rows.at_most("how often the desk is asked then", looks(begun), len(walls.stub.came))


def test_no_desk(rows: Rows) -> None:
    """Without a desk it says so, and once there is one again that."""
    with walls_of(texts=SHORTLY) as walls:
        walls.stub.__exit__()
        got = [read(exchange(walls.port, ASKED))[:2] for _ in range(3)]
        rows.equal("without a desk", [(502, {"error": "bad_gateway"})] * 3, got)
    with walls_of(texts={**SHORTLY, "proxy_read_timeout 10s": "proxy_read_timeout 1s"}, seconds=50) as walls:
        slow = read(exchange(walls.port, ASKED))
        rows.equal("a desk that doesn't answer in time", (504, {"error": "gateway_timeout"}), slow[:2])
