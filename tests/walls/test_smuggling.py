"""Requests that two servers may read in two ways: whatever comes to the desk is one request of alfa's, and nothing
comes behind it."""

from __future__ import annotations

import base64
import time
from collections.abc import Iterator

import pytest
from harness.rows import Rows
from walls.given import ALFA, BRAVO, Walls, exchange
from walls.stub import BEHIND

pytestmark = [pytest.mark.proxy, pytest.mark.quick]

HOST = b"host: localhost\r\n"
OWN = HOST + ALFA
HIDDEN = b"GET /flight_plans HTTP/1.1\r\nhost: localhost\r\nx-operator: bravo\r\n\r\n"
"""A request that would be bravo's, if it came to the desk."""
CHUNKED = b"transfer-encoding: chunked\r\n"
PLAN = "/flight_plans/11111111-1111-4111-8111-111111111111"

Case = tuple[str, bytes, set[int]]
"""What is sent, and the statuses that the first answer may have; 0 if there may be none."""


def get(*fields: bytes, path: bytes = b"/status", version: bytes = b"HTTP/1.1", method: bytes = b"GET") -> bytes:
    """A request of alfa's without a body."""
    return b"%s %s %s\r\n%s%s\r\n" % (method, path, version, OWN, b"".join(fields))


def put(fields: bytes, body: bytes = b"{}", version: bytes = b"HTTP/1.1") -> bytes:
    """A request of alfa's with what frames its body."""
    return f"PUT {PLAN} ".encode() + version + b"\r\n" + OWN + fields + b"\r\n" + body


def lengths() -> Iterator[Case]:
    """A body's length that is said twice, or not as a number."""
    yield "no length, and bytes behind", put(b"", HIDDEN), {200}
    yield "a length twice", put(b"content-length: 2\r\ncontent-length: 2\r\n"), {400}
    yield "two lengths", put(b"content-length: 2\r\ncontent-length: 90\r\n", b"{}" + HIDDEN), {400}
    yield "a list of lengths", put(b"content-length: 2, 2\r\n"), {400}
    yield "a signed length", put(b"content-length: +2\r\n"), {400}
    yield "a negative length", put(b"content-length: -2\r\n"), {400}
    yield "a length in hexadecimal", put(b"content-length: 0x2\r\n"), {400}
    yield "a blank in a length", put(b"content-length: 2 0\r\n"), {400}
    yield "a length below the body", put(b"content-length: 2\r\n", b"{}" + HIDDEN), {200}
    yield "a name with a blank behind it", put(b"content-length : 90\r\n", b"{}" + HIDDEN), {200, 400}
    yield "a length behind a tab", put(b"content-length:\t2\r\n"), {200, 400}
    yield "a length with an underscore", put(b"content_length: 90\r\ncontent-length: 2\r\n", b"{}" + HIDDEN), {200}


def chunks() -> Iterator[Case]:
    """Chunked bodies, beside a length, malformed, or with fields behind them."""
    body = b"2\r\n{}\r\n0\r\n\r\n"
    yield "chunks and a length", put(b"content-length: 5\r\n" + CHUNKED, body), {200, 400}
    yield "chunks and a request behind", put(CHUNKED, body + HIDDEN), {200}
    yield "chunks twice", put(CHUNKED + CHUNKED, body), {400, 501}
    yield "chunked, chunked", put(b"transfer-encoding: chunked, chunked\r\n", body), {400, 501}
    yield "gzip, chunked", put(b"transfer-encoding: gzip, chunked\r\n", body), {501}
    yield "chunked, identity", put(b"transfer-encoding: chunked, identity\r\n", body), {501}
    yield "an odd chunked", put(b"transfer-encoding: \x0bchunked\r\n", body), {400, 501}
    yield "chunks in HTTP/1.0", put(CHUNKED, body, b"HTTP/1.0"), {200, 400, 501}
    yield "a chunk's extension", put(CHUNKED, b"2;x=y\r\n{}\r\n0\r\n\r\n"), {200}
    yield "a chunk that is too long", put(CHUNKED, b"fffffffffffffffff\r\n{}\r\n0\r\n\r\n"), {400, 413}
    yield "a chunk with a line feed", put(CHUNKED, b"2\n{}\n0\n\n"), {200, 400}
    yield "fields behind chunks", put(CHUNKED, b"2\r\n{}\r\n0\r\nx-operator: bravo\r\n\r\n"), {200, 400}


def heads() -> Iterator[Case]:
    """Fields that name another operator, folded, twice, or with odd bytes."""
    yield "bravo", get(b"x-operator: bravo\r\nX-OPERATOR: bravo\r\nx_operator: bravo\r\n"), {200}
    yield "a folded field", get(b"x-a: b\r\n x-operator: bravo\r\n"), {200, 400}
    yield "bare line feeds", b"GET /status HTTP/1.1\n" + OWN.replace(b"\r", b"") + b"x-operator: bravo\n\n", {200}
    yield "a bare carriage return", get(b"x-a: b\rx-operator: bravo\r\n"), {200, 400}
    yield "a zero in a field", get(b"x-a: \x00\r\nx-operator: bravo\r\n"), {400}
    yield "two passwords", get(BRAVO), {200, 400}
    secret = b"authorization: Basic " + base64.b64encode(b"alfa\r\nx-operator: bravo:a") + b"\r\n"
    yield "a name with an end of line", b"GET /status HTTP/1.1\r\n" + HOST + secret + b"\r\n", {401}
    secret = b"authorization: Basic " + base64.b64encode(b"alfa\x00:a") + b"\r\n"
    yield "a name with a zero", b"GET /status HTTP/1.1\r\n" + HOST + secret + b"\r\n", {401}
    yield "other proxies' fields", get(b"x-forwarded-for: 127.0.0.1\r\nx-accel-redirect: /ready\r\n"), {200}


def lines() -> Iterator[Case]:
    """First lines."""
    yield "an absolute form", get(path=b"http://localhost/flight_plans"), {200}
    yield "another host's absolute form", get(path=b"http://evil/flight_plans"), {421}
    yield "an absolute form without a path", get(path=b"http://localhost?x"), {200}
    yield "an authority", get(path=b"localhost:443", method=b"CONNECT"), {400, 405}
    yield "a star", get(path=b"*", method=b"OPTIONS"), {200, 400, 405}
    yield "a fragment", get(path=b"/flight_plans#x"), {400}
    yield "an encoded letter", get(path=b"/%73tatus"), {200}
    yield "two slashes", get(path=b"//status"), {200}
    yield "an encoded end of line in a query", get(path=b"/status?a=%0d%0a&b='"), {200}
    yield "bytes above ASCII", get(path=b"/flight_plans/\xff\xfe"), {400}
    yield "quotes", get(path=b'/flight_plans/"<>\\^`{|}'), {200}
    yield "a HEAD", get(method=b"HEAD"), {200}
    yield "an encoded end of line", get(path=b"/flight_plans%0d%0ax-operator:%20bravo"), {200}
    yield "dots", get(path=b"/x/../status"), {200}
    yield "a method of one's own", get(method=b"GE_T-X"), {200, 400, 405}
    yield "small letters", get(method=b"get"), {400}
    yield "another version", get(version=b"HTTP/1.2"), {200, 400, 505}
    yield "HTTP/2", b"PRI * HTTP/2.0\r\n\r\nSM\r\n\r\n", {0, 400, 405}
    yield "HTTP/0.9", b"GET /status\r\n", {0, 60, 400}
    yield "an upgrade to HTTP/2", get(
        b"connection: upgrade, http2-settings\r\nupgrade: h2c\r\nhttp2-settings: AAM\r\n"
    ), {200}
    yield "an upgrade to a socket", get(b"connection: upgrade\r\nupgrade: websocket\r\n"), {200}
    yield "an expectation", put(b"expect: 100-continue\r\ncontent-length: 2\r\n"), {100, 200}
    yield "two requests at once", get() + HIDDEN, {200}
    yield "a path of nginx's own", get(path=b"/ready"), {404}
    yield "a body of a GET", get(b"content-length: %d\r\n" % len(HIDDEN)) + HIDDEN, {200}


CASES = [*lengths(), *chunks(), *heads(), *lines()]


def test_smuggling(rows: Rows, walls: Walls) -> None:
    """Each way, one after the other."""
    for what, sent, statuses in CASES:
        before, behind = len(walls.stub.came), len(walls.stub.behind)
        got = exchange(walls.port, sent)
        # something may come later
        time.sleep(2 * BEHIND)
        status = int(got[9:12]) if got.startswith(b"HTTP/1.1 ") else 0
        rows.holds(f"{what}: status {status}, of {statuses}", status in statuses)
        came = walls.stub.came[before:]
        rows.equal(
            f"{what}: whose the requests are", [[b"alfa"]] * len(came), [it.field(b"x-operator") for it in came]
        )
        rows.at_most(f"{what}: requests at the desk", 1, len(came))
        rows.equal(f"{what}: bytes behind it", [], walls.stub.behind[behind:])
        named = {line.split(b":")[0].lower() for it in came for line in it.head.split(b"\r\n")[1:] if line}
        own = {b"host", b"x-operator", b"x-request-id", b"content-length", b"connection"}
        rows.equal(f"{what}: further fields at the desk", set(), named - own)
        if b"%0d%0a" not in sent:
            rows.equal(f"{what}: further lines", [], [it.head for it in came if b"bravo" in it.head])
