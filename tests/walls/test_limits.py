"""An enrolled operator beside a stranger that fills what nginx counts in, and what one operator can have recorded."""

from __future__ import annotations

import json
import os
import time
from collections import Counter
from concurrent.futures import ThreadPoolExecutor

import pytest
from harness.rows import Rows
from walls.given import ALFA, BRAVO, Walls, basic, exchange, read, request, status_of, walls_of
from walls.stub import Came, answer

pytestmark = [pytest.mark.proxy, pytest.mark.quick]

SHORT_NAMES = 31
"""As many as one page of that memory holds beside what nginx itself has there."""
LONG_NAMES = 5_300
"""As many as fill the memory in which nginx counts who asks, if any name is a key: 10 MB, with 2 KB for each."""
LARGEST = 131_072
PLANS = 200
MOST = 34_000_000
"""Bytes of an operator's requests and answers in ten minutes."""
LIST = 8_000_000


def test_long_names(rows: Rows, walls: Walls) -> None:
    """A stranger asks under thousands of long names, and under some short ones again and again, which keep the small
    room that is left; an operator that was silent asks from another address.

    What a stranger sends in a minute within the limits of one address is sent here at once from a hundred."""

    def ask(name: str, source: str) -> int:
        return status_of(exchange(walls.port, request("GET", "/status", basic(name, "p")), source))

    def ask_long(number: int) -> int:
        return ask(f"{number:06d}{os.urandom(4).hex()}" + "x" * 1_900, f"127.0.1.{number % 100}")

    def ask_short(number: int) -> int:
        return ask(f"x{number}", f"127.0.2.{number % 10}")

    strangers, got = Counter[int](), Counter[int]()
    with ThreadPoolExecutor(8) as pool:
        strangers.update(pool.map(ask_short, range(SHORT_NAMES)))
        for number in range(0, LONG_NAMES, 1_000):
            strangers.update(pool.map(ask_long, range(number, min(LONG_NAMES, number + 1_000))))
            strangers.update(pool.map(ask_short, range(SHORT_NAMES)))
        for turn in range(18):
            strangers.update(pool.map(ask_long, range(9)))
            got[status_of(exchange(walls.port, request("GET", "/status", ALFA), "127.0.0.9"))] += 1
    rows.holds(f"strangers: {strangers}", set(strangers) <= {401, 429})
    rows.equal("an operator beside them", {200: 18}, got)


def test_names_that_nobody_has(rows: Rows, walls: Walls) -> None:
    """Whoever asks under names that no operator can have is counted as one who names nobody."""
    sent = [request("GET", "/status", basic(name, "p")) for name in ("Alfa", "a" * 33, "a b", "alfa\n", "")]
    begun = time.monotonic()
    with ThreadPoolExecutor(8) as pool:
        got = Counter(pool.map(lambda at: status_of(exchange(walls.port, sent[at % 5])), range(200)))
    seconds = time.monotonic() - begun
    # 20 at once and 5 a second
    rows.equal("their answers", {401, 429}, set(got))
    rows.at_most(f"of 200 requests in {seconds:.1f} s, answered 401", 30 + 5 * seconds, got[401])


SPELLINGS = [
    "/flight_plans",
    "/flight_plans?x=y",
    "/%66light_plans",
    "//flight_plans",
    "/x/../flight_plans",
    "http://localhost/flight_plans",
]


def test_spellings_of_lists(rows: Rows) -> None:
    """However its path is spelled, a List counts as one; a plan of the operator's doesn't. There is one List a minute,
    so that none is let through meanwhile."""

    def ask(path: str) -> int:
        return status_of(exchange(walls.port, request("GET", path, ALFA)))

    with walls_of(texts={"rate=12r/m;": "rate=1r/m;"}) as walls:
        rows.equal("two Lists", [200, 200], [ask(SPELLINGS[0]) for _ in range(2)])
        for path in SPELLINGS:
            rows.equal(f"one more as {path}", 429, ask(path))
        rows.equal("a plan", 200, ask("/flight_plans/11111111-1111-4111-8111-111111111111"))


def put(port: int, operator: bytes, number: int, source: str) -> tuple[int, str | None, object]:
    """A PUT of a largest body: the status, after how many seconds to ask again, and the body if it was refused."""
    sent = request("PUT", f"/flight_plans/{number}", operator, body=b"x" * LARGEST)
    got = read(exchange(port, sent, source))
    return got.status, got.fields.get("retry-after"), got.value if got.status != 200 else None


def test_journal(rows: Rows, walls: Walls) -> None:
    """Two hundred largest plans pass at once; of what an operator sends after them some 34 MB, and another operator is
    answered."""
    with ThreadPoolExecutor(4) as pool:
        first = Counter(pool.map(lambda at: put(walls.port, ALFA, at, "127.0.0.2"), range(PLANS)))
        rows.equal("all plans put once", {(200, None, None): PLANS}, first)
        time.sleep(3)
        more = Counter(pool.map(lambda at: put(walls.port, ALFA, at, "127.0.0.2")[0], range(100)))
    rows.equal("beyond that", {200, 429}, set(more))
    # nginx lets through 20 a second
    time.sleep(1)
    refused = put(walls.port, ALFA, 0, "127.0.0.2")
    rows.equal("the refusal", (429, "60", {"error": "too_many_requests"}), refused)
    rows.equal("another operator", (200, None, None), put(walls.port, BRAVO, 1, "127.0.0.3"))
    sent = sum(len(came.head) + len(came.body) for came in walls.stub.came if came.field(b"x-operator") == [b"alfa"])
    rows.at_most("bytes of alfa's that came to the desk", MOST + 17 * LARGEST, sent)


def test_journal_of_lists(rows: Rows) -> None:
    """Lists count by their answers."""
    large = answer(200, json.dumps("x" * LIST).encode())

    def reply(came: Came) -> bytes:
        return large if came.first.startswith(b"GET /flight_plans ") else answer(200, b"{}")

    with walls_of(reply) as walls:
        got = Counter[int]()
        for _ in range(7):
            # past the limit of Lists in a second: the queue is asked itself
            fields = (b"x-operator: alfa\r\n", b"connection: close\r\n")
            got[status_of(exchange(walls.queue_port, request("GET", "/flight_plans", *fields)))] += 1
            time.sleep(0.3)  # in which HAProxy counts the end of the List
        rows.equal("Lists of 8 MB", {200: 5, 429: 2}, got)
        rows.equal("bravo", 200, status_of(exchange(walls.port, request("GET", "/status", BRAVO))))
