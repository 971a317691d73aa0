"""Operators that ask through the proxy: one that floods, and one that asks now and then; what each was answered."""

from __future__ import annotations

import base64
import http.client
import itertools
import socket
import threading
import time
from typing import NamedTuple

import crowds
from harness.requests import over, put
from serve.given import ID, PLAN, TOMORROW

SPANS = 25_000
"""What the units let an operator have; a largest plan is as many strips of 768 spans as fit into it."""
STRIP = 768
PASSWORDS = {"alfa": "a", "bravo": "b"}
SOURCES = {"alfa": "127.0.0.2", "bravo": "127.0.0.3"}
"""The address that each asks from, since the proxy bounds what an address may ask."""
PATIENCE = 150
PAUSE = 0.2
"""Seconds between two requests of bravo's, and before alfa asks again after a 429."""
TRIES = 300
"""How often a request is asked again after a 429."""


class Answer(NamedTuple):
    """An answer: when it was asked for and when it came, by this machine's clock. No status: the client hung up."""

    begun: float
    ended: float
    status: int | None
    after: str | None
    body: bytes


def dated(request: bytes) -> tuple[str, bytes]:
    """The path and the body of a request of crowds, planned for tomorrow."""
    head, _, body = request.partition(b"\r\n\r\n")
    return head.split()[1].decode(), body.replace(b"2026-06-01", TOMORROW.encode())


LARGEST = dated(next(crowds.strips(1, volumes=min(crowds.VOLUMES, SPANS // STRIP))))
SMALL = dated(put("bravo", ID, [over(["04"])]))
TURNS = (("PUT", *SMALL), ("GET", "/status", b""), ("GET", PLAN, b""), ("PUT", *SMALL), ("DELETE", PLAN, b""))
"""What bravo asks, in turn."""


def fields_of(operator: str, forged: str) -> dict[str, str]:
    """The fields of a request, with an x-operator that names another operator."""
    word = base64.b64encode(f"{operator}:{PASSWORDS[operator]}".encode()).decode()
    return {"authorization": f"Basic {word}", "x-operator": forged}


def ask(
    port: int, operator: str, method: str, path: str, body: bytes, forged: str = "bravo", hang_up: float | None = None
) -> Answer:
    """The answer to one request; None as its status if the client hangs up after so many seconds."""
    begun = time.monotonic()
    source = (SOURCES[operator], 0)
    link = http.client.HTTPConnection("127.0.0.1", port, timeout=hang_up or PATIENCE, source_address=source)
    try:
        link.request(method, path, body=body, headers=fields_of(operator, forged))
        told = link.getresponse()
        status, after, body = told.status, told.getheader("retry-after"), told.read()
        return Answer(begun, time.monotonic(), status, after, body)
    except (socket.timeout, ConnectionError, http.client.HTTPException):
        return Answer(begun, time.monotonic(), None, None, b"")
    finally:
        link.close()


def ask_and_hang_up(port: int, operator: str, method: str, path: str, body: bytes) -> None:
    """Sends a whole request and hangs up."""
    link = http.client.HTTPConnection("127.0.0.1", port, timeout=PATIENCE, source_address=(SOURCES[operator], 0))
    try:
        link.request(method, path, body=body, headers=fields_of(operator, "bravo"))
    finally:
        link.close()


def ask_until_let_through(port: int, operator: str, method: str, path: str, body: bytes) -> Answer:
    """The answer to a request that is asked again after each 429: nginx may count a request for a while that was
    answered. What it refuses so doesn't come to the desk."""
    for _ in range(TRIES):
        answer = ask(port, operator, method, path, body)
        if answer.status != 429:
            break
        time.sleep(PAUSE)
    return answer


class Flood:
    """alfa, which puts its largest plan again and again over so many connections, in bravo's name."""

    def __init__(self, port: int, connections: int) -> None:
        self.answers: list[Answer] = []
        self._ended, self._port = threading.Event(), port
        self._threads = [threading.Thread(target=self._ask) for _ in range(connections)]

    def __enter__(self) -> Flood:
        for thread in self._threads:
            thread.start()
        return self

    def __exit__(self, *_: object) -> None:
        self._ended.set()
        for thread in self._threads:
            thread.join()

    def _ask(self) -> None:
        """Asks over one connection after the other."""
        while not self._ended.is_set():
            answer = ask(self._port, "alfa", "PUT", *LARGEST)
            self.answers.append(answer)
            if answer.status != 200:
                self._ended.wait(PAUSE)


def now_and_then(port: int, seconds: float) -> list[Answer]:
    """What bravo is answered, which asks one thing after the other for so many seconds, and once at least."""
    answers, end = list[Answer](), time.monotonic() + seconds
    for turn in itertools.cycle(TURNS):
        if answers and time.monotonic() > end:
            break
        answers.append(ask(port, "bravo", *turn, forged="alfa"))
        time.sleep(PAUSE)
    return answers
