"""Faults on demand, for tests of a client: each Nth request is answered as a desk or its proxy would in trouble."""
from __future__ import annotations

import argparse
import re
import time
from typing import Callable, List, NamedTuple, Optional, Sequence

SLOW_SECONDS = 5
# What stands in the place of an answer: the phrase, the error code, and the seconds of `retry-after`, none where it has
# no such field. Those of the proxy are the ones of deploy/nginx_refusals.conf.
ANSWERS = {
    "429": ("Too Many Requests", "too_many_requests", 5),
    "500": ("Internal Server Error", "store", None),
    "502": ("Bad Gateway", "bad_gateway", 2),
    "503": ("Service Unavailable", "unavailable", 5),
    "504": ("Gateway Timeout", "gateway_timeout", 10),
}
# After these the request is carried out all the same; after the others of ANSWERS it isn't.
CARRIED_OUT = ("504", "lost", "slow")
KINDS = (*ANSWERS, "lost", "slow")


class Fault(NamedTuple):
    """What happens to each Nth request."""

    kind: str
    every: int


def read_fault(text: str) -> Fault:
    """The fault of `KIND:N`; raises ArgumentTypeError."""
    kind, _, every = text.partition(":")
    if kind not in KINDS or not re.fullmatch("[1-9][0-9]{0,8}", every):
        raise argparse.ArgumentTypeError(f"{text!r} is no KIND:N with KIND one of {', '.join(KINDS)}")
    return Fault(kind, int(every))


def refusal_of(kind: str) -> bytes:
    """The answer of a fault, as bytes."""
    phrase, code, seconds = ANSWERS[kind]
    body = f'{{"error":"{code}"}}'
    again = "" if seconds is None else f"retry-after: {seconds}\r\n"
    return (
        f"HTTP/1.1 {kind} {phrase}\r\ncontent-type: application/json\r\ncontent-length: {len(body)}\r\n"
        f"{again}connection: close\r\n\r\n{body}"
    ).encode()


class Troubles:
    """The faults of a desk, and how many requests have come."""

    def __init__(self, faults: Sequence[Fault] = (), pause: Callable[[float], None] = time.sleep) -> None:
        self.faults: List[Fault] = list(faults)
        self.pause = pause
        self.count = 0

    def next_kind(self) -> Optional[str]:
        """Counts a request; the first fault that is due for it."""
        self.count += 1
        return next((fault.kind for fault in self.faults if self.count % fault.every == 0), None)

    def answer(self, carry_out: Callable[[], bytes]) -> bytes:
        """The answer to the next request; none if it gets lost."""
        kind = self.next_kind()
        if kind is None:
            return carry_out()
        answer = carry_out() if kind in CARRIED_OUT else b""
        if kind == "slow":
            self.pause(SLOW_SECONDS)
        return answer if kind == "slow" else b"" if kind == "lost" else refusal_of(kind)
