"""Records as docs/journal-format.md has them, written from it alone, of the answers that the program gives."""

from __future__ import annotations

import hashlib
import json
import pathlib
from collections.abc import Sequence
from typing import NamedTuple

from harness.program import run
from harness.requests import answers

LINE = 86
"""How many bytes a line has."""


def checksum(data: bytes) -> bytes:
    """The sum of some bytes."""
    return hashlib.sha256(data).hexdigest()[:16].encode()


def entry(word: str, number: int, data: bytes = b"") -> bytes:
    """An entry."""
    front = b"%-9s %020d %020d %s " % (word.encode(), number, len(data), checksum(data))
    return front + checksum(front) + b"\n" + data + b"\n"


def beginning(
    number: int,
    operators: Sequence[tuple[str, int]] = (),
    permitted: Sequence[int] = (),
    spans: int | None = None,
    cells: int | None = None,
) -> list[bytes]:
    """The entries with which a record begins."""
    limits = [entry(word, most) for word, most in (("spans", spans), ("cells", cells)) if most is not None]
    return [
        entry("record", number, b"1"),
        *(entry("permitted", priority) for priority in permitted),
        *limits,
        *(entry("operator", ceiling, name.encode()) for name, ceiling in operators),
    ]


class Said(NamedTuple):
    """What an entry says."""

    word: str
    number: int
    data: bytes


def size_in(text: bytes) -> int | None:
    """How many bytes the line counts with which a text begins, if it begins with one."""
    line = text[:LINE]
    return int(line[31:51]) if line[69:] == checksum(line[:69]) + b"\n" else None


def entries_in(text: bytes) -> tuple[list[Said], bytes]:
    """The whole entries with which a text begins, and what stands behind them."""
    found = []
    while (size := size_in(text)) is not None:
        data, more = text[LINE : LINE + size], text[LINE + size :]
        if text[52:68] != checksum(data) or more[:1] != b"\n":
            break
        found.append(Said(text[:9].decode().rstrip(), int(text[10:30]), data))
        text = more[1:]
    return found, text


def is_damaged(rest: bytes) -> bool:
    """Whether what stands behind the last whole entry is neither nothing nor the beginning of one."""
    size = size_in(rest)
    return len(rest) >= LINE if size is None else len(rest) > LINE + size


class Heard(NamedTuple):
    """A request, the second at which it was answered, and its answer."""

    second: int
    request: bytes
    answer: bytes


def asked(file: pathlib.Path, second: int, requests: Sequence[bytes], *words: str) -> list[Heard]:
    """What the program answers to requests at a desk over a file."""
    ran = run("play", "--db", str(file), "--at", str(second), *words, given=b"".join(requests))
    assert ran.status == 0, ran.errors
    given = [answer.whole for answer in answers(ran.output)]
    assert len(given) == len(requests)
    return [Heard(second, request, answer) for request, answer in zip(requests, given)]


def exchanges(heard: Sequence[Heard]) -> list[bytes]:
    """The entries of requests and of their answers."""
    return [
        one
        for it in heard
        for one in (entry("request", it.second, it.request), entry("answer", it.second, it.answer))
    ]


def is_failure(answer: bytes) -> bool:
    """Whether an answer says that the desk failed: such a request counts as one that has no answer."""
    return answer.startswith(b"HTTP/1.1 500 ")


def answered_in(said: Sequence[Said]) -> list[Heard]:
    """The requests of some entries that have an answer, each with it."""
    pairs = zip(said, said[1:])
    return [
        Heard(one.number, one.data, other.data)
        for one, other in pairs
        if (one.word, other.word) == ("request", "answer") and not is_failure(other.data)
    ]


def count_played(said: Sequence[Said]) -> int:
    """How many requests a replay of some entries plays: one that is asked again counts once."""
    count, is_left = 0, False
    for it in said:
        count += it.word == "request" and not is_left
        is_left = is_left or it.word == "request"
        if it.word == "answer" and not is_failure(it.data):
            is_left = False
    return count


def is_change(request: bytes, answer: bytes) -> bool:
    """Whether a request made a change, by its answer: a plan was stored or closed, or some were removed. (A PUT that
    closes a plan which is closed makes none, and isn't told from one that closes it.)"""
    if not answer.startswith(b"HTTP/1.1 200 "):
        return False
    told = json.loads(answer.partition(b"\r\n\r\n")[2])
    method, path = request.split(b" ", 2)[:2]
    if method == b"PUT":
        asked = json.loads(request.partition(b"\r\n\r\n")[2])
        return bool(told["planning_result"] == "Completed" and asked["execution_style"] != "Hypothetical")
    if path == b"/clear_area_requests":
        return bool(told["outcome"]["message"] != "cleared 0")
    return method == b"DELETE"


def changes_in(said: Sequence[Said]) -> range:
    """How many of the requests that a replay of some entries plays made a change. A request whose first answer lacks
    may have made it then, whatever the next one says."""
    least, open_ones, request, is_again = 0, 0, b"", False
    for it in said:
        if it.word == "request":
            is_again, request = bool(request), it.data
        if it.word == "answer" and not is_failure(it.data):
            least += is_change(request, it.data)
            open_ones += is_again and not is_change(request, it.data)
            request = b""
    return range(least, least + open_ones + bool(request) + 1)
