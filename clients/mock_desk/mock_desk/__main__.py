"""The command line: `python3 -m mock_desk --port 8080 alfa=100`, and `--at SECOND` to play the standard input."""
from __future__ import annotations

import argparse
import errno
import re
import socket
import sqlite3
import sys
import time
from typing import List, Optional, Sequence, Tuple

from .bodies import PRIORITY_MOST, SECOND_MOST
from .desk import Desk, play
from .faults import KINDS, SLOW_SECONDS, Troubles, read_fault
from .requests import Refusal, next_request
from .store import Store

EQUAL_MOST = 32
SECONDS_TO_ASK = 10
CHUNK = 65_536
PORT_CAUSES = {
    errno.EADDRINUSE: "in use by another program",
    errno.EACCES: "no right to it",
    errno.EPERM: "no right to it",
}


class Failed(Exception):
    """The program ends with a status, and a word on standard error."""

    def __init__(self, status: int, word: str) -> None:
        super().__init__(status, word)
        self.status, self.word = status, word


def number_within(least: int, most: int) -> type:
    """The type of a number of the line with its limits."""

    def read(text: str) -> int:
        """The number; raises ValueError."""
        if not re.fullmatch("[0-9]+", text) or not least <= int(text) <= most:
            raise ValueError(text)
        return int(text)

    return read  # type: ignore[return-value]


def read_line(words: Sequence[str]) -> argparse.Namespace:
    """The options and the operators of a line; ends with status 2 if it is malformed."""
    line = argparse.ArgumentParser(
        prog="mock_desk", description="The desk of docs/api.md in Python, unproved: for trying a client."
    )
    how = line.add_mutually_exclusive_group(required=True)
    how.add_argument(
        "--at",
        type=number_within(0, SECOND_MOST),
        metavar="SECOND",
        help="play the requests of the standard input at this Unix second",
    )
    how.add_argument("--port", type=number_within(1, 65_535), help="serve at a port of 127.0.0.1")
    line.add_argument(
        "--requests", type=number_within(1, 1_000_000), help="with --port: end after so many connections"
    )
    line.add_argument(
        "--fault",
        type=read_fault,
        action="append",
        default=[],
        metavar="KIND:N",
        help=f"with --port, for tests of a client: each Nth request meets KIND, one of {', '.join(KINDS)} (lost: "
        f"carried out and not answered; slow: answered after {SLOW_SECONDS} seconds); may be given again",
    )
    line.add_argument("--db", default=":memory:", metavar="FILE", help="a file of this program's own")
    line.add_argument("--equal", metavar="P,P,..", help="priorities at which plans of equal priority may overlap")
    line.add_argument(
        "--spans", type=number_within(1, 5_000_000), metavar="N", help="the most spans of an operator's live plans"
    )
    line.add_argument(
        "--cells", type=number_within(1, 5_000_000), metavar="N", help="the most cells of an operator's plans"
    )
    line.add_argument("operators", nargs="*", metavar="NAME=CEILING", help="operators to enrol first")
    end = words.index("--") if "--" in words else len(words)
    found = line.parse_intermixed_args(words[:end])
    if found.fault and found.port is None:
        line.error("--fault needs --port")
    found.operators += words[end + 1 :]
    return found


def small_number(text: str) -> int:
    """A ceiling or a permitted priority; raises Failed."""
    if not re.fullmatch("[0-9]{1,4}", text) or int(text) > PRIORITY_MOST:
        raise Failed(2, "value")
    return int(text)


def read_equal(text: Optional[str]) -> Tuple[int, ...]:
    """The permitted priorities; raises Failed."""
    if text is None:
        return ()
    priorities = tuple(small_number(it) for it in text.split(","))
    if len(priorities) > EQUAL_MOST or any(one >= other for one, other in zip(priorities, priorities[1:])):
        raise Failed(2, "value")
    return priorities


def read_operator(text: str) -> Tuple[str, int]:
    """A name and a ceiling; raises Failed."""
    name, _, ceiling = text.partition("=")
    if not re.fullmatch("[a-z0-9-]{1,32}", name):
        raise Failed(2, "value")
    return name, small_number(ceiling)


def open_store(path: str, operators: List[Tuple[str, int]]) -> Store:
    """The store of a file with these operators enrolled; raises Failed."""
    try:
        store = Store(path)
        for name, ceiling in operators:
            store.enrol(name, ceiling)
        return store
    except sqlite3.Error:
        raise Failed(4, "store") from None


def play_input(desk: Desk) -> None:
    """Answers the standard input on the standard output; raises Failed."""
    try:
        given = sys.stdin.buffer.read()
    except OSError:
        raise Failed(3, "read") from None
    for answer, word in play(desk, given):
        write(answer)
        if word:
            raise Failed(3, word)


def write(answer: bytes) -> None:
    """Writes an answer; raises Failed."""
    try:
        sys.stdout.buffer.write(answer)
        sys.stdout.buffer.flush()
    except OSError:
        raise Failed(4, "write") from None


def serve(desk: Desk, port: int, requests: Optional[int], troubles: Troubles) -> None:
    """Answers one request a connection, until so many are served; raises Failed."""
    try:
        listener = socket.create_server(("127.0.0.1", port))
    except OSError as wrong:
        cause = PORT_CAUSES.get(wrong.errno or 0, "it can't be had")
        print(f"uss_desk: 127.0.0.1:{port}: {cause}", file=sys.stderr)
        raise Failed(4, "network") from None
    print(f"listening 127.0.0.1:{port}", flush=True)
    with listener:
        while requests is None or requests > 0:
            connection, _ = listener.accept()
            with connection:
                serve_one(desk, connection, troubles)
            requests = None if requests is None else requests - 1


def is_there(given: bytes) -> bool:
    """Whether a whole request has come, or what is none."""
    try:
        return bool(given) and next_request(given)[0] is not None
    except Refusal:
        return True


def serve_one(desk: Desk, connection: socket.socket, troubles: Troubles) -> None:
    """Answers the request of a connection, if it is there whole in time."""
    given, limit = b"", time.monotonic() + SECONDS_TO_ASK
    try:
        while time.monotonic() < limit:
            if is_there(given):
                answer = troubles.answer(lambda: next(play(desk, given))[0])
                connection.settimeout(SECONDS_TO_ASK)
                connection.sendall(answer)
                return
            connection.settimeout(max(0.001, limit - time.monotonic()))
            more = connection.recv(CHUNK)
            if not more:
                return
            given += more
    except OSError:
        return


def main(words: Sequence[str]) -> int:
    """Runs a line; the exit status."""
    line = read_line(words)
    try:
        equal = read_equal(line.equal)
        store = open_store(line.db, [read_operator(it) for it in line.operators])
        if line.at is not None:
            play_input(Desk(store, equal, lambda: int(line.at), line.spans, line.cells))
        else:
            desk = Desk(store, equal, lambda: int(time.time()), line.spans, line.cells)
            serve(desk, line.port, line.requests, Troubles(line.fault))
    except Failed as failed:
        print(f"uss_desk: {failed.word}", file=sys.stderr)
        return failed.status
    except KeyboardInterrupt:
        pass
    return 0


if __name__ == "__main__":
    sys.exit(main(sys.argv[1:]))
