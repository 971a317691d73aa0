"""Faults on demand: which request meets one, what it is answered, and what stands at the desk then."""
from __future__ import annotations

import argparse
import json
import pathlib
import re
import socket
import subprocess
import sys
from typing import List

import pytest
from asking import ID, ask, desk, plan, request

from mock_desk.desk import play
from mock_desk.faults import ANSWERS, KINDS, SLOW_SECONDS, Fault, Troubles, read_fault

PLACE = pathlib.Path(__file__).parent.parent
DEPLOY = PLACE.parent.parent / "deploy"
STATUS = request("GET", "/status")


def answers(troubles: Troubles, count: int) -> List[bytes]:
    """The answers to so many requests for the status."""
    at = desk()
    return [troubles.answer(lambda: next(play(at, STATUS))[0]) for _ in range(count)]


def statuses(given: List[bytes]) -> List[int]:
    """Their statuses; 0 for one that is lost."""
    return [int(it.split()[1]) if it else 0 for it in given]


def test_each_third() -> None:
    assert statuses(answers(Troubles([Fault("503", 3)]), 7)) == [200, 200, 503, 200, 200, 503, 200]


def test_the_first_that_is_due() -> None:
    several = Troubles([Fault("lost", 2), Fault("429", 3)])
    assert statuses(answers(several, 7)) == [200, 0, 429, 0, 200, 0, 200]


def test_none() -> None:
    assert statuses(answers(Troubles(), 3)) == [200, 200, 200]


def test_slow() -> None:
    pauses: List[float] = []
    assert statuses(answers(Troubles([Fault("slow", 2)], pauses.append), 3)) == [200, 200, 200]
    assert pauses == [SLOW_SECONDS]


@pytest.mark.parametrize("kind", KINDS)
def test_what_is_carried_out(kind: str) -> None:
    at, put = desk(), request("PUT", f"/flight_plans/{ID}", body=plan())
    Troubles([Fault(kind, 1)], lambda _: None).answer(lambda: next(play(at, put))[0])
    status, _ = ask(at, "GET", f"/flight_plans/{ID}")
    assert status == (200 if kind in ("504", "lost", "slow") else 404)


@pytest.mark.parametrize("kind", sorted(ANSWERS))
def test_answers(kind: str) -> None:
    (answer,) = answers(Troubles([Fault(kind, 1)]), 1)
    head, _, body = answer.decode().partition("\r\n\r\n")
    assert head.startswith(f"HTTP/1.1 {kind} ") and f"content-length: {len(body)}\r\n" in head
    code, seconds = json.loads(body)["error"], re.search("retry-after: ([0-9]+)", head)
    if kind == "500":
        assert (code, seconds) == ("store", None)
        return
    shipped = (DEPLOY / "nginx_refusals.conf").read_text()
    place = shipped[shipped.index(f"location = /refused/{kind} ") :].split("\n}\n")[0]
    assert seconds and f"retry-after {seconds[1]} " in place and f'{{"error":"{code}"}}' in place


@pytest.mark.parametrize("text", ["", "503", "503:", "503:0", "503:-1", "503:x", "404:1", ":3", "slow:1.5"])
def test_words_that_are_none(text: str) -> None:
    with pytest.raises(argparse.ArgumentTypeError):
        read_fault(text)


def test_at_a_port() -> None:
    with socket.socket() as free:
        free.bind(("127.0.0.1", 0))
        port = free.getsockname()[1]
    line = [sys.executable, "-m", "mock_desk", "--port", str(port), "--requests", "4", "alfa=100"]
    line += ["--fault", "503:2", "--fault", "lost:3"]
    with subprocess.Popen(line, cwd=PLACE, stdout=subprocess.PIPE) as served:
        assert served.stdout and served.stdout.readline()
        given = []
        for piece in (STATUS, STATUS[:9], STATUS, STATUS):
            with socket.create_connection(("127.0.0.1", port)) as client:
                client.sendall(piece)
                client.shutdown(socket.SHUT_WR)
                given.append(b"".join(iter(lambda: client.recv(4096), b"")))
        # what is no whole request isn't counted
        assert statuses(given) == [200, 0, 503, 0]
        assert served.wait(30) == 0


def test_without_a_port() -> None:
    line = [sys.executable, "-m", "mock_desk", "--at", "1", "--fault", "503:2"]
    ran = subprocess.run(line, cwd=PLACE, input=b"", capture_output=True, timeout=60)
    assert ran.returncode == 2 and b"--fault needs --port" in ran.stderr
