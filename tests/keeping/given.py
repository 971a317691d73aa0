"""What an administrator's desk holds in these tests, and what docs/by-hand.md prints."""

from __future__ import annotations

import datetime
import pathlib
import subprocess
from collections.abc import Iterator, Sequence
from typing import Any

from harness.places import TOP
from harness.printed import page
from harness.program import DESK
from harness.requests import delete, put, volume

BY_HAND = page("by-hand.md")
SCRIPT = TOP / "uss_desk"
AT = "1780315000"
"""11:56:40 of the day of these requests."""
TOMORROW = (datetime.datetime.now(datetime.timezone.utc) + datetime.timedelta(days=1)).date().isoformat()
STORED = '{"flight_plan_status":"OkToFly","notes":"","planning_result":"Completed"}'


def identity(number: int) -> str:
    """The id of a plan."""
    return f"11111111-1111-4111-8111-11111111111{number}"


def window(start: str, end: str, lower: int, upper: int, cell: str) -> dict[str, Any]:
    """A volume of one cell, between two times of the day."""
    return volume({"cells": [cell]}, lower, upper, f"2026-06-01T{start}:00Z", f"2026-06-01T{end}:00Z")


def requests() -> Iterator[bytes]:
    """What is asked; each plan has a cell of its own."""
    one = [window("12:10", "13:00", 0, 1000, "04")]
    two = [window("12:40", "13:00", 2000, 2500, "5"), window("12:05", "12:20", 2500, 3000, "5")]
    off = [window("12:00", "13:00", -50, 1005, "34")]
    yield put("alfa", identity(1), one, usage="InUse")
    yield put("alfa", identity(2), two)
    yield put("bravo", identity(1), off, 0, usage="InUse")
    yield put("bravo", identity(1), off, 0, usage="InUse", aircraft="Contingent")
    yield put("bravo", identity(2), [window("12:00", "12:15", 0, 1000, "9")], 0)
    yield put("bravo", identity(3), [window("12:00", "13:00", 0, 1000, "b")], 0)
    yield delete("bravo", identity(3))


def run(words: Sequence[str | pathlib.Path], folder: pathlib.Path | None = None, given: bytes = b"") -> str:
    """What a command prints; a text that says how it ended if it failed."""
    ran = subprocess.run(words, cwd=folder, input=given, capture_output=True, timeout=600, check=False)
    if ran.returncode:
        return f"status {ran.returncode}: {ran.stderr.decode(errors='replace')}"
    return ran.stdout.decode()


def made_file(path: pathlib.Path) -> str:
    """Makes a file by these requests; the answers."""
    words = ["play", "--db", str(path), "--at", AT, "alfa=100", "bravo=100"]
    return run([*DESK, *words], given=b"".join(requests()))


def shown(text: str, beginning: str) -> str:
    """The first line of a document's code that begins so, without its comment."""
    return next(line.split("#")[0].strip() for line in text.splitlines() if line.strip().startswith(beginning))


def count_of(file: pathlib.Path) -> str:
    """How many operators and plans a file has."""
    return run(["sqlite3", file, "SELECT (SELECT count(*) FROM operator), (SELECT count(*) FROM plan)"])


def put_at(port: int) -> str:
    """What curl is answered to a plan for tomorrow."""
    body = next(requests()).partition(b"\r\n\r\n")[2].replace(b"2026-06-01", TOMORROW.encode())
    words = ["curl", "--silent", "--max-time", "300", "-H", "x-operator: alfa", "-X", "PUT", "--data-binary", "@-"]
    return run([*words, f"http://127.0.0.1:{port}/flight_plans/{identity(1)}"], given=body)
