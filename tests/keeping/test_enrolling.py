"""Operators of a file, while a client asks all the time: enrolled without a stop, a ceiling changed, lines that are no
enrolment, a line taken out, the file gone and there again."""

from __future__ import annotations

import pathlib
import threading

import pytest
from harness.program import DESK
from harness.requests import status
from harness.rows import Rows
from harness.serving import Served
from keeping.given import STORED, put_at, run
from keeping.test_memory import answered

pytestmark = pytest.mark.alone


class Load(threading.Thread):
    """A client that asks for the status in an operator's name, one request after the other."""

    def __init__(self, port: int, name: str) -> None:
        super().__init__(daemon=True)
        self.port, self.operator = port, name
        self.met: set[int | str] = set()
        self._is_over = threading.Event()

    def run(self) -> None:
        while not self._is_over.is_set():
            self.met.update(statuses(self.port, self.operator))

    def ended(self) -> set[int | str]:
        """The statuses that it was answered."""
        self._is_over.set()
        self.join()
        return self.met


def statuses(port: int, *names: str) -> list[int | str]:
    """The status of an answer to each of these operators."""
    return [answered(port, name, status(name)) for name in names]


def moved_in(file: pathlib.Path, text: str) -> None:
    """A new file of enrolments is written beside the old one, and moved into its place."""
    new = file.with_suffix(".new")
    new.write_text(text)
    new.replace(file)


def told_of(file: pathlib.Path, *texts: str) -> list[str]:
    """Lines of standard error on a file."""
    return [f"uss_desk: {file}: {text}" for text in texts]


@pytest.fixture
def file(room: pathlib.Path) -> pathlib.Path:
    """Where the file of enrolments is."""
    return room / "operators"


@pytest.mark.quick
def test_no_file_at_the_start(rows: Rows, room: pathlib.Path, file: pathlib.Path) -> None:
    """The line ends, and makes no desk."""
    line = ["serve", "--db", str(room / "desk.db"), "--port", "8080", "--requests", "1", "--operators", str(file)]
    rows.equal("the end", f"status 3: uss_desk: {file}: no such file\nuss_desk: read\n", run([*DESK, *line]))
    rows.equal("and no desk is made", False, (room / "desk.db").exists())


def test_enrolled_under_load(rows: Rows, room: pathlib.Path, file: pathlib.Path) -> None:
    """One desk, and what the keeper does to the file."""
    moved_in(file, "alfa 100\n")
    with Served("--db", str(room / "desk.db"), "--operators", str(file), connections=1_000_000) as desk:
        rows.equal("alfa at the start, bravo not", [200, 403], statuses(desk.port, "alfa", "bravo"))
        load = Load(desk.port, "alfa")
        load.start()
        wanted = changed(rows, desk.port, file) + gone(rows, desk.port, file)
        rows.equal("nobody was cut off", {200}, load.ended())
        desk.errors.seek(0)
        rows.equal("what is told", wanted, desk.errors.read().decode().splitlines())


def changed(rows: Rows, port: int, file: pathlib.Path) -> list[str]:
    """Other operators and ceilings, and lines that are none; what is told of these."""
    moved_in(file, "alfa 100\nbravo 7\n")
    rows.equal("bravo, enrolled under load", [200, 200], statuses(port, "alfa", "bravo"))
    rows.equal("a plan", STORED, put_at(port))
    moved_in(file, "alfa 9\nbravo 7\n")
    rows.has("a lower ceiling", '"notes":"priority"', put_at(port))
    bad = "".join(f"delta={number}\n" for number in range(22))
    moved_in(file, f"alfa 100\n\nBravo 7\n{bad}charlie 7")
    names = ("alfa", "bravo", "charlie")
    rows.equal("lines that are none, and one taken out", [200] * 3, statuses(port, *names))
    rows.equal("the ceiling is set back", STORED, put_at(port))
    lines = [f"line {number} is not NAME CEILING, and passed over" for number in range(3, 23)]
    return told_of(file, *lines, "3 more such lines")


def gone(rows: Rows, port: int, file: pathlib.Path) -> list[str]:
    """The file gone, there again, and too long; what is told of that."""
    file.unlink()
    rows.equal("the file gone", [200, 200, 403], statuses(port, "alfa", "bravo", "delta"))
    moved_in(file, "delta 1\n")
    rows.equal("the file there again", [200, 200], statuses(port, "alfa", "delta"))
    moved_in(file, "a" * 2**20 + "\n")
    rows.equal("a file too long", [200, 200], statuses(port, "alfa", "delta"))
    return told_of(file, "no such file", "longer than 1,048,576 bytes")
