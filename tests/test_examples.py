"""Each NAME.http of this folder, played at an empty desk of two operators, is answered by NAME.answer, byte for byte;
and a plan is kept from one run over a file to the next."""

from __future__ import annotations

import pathlib

import pytest
from harness.places import EXAMPLES
from harness.program import Ran, command, run

AT = ["play", "--at", "1780315000"]
NAMES = sorted(path.stem for path in EXAMPLES.glob("*.http"))


def file(name: str) -> bytes:
    """The bytes of a file of this folder."""
    return (EXAMPLES / name).read_bytes()


@pytest.mark.quick_each(8)
@pytest.mark.parametrize("name", NAMES)
def test_answers(name: str) -> None:
    """What is answered to the requests of an example."""
    terms = file(f"{name}.args").decode().split() if (EXAMPLES / f"{name}.args").exists() else []
    ran = run(*AT, *terms, "alfa=100", "bravo=100", given=file(f"{name}.http"))
    assert (ran.output, ran.status) == (file(f"{name}.answer"), 0)


def enrolled(path: str) -> Ran:
    """The end of the line that enrols alfa in a file."""
    return run("enrol", "--db", path, "alfa", "100")


def planned(path: str) -> Ran:
    """The end of the line that plays first_put over a file in which alfa is enrolled."""
    enrolled(path)
    return run(*AT, "--db", path, given=file("first_put.http"))


def test_enrolled_in_a_file(room: pathlib.Path) -> None:
    """What the first line over a file prints."""
    assert enrolled(str(room / "desk.db"))[:2] == (0, b"enrolled alfa 100\n")


def test_first_put_over_a_file(room: pathlib.Path) -> None:
    """What is answered over a file is what is answered in memory."""
    assert planned(str(room / "desk.db"))[:2] == (0, file("first_put.answer"))


def test_plan_shown_by_a_later_run(room: pathlib.Path) -> None:
    """The plan is kept."""
    planned(str(room / "desk.db"))
    ran = run(*AT, "--db", str(room / "desk.db"), given=file("show_p.http"))
    assert (ran.output, ran.status) == (file("show_p_kept.answer"), 0)


@pytest.mark.quick
def test_plan_read_by_sqlite3(room: pathlib.Path) -> None:
    """The plan is in the table that docs/tables.md tells."""
    planned(str(room / "desk.db"))
    ran = command(["sqlite3", str(room / "desk.db"), "SELECT operator, id, priority FROM plan"])
    assert ran[:2] == (0, b"alfa|11111111-1111-4111-8111-111111111111|10\n")
