"""Files that are looked into by `check` and copied by `copy`, or refused by both with the cause."""

from __future__ import annotations

import contextlib
import os
import pathlib
import shutil
import sqlite3

import pytest
from harness.program import run
from harness.rows import named
from harness.sums import sum_anew
from tables.causes import DAMAGED, IN_USE, NO_DATABASE, NO_TABLE, OTHER, TAKEN, unsummed
from tables.files import bytes_of, logged_file, made_file, names_beside, old_file, rows_of, stated_file
from tables.judging import (
    REFUSED,
    assert_copied,
    assert_in_schema_2,
    assert_looked,
    assert_passed,
    assert_refused_by_all,
    copied,
    enrolled,
    looked,
    moved,
    told,
)
from tables.statements import CLOSED, COPIED, PLAN, many, shared, wide

Counts = tuple[int, int, int, int, int, int]
# name, the statements of a file, and how many operators, plans, live plans and spans it has, spans of the operator that
# has most, and cells of the one that has most of those: as they are listed, or of a rectangle's cover
FILES: list[tuple[str, list[str], Counts]] = [
    ("one_plan", PLAN, (1, 1, 1, 1, 1, 1)),
    ("closed_plan", CLOSED, (1, 1, 0, 0, 0, 1)),
    ("no_plan", [], (0, 0, 0, 0, 0, 0)),
    ("many_plans", many(200), (1, 200, 0, 0, 0, 200)),
    ("many_volumes", wide(32), (1, 1, 0, 0, 0, 32)),
    ("most_in_the_midst", shared(1, 3, 2), (3, 6, 6, 6, 3, 3)),
    ("most_at_the_end", shared(2, 0, 3), (3, 5, 5, 5, 3, 3)),
    ("most_cells_of_another", COPIED, (2, 2, 1, 1, 1, 6)),
]
# name, a new name that is none, within the folder if it has a slash, the name that is told, and the cause
NO_NAMES = [
    ("into_memory", ":memory:", ":memory:", "a name that SQLite reads otherwise than as a path"),
    ("to_a_uri", "file:new.db", "file:new.db", "a name that SQLite reads otherwise than as a path"),
    ("to_itself", "/desk.db", "/desk.db", TAKEN),
    ("into_no_folder", "/nowhere/new.db", "/nowhere/new.db.part", "no such folder"),
]

# name, and a line that opens a file, or makes it; its words but for the file
OPENING = [
    ("enrol", ["enrol", "bravo", "100"]),
    ("play", ["play", "--at", "0"]),
    ("serve", ["serve", "--port", "8080", "--requests", "1"]),
]


@pytest.fixture
def one_plan(room: pathlib.Path) -> str:
    """The path of a file of one plan."""
    return made_file(str(room / "desk.db"), PLAN)


@pytest.mark.quick_each(3)
@pytest.mark.parametrize("statements, counts", named(FILES))
def test_check(statements: list[str], counts: Counts, room: pathlib.Path) -> None:
    """What `check` counts in a file."""
    path = made_file(str(room / "desk.db"), statements)
    operators, plans, live, spans, most, cells = counts
    size = os.path.getsize(path) // 100_000
    line = f"schema 2, sums no, {operators} operators, {plans} plans, {live} live, {spans} spans"
    line += f", {size // 10}.{size % 10} MB, 0.0 MB in the log, at most {most} spans of one operator"
    assert_looked(path, f"{line}, at most {cells} cells of one operator")


@pytest.mark.quick_each(6)
@pytest.mark.parametrize("statements, counts", named(FILES))
def test_copy(statements: list[str], counts: Counts, room: pathlib.Path) -> None:
    """What `copy` counts in a file, and copies."""
    path = made_file(str(room / "desk.db"), statements)
    assert_copied(path, f"copied {counts[0]} operators, {counts[1]} plans")


def test_copy_with_its_log(room: pathlib.Path) -> None:
    """What is in the log alone is looked into and copied too, and stays."""
    path = logged_file(str(room / "desk.db"))
    look = looked(path)
    assert look.status == 0
    assert look.output.startswith(b"schema 2, sums no, 1 operators, 1 plans, 1 live, 1 spans")
    assert look.output.endswith(b", at most 1 spans of one operator, at most 1 cells of one operator\n")
    assert copied(path, path + ".copy") == (0, b"copied 1 operators, 1 plans\n", "")
    rows = rows_of(path)
    assert len(rows[1]) == 1
    assert_in_schema_2(rows, path + ".copy")


def test_check_of_schema_1(room: pathlib.Path) -> None:
    """What `check` counts in a file of schema 1: the cells are alfa's, four of its closed plan."""
    path = old_file(str(room / "old.db"), [])
    line = "schema 1, sums no, 2 operators, 3 plans, 2 live, 2 spans, 0.0 MB, 0.0 MB in the log"
    assert_looked(path, f"{line}, at most 1 spans of one operator, at most 5 cells of one operator")


def test_copy_of_schema_1(room: pathlib.Path) -> None:
    """A copy of a file of schema 1 is of schema 2."""
    assert_copied(old_file(str(room / "old.db"), []), "copied 2 operators, 3 plans")


def test_check_of_a_copy(one_plan: str) -> None:
    """A copy has sums on its pages; another operator is enrolled in it."""
    assert_copied(one_plan, "copied 1 operators, 1 plans")
    assert looked(one_plan + ".copy").output.startswith(b"schema 2, sums yes, 2 operators, 1 plans")


@pytest.fixture
def damaged(one_plan: str, room: pathlib.Path) -> str:
    """The path of a file with sums, a bit of which isn't as it was."""
    path = room / "damaged.db"
    assert copied(one_plan, str(path)).status == 0
    whole = bytearray(path.read_bytes())
    whole[-100] ^= 1
    path.write_bytes(whole)
    return str(path)


def test_damaged(damaged: str) -> None:
    """The page of that bit is told. (What `check` and `copy` make of its rows, tests/keeping has.)"""
    assert moved(damaged) == (REFUSED, b"", told(damaged, unsummed(1), "store"))


@pytest.mark.parametrize("words", named(OPENING))
def test_damaged_opened(words: list[str], damaged: str) -> None:
    """It is told by the lines that make a file where there is none too."""
    assert run(words[0], "--db", damaged, *words[1:]) == (REFUSED, b"", told(damaged, unsummed(1), "store"))


def test_damaged_under_its_sums(one_plan: str, room: pathlib.Path) -> None:
    """Rows that break a key, in pages whose sums are right."""
    path = room / "summed.db"
    assert copied(one_plan, str(path)).status == 0
    stated_file(str(path), ["DELETE FROM operator"])
    sum_anew(path)
    assert_refused_by_all(str(path), DAMAGED, "store")


def test_nothing(room: pathlib.Path) -> None:
    """A file that isn't there."""
    assert_refused_by_all(str(room / "nothing.db"), "no such file", "store")


@pytest.mark.quick
def test_empty(room: pathlib.Path) -> None:
    """An empty file stays empty."""
    path = room / "empty.db"
    path.touch()
    assert_refused_by_all(str(path), "an empty file", "store")
    assert path.read_bytes() == b""


@pytest.mark.quick
def test_text(room: pathlib.Path) -> None:
    """A file of text."""
    path = room / "text.db"
    path.write_bytes(b"no database, and long enough\n" * 200)
    assert_refused_by_all(str(path), NO_DATABASE, "store")


def test_file_of_another_program(room: pathlib.Path) -> None:
    """A file of other tables alone."""
    path = stated_file(str(room / "other.db"), ["CREATE TABLE note (id INTEGER PRIMARY KEY)"])
    assert_refused_by_all(path, OTHER, "not_a_desk")


@pytest.mark.quick
def test_no_table(room: pathlib.Path) -> None:
    """A database without a table."""
    assert_passed(stated_file(str(room / "bare.db"), ["PRAGMA user_version = 1"]), NO_TABLE)


def test_folder(room: pathlib.Path) -> None:
    """A folder in place of a file."""
    assert_refused_by_all(os.path.join(room, "."), NO_DATABASE, "store")


def test_pipe(room: pathlib.Path) -> None:
    """A pipe in place of a file, for whose writer no line waits."""
    path = str(room / "pipe.db")
    os.mkfifo(path)
    assert_refused_by_all(path, NO_DATABASE, "store")
    assert enrolled(path) == (REFUSED, b"", told(path, NO_DATABASE, "store"))


def test_check_in_memory() -> None:
    """There is nothing to look into in memory."""
    look = run("check", "--db", ":memory:")
    assert (look.status, look.errors) == (REFUSED, "uss_desk: store\n")


def test_in_use(one_plan: str) -> None:
    """A file that another program has locked."""
    with contextlib.closing(sqlite3.connect(one_plan, isolation_level=None)) as holder:
        holder.execute("BEGIN EXCLUSIVE")
        assert_refused_by_all(one_plan, IN_USE, "store")
        assert enrolled(one_plan) == (REFUSED, b"", told(one_plan, IN_USE, "store"))


@pytest.mark.parametrize("new, at, cause", named(NO_NAMES))
def test_copy_to_what_is_no_name(new: str, at: str, cause: str, one_plan: str, room: pathlib.Path) -> None:
    """A new name that is none: its cause is told, and nothing is made."""
    new, at = (f"{room}{name}" if name.startswith("/") else name for name in (new, at))
    before = bytes_of(one_plan), sorted(os.listdir(room))
    assert copied(one_plan, new) == (REFUSED, b"", told(at, cause, "store"))
    assert (bytes_of(one_plan), sorted(os.listdir(room))) == before


def test_copy_beside_a_log(one_plan: str, room: pathlib.Path) -> None:
    """A new name, beside which a log is."""
    new = room / "new.db"
    (room / "new.db-wal").touch()
    assert copied(one_plan, str(new)) == (REFUSED, b"", told(f"{new}-wal", TAKEN, "store"))
    assert not new.exists()


@pytest.mark.parametrize("end", [".part", ".part-wal"])
def test_copy_over_what_is_left(end: str, one_plan: str, room: pathlib.Path) -> None:
    """What a copy left under the names that a new file has first is made anew."""
    (room / f"new.db{end}").touch()
    assert copied(one_plan, str(room / "new.db")) == (0, b"copied 1 operators, 1 plans\n", "")
    assert names_beside(str(room / "new.db")) == {"new.db"}


def assert_not_copied(path: str, new: pathlib.Path, cause: str) -> None:
    """A file isn't copied, for what stands where the new one is written first, and which stays."""
    names = names_beside(str(new))
    assert copied(path, str(new)) == (REFUSED, b"", told(f"{new}.part", cause, "store"))
    assert names_beside(str(new)) == names


def test_copy_over_a_held_file(one_plan: str, room: pathlib.Path) -> None:
    """Another program has locked what stands there."""
    with contextlib.closing(sqlite3.connect(room / "new.db.part", isolation_level=None)) as holder:
        holder.execute("BEGIN EXCLUSIVE")
        assert_not_copied(one_plan, room / "new.db", IN_USE)


def test_copy_of_what_is_left(one_plan: str, room: pathlib.Path) -> None:
    """What stands there is what is to be copied."""
    part = room / "new.db.part"
    shutil.copyfile(one_plan, part)
    assert_not_copied(str(part), room / "new.db", TAKEN)
    assert bytes_of(str(part)) == bytes_of(one_plan)


def test_copy_beside_a_folder(one_plan: str, room: pathlib.Path) -> None:
    """A folder stands there."""
    (room / "new.db.part").mkdir()
    assert_not_copied(one_plan, room / "new.db", TAKEN)
