"""What the program does with a file: it opens it, moves it, copies it, or refuses it and leaves it as it is."""

from __future__ import annotations

import os
from typing import Any

from harness.program import Ran, run
from tables.causes import MIGRATE, TAKEN
from tables.files import INDEXES, SOUND, Content, bytes_of, content_of, names_beside, rows_of

REFUSED = 4
"""The exit status of a line that a file or a disk ends."""


def told(path: str, cause: str, word: str) -> str:
    """What is told on standard error of a file that a line refuses."""
    return f"uss_desk: {path}: {cause}\nuss_desk: {word}\n"


def enrolled(path: str) -> Ran:
    """The end of a line that opens a file, and enrols bravo."""
    return run("enrol", "--db", path, "bravo", "100")


def looked(path: str) -> Ran:
    """The end of a look into a file."""
    return run("check", "--db", path)


def copied(path: str, new: str) -> Ran:
    """The end of a copy."""
    return run("copy", "--db", path, "--to", new)


def moved(path: str) -> Ran:
    """The end of a move from schema 1."""
    return run("migrate", "--db", path)


def assert_opened(path: str) -> None:
    """A file is opened: it keeps its rows, but for the operator enrolled, with the indexes, and is sound."""
    before = rows_of(path)
    assert enrolled(path).status == 0
    assert content_of(path) == Content([sorted([*before[0], ("bravo", 100)]), *before[1:]], INDEXES, SOUND)


def assert_refused(path: str, word: str, cause: str) -> None:
    """A file isn't opened, with the cause, and stays the same, byte for byte."""
    before = bytes_of(path)
    assert enrolled(path) == (REFUSED, b"", told(path, cause, word))
    assert bytes_of(path) == before
    assert_passed(path, cause, word)


def assert_refused_unmoved(path: str, cause: str = "") -> None:
    """A file with rows of schema 1 isn't opened, and stays the same, byte for byte. `check` and `copy` take it, or tell
    the cause that is given."""
    before = bytes_of(path)
    assert enrolled(path) == (REFUSED, b"", told(path, MIGRATE, "old_schema"))
    assert bytes_of(path) == before
    assert_passed(path, cause)


def assert_passed(path: str, cause: str, word: str = "not_a_desk") -> None:
    """A file that isn't opened is refused by `copy` too, which makes nothing, and by `check`, unless it is of schema 1.
    Both tell the cause; the file stays the same."""
    before, new = bytes_of(path), path + ".new"
    look, copy = looked(path), copied(path, new)
    if look.status == 0:
        assert copy.status == 0
    else:
        assert (look.status, copy.status, copy.output) == (REFUSED, REFUSED, b"")
        assert names_beside(new) == set()
        assert [look.errors, copy.errors] == [told(path, cause, word)] * 2
    assert bytes_of(path) == before


def assert_moved(path: str, count: int) -> None:
    """A file of schema 1 is refused before it is moved, and is a desk's afterwards; moved again, none is moved."""
    before = rows_of(path)
    assert enrolled(path) == (REFUSED, b"", told(path, MIGRATE, "old_schema"))
    assert rows_of(path) == before
    for moved_now in (count, 0):
        assert moved(path) == (0, f"migrated {moved_now} plans\n".encode(), "")
    assert_in_schema_2(before, path)
    ran = enrolled(path)
    assert (ran.status, ran.errors) == (0, "")


def assert_in_schema_2(before: list[list[Any]], path: str) -> None:
    """The rows as before, those of schema 1 in schema 2 with their covers, and nothing in schema 1; a sound file."""
    after = content_of(path)
    if before[2]:
        rows = [*after.rows[:4], [row[:8] for row in after.rows[4]], after.rows[5]]
        assert rows == [*before[:2], [], [], *before[2:4]]
    else:
        assert after.rows == before
        assert after.rows[2:4] == [[], []]
    assert (after.indexes, after.check) == (INDEXES, SOUND)


def assert_not_moved(path: str, cause: str) -> None:
    """A file isn't moved, with the cause, and stays the same."""
    before = bytes_of(path)
    assert moved(path) == (REFUSED, b"", told(path, cause, "not_a_desk"))
    assert bytes_of(path) == before
    assert_passed(path, cause)


def assert_copied(path: str, line: str) -> None:
    """A copy has the rows of a file, in schema 2 and in one file, is made once, and opens; the file keeps its rows."""
    before, new = rows_of(path), path + ".copy"
    assert copied(path, new) == (0, f"{line}\n".encode(), "")
    assert rows_of(path) == before
    assert names_beside(new) == {os.path.basename(new)}
    assert copied(path, new) == (REFUSED, b"", told(new, TAKEN, "store"))
    assert_in_schema_2(before, new)
    ran = enrolled(new)
    assert (ran.status, ran.errors) == (0, "")


def assert_looked(path: str, line: str) -> None:
    """A file is looked into, and its rows stay."""
    before = content_of(path)
    assert looked(path) == (0, f"{line}\n".encode(), "")
    assert content_of(path) == before


def assert_refused_by_all(path: str, cause: str, word: str) -> None:
    """A file is refused by `check`, `copy` and `migrate`, each with the cause, and nothing is made but an empty log."""
    folder = os.path.dirname(path)
    before = {*os.listdir(folder)}
    wanted = (REFUSED, b"", told(path, cause, word))
    assert [looked(path), copied(path, path + ".new"), moved(path)] == [wanted] * 3
    assert {*os.listdir(folder)} - before <= {os.path.basename(path) + "-wal"}
