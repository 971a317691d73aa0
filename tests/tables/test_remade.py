"""Files that sqlite3 made of a desk's, packed files, and files that look like them."""

from __future__ import annotations

import os
import pathlib
import subprocess

import pytest
from harness.rows import named
from tables.causes import DAMAGED, OTHER, SPAN
from tables.files import bytes_of, made_file, rows_of, stated_file
from tables.judging import assert_in_schema_2, assert_opened, assert_refused, assert_refused_unmoved, copied, moved
from tables.statements import CLOSED, OLD, PACKED, PLAN, many, packed_but

# what sqlite3 makes of a desk's file, and the word of the refusal: VACUUM, and what is restored from a dump, have all
# tables before the indexes, and ANALYZE adds a table, which may not stand beside a packed file's
REMADE: list[tuple[str, str, str | None]] = [
    ("reindexed", "REINDEX", None),
    ("backed_up", ".backup {}", None),
    ("vacuumed", "VACUUM", None),
    ("vacuumed_into", "VACUUM INTO '{}'", None),
    ("cloned", ".clone {}", None),
    ("dumped", ".dump", None),
    ("analysed", "ANALYZE", None),
    ("analysed_and_vacuumed", "ANALYZE; VACUUM", "not_a_desk"),
    ("analysed_no_more", "ANALYZE; DROP TABLE sqlite_stat1", None),
]

# name, the statements of a file that looks like a packed one, and the word of the refusal
NEARLY = [
    ("table", PACKED + ["CREATE TABLE other (a)"], "not_a_desk"),
    ("view", PACKED + ["CREATE VIEW other AS SELECT * FROM plan"], "not_a_desk"),
    ("trigger", PACKED + ["CREATE TRIGGER other AFTER INSERT ON operator BEGIN SELECT 1; END"], "not_a_desk"),
    ("column", packed_but(5, " PRIMARY", " more INTEGER NOT NULL, PRIMARY"), "not_a_desk"),
    ("key", packed_but(5, "place, first)", "place, last)"), "not_a_desk"),
    ("index_column", packed_but(7, "first, last", "last, first"), "not_a_desk"),
    # the kit reads no such table, and refuses the file, since its foreign keys would not be kept
    ("without_rowid", packed_but(5, "STRICT", "STRICT, WITHOUT ROWID"), "store"),
    ("collation", packed_but(4, "operator TEXT NOT NULL", "operator TEXT NOT NULL COLLATE NOCASE"), "not_a_desk"),
    ("not_strict", packed_but(4, " STRICT", ""), "not_a_desk"),
    ("name", packed_but(4, "volume2", "volume3"), "not_a_desk"),
    ("unique", packed_but(7, "INDEX", "UNIQUE INDEX"), "not_a_desk"),
]
# name, the statements after those of a packed file
CONTENTS: list[tuple[str, list[str]]] = [("plan", PLAN), ("closed", CLOSED), ("many", many(200)), ("no_rows", [])]


@pytest.mark.quick_each(5)
@pytest.mark.parametrize("words, word", named(REMADE))
def test_remade(words: str, word: str | None, room: pathlib.Path) -> None:
    """What sqlite3 makes is opened, or refused and left."""
    path, new = made_file(str(room / "desk.db"), PLAN), str(room / "new.db")
    made = subprocess.run(["sqlite3", path, words.format(new)], capture_output=True, text=True, check=True)
    if words == ".dump":
        subprocess.run(["sqlite3", new], input=made.stdout, text=True, check=True)
    result = new if os.path.exists(new) else path
    if word is None:
        assert_opened(result)
    else:
        assert_refused(result, word, OTHER)


@pytest.mark.parametrize("statements", named(CONTENTS))
def test_packed(statements: list[str], room: pathlib.Path) -> None:
    """A packed file is opened."""
    assert_opened(stated_file(str(room / "packed.db"), [*PACKED, *statements]))


@pytest.mark.parametrize("statements", named(CONTENTS))
def test_packed_copied(statements: list[str], room: pathlib.Path) -> None:
    """A packed file is copied, and stays the same."""
    path = stated_file(str(room / "packed.db"), [*PACKED, *statements])
    before, rows = bytes_of(path), rows_of(path)
    assert copied(path, path + ".copy").status == 0
    assert_in_schema_2(rows, path + ".copy")
    assert bytes_of(path) == before


def test_packed_moved(room: pathlib.Path) -> None:
    """There is nothing to move in a packed file, and it is opened afterwards."""
    path = stated_file(str(room / "packed.db"), [*PACKED, *PLAN])
    assert moved(path) == (0, b"migrated 0 plans\n", "")
    assert_opened(path)


def test_packed_of_no_content(room: pathlib.Path) -> None:
    """A packed file with a span that is one short."""
    rows = [*PACKED, *PLAN, "UPDATE span2 SET last = last - 1"]
    assert_refused(stated_file(str(room / "packed.db"), rows), "not_a_desk", SPAN)


def test_packed_of_schema_1(room: pathlib.Path) -> None:
    """A packed file with a plan in schema 1."""
    assert_refused_unmoved(stated_file(str(room / "packed.db"), [*PACKED, *OLD]))


@pytest.mark.quick_each(6)
@pytest.mark.parametrize("statements, word", named(NEARLY))
def test_nearly_packed(statements: list[str], word: str, room: pathlib.Path) -> None:
    """A file that looks like a packed one is refused."""
    path = stated_file(str(room / "nearly.db"), statements)
    assert_refused(path, word, OTHER if word == "not_a_desk" else DAMAGED)
