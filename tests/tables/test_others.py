"""Files that have other tables, indexes and views beside a desk's: those that stand apart are left as they are."""

from __future__ import annotations

import contextlib
import pathlib
import sqlite3
from typing import Any

import pytest
from harness.rows import named
from tables.causes import DAMAGED, OTHER
from tables.files import bytes_of, made_file, rows_of
from tables.judging import assert_in_schema_2, assert_opened, assert_refused, copied, looked
from tables.statements import DROPPED, ENROLLED, NO_INDEX, OLD, PLAN

TABLE = ["CREATE TABLE other (a INTEGER PRIMARY KEY, b TEXT)", "INSERT INTO other VALUES (7, 'seven')"]
VIEW = "CREATE VIEW seen AS SELECT operator, id FROM plan"
# name, and the statements that follow those of a desk
APART = [
    ("table", TABLE),
    ("tables", [*TABLE, "CREATE TABLE more (c REFERENCES other, d UNIQUE)", "INSERT INTO more VALUES (7, 1)"]),
    ("index", [*TABLE, "CREATE INDEX other_b ON other (b)"]),
    ("view", [VIEW]),
    ("view_before_a_table", [VIEW, *TABLE]),
    ("sequence", ["CREATE TABLE other (a INTEGER PRIMARY KEY AUTOINCREMENT)", "INSERT INTO other VALUES (7)"]),
    ("statistics", ["ANALYZE"]),
    ("trigger_on_another", [*TABLE, "CREATE TRIGGER noted AFTER INSERT ON other BEGIN SELECT 1; END"]),
]
KEY = "CREATE TABLE other (operator TEXT, id TEXT, FOREIGN KEY (operator, id) REFERENCES"
TRIGGER = "CREATE TRIGGER noted AFTER INSERT ON operator BEGIN SELECT 1; END"
# name, and the statements of a file with others that don't stand apart behind all of a desk's
ENTANGLED = [
    ("refers_to_plan", [*PLAN, f"{KEY} plan)"]),
    ("refers_in_capitals", [*PLAN, f"{KEY} PLAN (operator, id))"]),
    ("refers_from_the_second", [*PLAN, *TABLE, f"{KEY} plan)".replace("other", "more")]),
    ("index_on_a_desks", [*PLAN, *TABLE, "CREATE INDEX plan_priority ON plan (priority)"]),
    ("trigger_on_a_desks", [TRIGGER]),
    ("before_the_last_index", [*PLAN, *NO_INDEX, *TABLE]),
    ("beside_operators_alone", [*ENROLLED, *DROPPED[:7], *TABLE]),
    ("beside_schema_1_alone", [*OLD, *DROPPED[:3], *TABLE]),
]


def others_in(path: str) -> dict[str, tuple[str, Any]]:
    """What is listed in a file after a desk's tables and indexes: the text of each, and its rows."""
    with contextlib.closing(sqlite3.connect(path)) as file:
        listed = file.execute("SELECT name, sql, type FROM sqlite_schema ORDER BY rowid").fetchall()[14:]
        return {
            name: (text, file.execute(f"SELECT * FROM {name}").fetchall() if kind in ("table", "view") else None)
            for name, text, kind in listed
        }


@pytest.mark.quick_each(3)
@pytest.mark.parametrize("statements", named(APART))
def test_others_apart(statements: list[str], room: pathlib.Path) -> None:
    """The file is opened and changed; what stands apart in it keeps its texts and rows."""
    path = made_file(str(room / "desk.db"), [*PLAN, *statements])
    before = others_in(path)
    assert before
    assert_opened(path)
    assert others_in(path) == before


@pytest.mark.quick_each(4)
@pytest.mark.parametrize("statements", named(ENTANGLED))
def test_others_entangled(statements: list[str], room: pathlib.Path) -> None:
    """The file is refused, and left byte for byte."""
    assert_refused(made_file(str(room / "desk.db"), statements), "not_a_desk", OTHER)


def test_trigger_beside_rows(room: pathlib.Path) -> None:
    """SQLite as the program has it refuses rows whose foreign key leads to a table with a trigger."""
    assert_refused(made_file(str(room / "desk.db"), [*PLAN, TRIGGER]), "store", DAMAGED)


@pytest.mark.quick
def test_copy_leaves_others_out(room: pathlib.Path) -> None:
    """The copy has the desk's tables alone, and the line before its own says so; `check` says nothing of others."""
    path, new = made_file(str(room / "desk.db"), [*PLAN, *TABLE, VIEW]), str(room / "new.db")
    before = bytes_of(path)
    assert looked(path).errors == ""
    line = f"uss_desk: {path}: other tables, indexes or views are not copied\n"
    assert copied(path, new) == (0, b"copied 1 operators, 1 plans\n", line)
    assert bytes_of(path) == before
    assert others_in(new) == {}
    assert_in_schema_2(rows_of(path), new)
