"""Files of SQLite: made by statements, and what is in them."""

from __future__ import annotations

import os
import pathlib
import shutil
import sqlite3
import subprocess
from collections.abc import Sequence
from typing import Any, NamedTuple

from harness.places import TESTS
from tables.statements import PLAN, SCHEMA, TABLES


class Content(NamedTuple):
    """What is in a file: the rows of each table, none of one that isn't there; the texts of the indexes on spans, in
    their order; and what SQLite finds wrong with it."""

    rows: list[list[Any]]
    indexes: list[str]
    check: list[str]


INDEXES = [SCHEMA[4], SCHEMA[7]]
SOUND = ["ok"]


def stated_file(path: str, statements: Sequence[str]) -> str:
    """A file that is made by these statements alone; its path."""
    connection = sqlite3.connect(path)
    for text in statements:
        connection.execute(text)
    connection.commit()
    connection.close()
    return path


def made_file(path: str, statements: Sequence[str]) -> str:
    """A file of a desk's tables, and of these statements; its path."""
    return stated_file(path, [*SCHEMA, *statements])


def old_file(path: str, statements: Sequence[str]) -> str:
    """A file of schema 1, made by the tool sqlite3 of schema1.sql and these statements; its path."""
    text = (TESTS / "schema1.sql").read_text(encoding="utf-8") + "".join(f"{more};\n" for more in statements)
    subprocess.run(["sqlite3", path], input=text, text=True, check=True)
    return path


def logged_file(path: str) -> str:
    """A file whose rows are in its log alone, as after a kill; its path."""
    before = made_file(path + ".before", PLAN[:1])
    connection = sqlite3.connect(before, isolation_level=None)
    connection.execute("PRAGMA journal_mode = WAL")
    for text in PLAN[1:]:
        connection.execute(text)
    for end in ("", "-wal"):
        shutil.copyfile(before + end, path + end)
    connection.close()
    return path


def bytes_of(path: str) -> bytes:
    """The bytes of a file."""
    return pathlib.Path(path).read_bytes()


def content_of(path: str) -> Content:
    """What is in a file."""
    connection = sqlite3.connect(path)
    there = {name for (name,) in connection.execute("SELECT name FROM sqlite_schema")}
    rows = [sorted(connection.execute(f"SELECT * FROM {table}")) if table in there else [] for table in TABLES]
    indexes = connection.execute("SELECT sql FROM sqlite_schema WHERE name LIKE 'span%first' ORDER BY rowid")
    check = connection.execute("PRAGMA integrity_check")
    content = Content(rows, [text for (text,) in indexes], [text for (text,) in check])
    connection.close()
    return content


def rows_of(path: str) -> list[list[Any]]:
    """The rows of each table of a file."""
    return content_of(path).rows


def names_beside(path: str) -> set[str]:
    """The names in the folder of a file that begin with its own."""
    folder, name = os.path.split(path)
    return {other for other in os.listdir(folder) if other.startswith(name)}
