"""Files that list a desk's tables and indexes in another order than a desk's own and a packed file's: `check` tells
what they hold and `copy` makes a desk of them, and both leave them alone; the lines that open a file put them in order,
or refuse them with the cause and leave them as they are."""

from __future__ import annotations

import contextlib
import os
import pathlib
import random
import shutil
import sqlite3
import stat
from collections.abc import Callable

import pytest
from harness.program import Ran, run
from harness.requests import request
from harness.rows import named
from harness.serving import Served
from harness.sums import count_bad_pages, sum_anew
from harness.tracing import killed_at, was_killed
from tables.causes import IN_USE, JOURNAL, MIGRATE, ORDER, ORDERED, OTHER, SPAN, TAKEN
from tables.files import bytes_of, made_file, names_beside, old_file, rows_of, stated_file
from tables.judging import REFUSED, assert_in_schema_2, copied, enrolled, looked, told
from tables.statements import CLOSED, ID, PACKED, PLAN, SCHEMA, many

SPAN_TABLES = {SCHEMA[4]: SCHEMA[3], SCHEMA[7]: SCHEMA[6]}
"""The table of each index."""
INDEX_AGAIN = ["DROP INDEX span_first", SCHEMA[4]]
"""Statements that leave a desk's file with its first index behind the last."""


def by_name() -> list[str]:
    """The tables by their names, and then the indexes."""
    return [*(SCHEMA[at] for at in (0, 1, 3, 6, 2, 5)), SCHEMA[4], SCHEMA[7]]


def shuffled(seed: int) -> list[str]:
    """The tables and indexes in any order in which each index comes after its table."""
    order = list(SCHEMA)
    random.Random(seed).shuffle(order)
    for index, table in SPAN_TABLES.items():
        order.remove(index)
        order.insert(random.Random(seed).randint(order.index(table) + 1, len(order)), index)
    return order


ORDERS = [
    ("by_name", by_name()),
    ("reversed", [*reversed(PACKED[:6]), *PACKED[6:]]),
    ("indexes_turned", PACKED[:6] + [PACKED[7], PACKED[6]]),
    ("an_index_early", SCHEMA[:3] + SCHEMA[5:7] + [SCHEMA[7], SCHEMA[3], SCHEMA[4]]),
    *((f"shuffled_{seed}", shuffled(seed)) for seed in range(8)),
]
# name, the first few tables and indexes of a desk, in another order
PARTS = [
    ("two_tables", [SCHEMA[1], SCHEMA[0]]),
    ("four_tables", [SCHEMA[at] for at in (0, 3, 1, 2)]),
    ("five_tables", [SCHEMA[at] for at in (0, 1, 2, 3, 5, 4)]),
    ("no_last_index", [SCHEMA[at] for at in (0, 1, 3, 6, 2, 5, 4)]),
    ("packed_but_an_index", PACKED[:7]),
]
# name, and the statements of rows
CONTENTS = [("plan", PLAN), ("closed", CLOSED), ("many", many(200)), ("no_rows", [])]
# name, and the statements of a file that has something else than a desk's tables in another order
NEARLY = [
    ("table", [*by_name(), "CREATE TABLE other (a)"]),
    ("view", [*by_name(), "CREATE VIEW other AS SELECT * FROM plan"]),
    ("trigger", [*by_name(), "CREATE TRIGGER other AFTER INSERT ON operator BEGIN SELECT 1; END"]),
    ("no_first_table", [SCHEMA[2], *SCHEMA[3:5], SCHEMA[1]]),
    ("name", [text.replace("volume2", "volume3") for text in by_name()]),
]
# name, and the statements of a file of a desk's names in another order, one of whose texts is another
CHANGED = [
    ("column", [text.replace("aircraft INTEGER NOT NULL", "aircraft INTEGER") for text in by_name()]),
    ("collation", [text.replace("name TEXT NOT NULL", "name TEXT NOT NULL COLLATE NOCASE") for text in by_name()]),
    ("index_column", [text.replace("span2 (first, last", "span2 (last, first") for text in by_name()]),
    ("unique", [text.replace("CREATE INDEX span_", "CREATE UNIQUE INDEX span_") for text in by_name()]),
]


def dumped(path: str, new: str) -> str:
    """The new file that Python makes of what it dumps of a file, which lists the tables by their names; its path."""
    with contextlib.closing(sqlite3.connect(path)) as source, contextlib.closing(sqlite3.connect(new)) as made:
        made.executescript("\n".join(source.iterdump()))
        made.commit()
    return new


LINES = ["enrol", "play", "serve", "migrate"]
"""The lines that open a file."""


def ran_at(path: str, line: str) -> Ran:
    """The end of a line that opens a file; `serve` doesn't come to listen, or ends at once as its port is taken."""
    words = {"enrol": ["bravo", "100"], "play": ["--at", "0"], "serve": ["--port", "1", "--requests", "1"]}
    return run(line, "--db", path, *words.get(line, []))


def copy_of(path: str, name: str) -> str:
    """A copy of a file, byte for byte, which anybody may read, in a folder of its own; its path."""
    folder = pathlib.Path(path).parent / name
    folder.mkdir()
    shutil.copyfile(path, folder / "own.db")
    os.chmod(folder / "own.db", 0o644)
    return str(folder / "own.db")


def assert_put_in_order(path: str, schema: int) -> None:
    """Each line that opens a file puts a copy of it in order, tells that, and then does what it does at the original:
    all but `migrate` refuse one of schema 1, and leave it as it is."""
    rows = rows_of(path)
    for line in LINES[:2] + LINES[3:]:
        own = copy_of(path, line)
        before, ran = bytes_of(own), ran_at(own, line)
        if schema == 1 and line != "migrate":
            assert ran == (REFUSED, b"", told(own, MIGRATE, "old_schema"))
            assert bytes_of(own) == before
        else:
            assert (ran.status, ran.errors.split("\n")[0]) == (0, f"uss_desk: {own}: {ORDERED}")
            assert stat.S_IMODE(os.stat(own).st_mode) == 0o644
            again = ran_at(own, line)
            assert (again.status, ORDERED in again.errors, looked(own).errors) == (0, False, "")
            enrolled_now = [("bravo", 100)] if line == "enrol" else []
            assert_in_schema_2([sorted([*rows[0], *enrolled_now]), *rows[1:]], own)
        assert names_beside(own) <= {"own.db", "own.db-wal"}


def assert_taken(path: str, counts: str, copy: str, sums: str = "no", schema: int = 2) -> None:
    """`check` tells a file's order and what it holds, and `copy` makes a desk of it; both leave it as it is, and
    nothing beside it. The others put it in order."""
    before, beside, rows, new = bytes_of(path), names_beside(path), rows_of(path), path + ".new"
    look = looked(path)
    assert (look.status, look.errors) == (0, f"uss_desk: {path}: {ORDER}\n")
    assert look.output.decode().startswith(f"schema {schema}, sums {sums}, {counts},")
    assert copied(path, new) == (0, f"copied {copy}\n".encode(), "")
    assert names_beside(path) - names_beside(new) == beside
    assert bytes_of(path) == before
    assert_in_schema_2(rows, new)
    ran = enrolled(new)
    assert (ran.status, ran.errors) == (0, "")
    assert_put_in_order(path, schema)


def assert_not_taken(path: str, cause: str) -> None:
    """A file is refused by all lines, and is left as it is, with nothing of a twin beside it."""
    before, new = bytes_of(path), path + ".new"
    refused = (REFUSED, b"", told(path, cause, "not_a_desk"))
    assert [looked(path), copied(path, new)] == [refused] * 2
    for line in LINES:
        assert ran_at(path, line) == refused
        assert bytes_of(path) == before
    assert names_beside(new) == set()
    assert not names_beside(path + ".twin")


@pytest.mark.quick_each(6)
@pytest.mark.parametrize("statements", named(ORDERS))
def test_orders(statements: list[str], room: pathlib.Path) -> None:
    """All tables and indexes in another order."""
    path = stated_file(str(room / "other.db"), [*statements, *PLAN])
    assert_taken(path, "1 operators, 1 plans, 1 live", "1 operators, 1 plans")


@pytest.mark.parametrize("statements", named(PARTS))
def test_parts(statements: list[str], room: pathlib.Path) -> None:
    """The first few of them in another order, which have no row of schema 1."""
    path = stated_file(str(room / "part.db"), [*statements, PLAN[0]])
    assert_taken(path, "1 operators, 0 plans", "1 operators, 0 plans")


@pytest.mark.quick_each(4)
@pytest.mark.parametrize("statements", named(CONTENTS))
def test_dumped(statements: list[str], room: pathlib.Path) -> None:
    """What Python dumps of a desk's file and makes anew."""
    path = dumped(made_file(str(room / "desk.db"), statements), str(room / "dumped.db"))
    operators, plans = (len(rows) for rows in rows_of(path)[:2])
    assert_taken(path, f"{operators} operators, {plans} plans", f"{operators} operators, {plans} plans")


def test_dumped_of_schema_1(room: pathlib.Path) -> None:
    """What Python dumps of a file of schema 1: the copy is of schema 2."""
    path = dumped(old_file(str(room / "old.db"), []), str(room / "dumped.db"))
    assert_taken(path, "2 operators, 3 plans, 2 live", "2 operators, 3 plans", schema=1)


def test_served(room: pathlib.Path) -> None:
    """A desk over what Python made of a dump answers as one over the original."""
    path = made_file(str(room / "desk.db"), PLAN)
    other = dumped(path, str(room / "dumped.db"))
    with Served("--db", path) as desk, Served("--db", other) as its:
        for target in ("/flight_plans", f"/flight_plans/{ID}"):
            asked = request("GET", target, "alfa")
            assert its.ask(asked) == desk.ask(asked)
    assert looked(other).errors == ""


def test_replayed(room: pathlib.Path) -> None:
    """No record is played at a file in another order; it is left as it is, with nothing of a twin beside it."""
    path = stated_file(str(room / "other.db"), [*by_name(), *PLAN])
    before = bytes_of(path)
    assert run("replay", "--db", path) == (REFUSED, b"", told(path, ORDER, "not_a_desk"))
    assert bytes_of(path) == before
    assert not names_beside(path + ".twin")
    assert copied(path, path + ".new").status == 0
    assert run("replay", "--db", path + ".new").status == 0


def test_with_sums(room: pathlib.Path) -> None:
    """A file whose pages have their sums, in another order; and so the twin has."""
    path = room / "summed.db"
    assert copied(made_file(str(room / "desk.db"), PLAN), str(path)).status == 0
    stated_file(str(path), INDEX_AGAIN)
    sum_anew(path)
    assert_taken(str(path), "1 operators, 1 plans, 1 live", "1 operators, 1 plans", sums="yes")
    assert count_bad_pages(room / "summed.db.new") == 0


def test_without_its_sums(room: pathlib.Path) -> None:
    """A file with sums into which sqlite3 wrote, and whose order it changed: what is told is the want of sums."""
    path = room / "summed.db"
    assert copied(made_file(str(room / "desk.db"), PLAN), str(path)).status == 0
    stated_file(str(path), INDEX_AGAIN)
    rows = "pages without their sums, as sqlite3 leaves them; the rows"
    look = looked(str(path))
    assert (look.status, look.errors) == (0, f"uss_desk: {path}: {count_bad_pages(path)} {rows} are a desk's\n")
    line = f"uss_desk: {path}: {count_bad_pages(path)} {rows} alone were tested\n"
    assert copied(str(path), f"{path}.new") == (0, b"copied 1 operators, 1 plans\n", line)
    assert_in_schema_2(rows_of(str(path)), f"{path}.new")


def test_small_pages(room: pathlib.Path) -> None:
    """A list of tables that takes more than the first page is not put in order."""
    path = stated_file(str(room / "small.db"), ["PRAGMA page_size = 1024", *by_name(), *PLAN])
    assert_not_taken(path, OTHER)


def test_large_pages(room: pathlib.Path) -> None:
    """Pages of the greatest size."""
    path = stated_file(str(room / "large.db"), ["PRAGMA page_size = 65536", *by_name(), *PLAN])
    assert_taken(path, "1 operators, 1 plans, 1 live", "1 operators, 1 plans")


@pytest.mark.quick_each(5)
@pytest.mark.parametrize("statements", named(NEARLY))
def test_nearly(statements: list[str], room: pathlib.Path) -> None:
    """A file with another object, or without one that comes before others."""
    assert_not_taken(stated_file(str(room / "nearly.db"), statements), OTHER)


@pytest.mark.quick_each(4)
@pytest.mark.parametrize("statements", named(CHANGED))
def test_changed(statements: list[str], room: pathlib.Path) -> None:
    """A file of a desk's names, one of whose texts is another."""
    assert_not_taken(stated_file(str(room / "changed.db"), statements), OTHER)


def test_no_content(room: pathlib.Path) -> None:
    """Rows that are no desk's."""
    rows = [*by_name(), *PLAN, "UPDATE span2 SET last = last - 1"]
    assert_not_taken(stated_file(str(room / "rows.db"), rows), SPAN)


def test_with_a_log(room: pathlib.Path) -> None:
    """A file whose changes are in its log is read as it stands, and one with an empty log by a twin."""
    path = stated_file(str(room / "logged.db"), [*by_name(), PLAN[0]])
    with contextlib.closing(sqlite3.connect(path, isolation_level=None)) as connection:
        connection.execute("PRAGMA journal_mode = WAL")
        connection.execute("UPDATE operator SET ceiling = 99")
        for end in ("", "-wal"):
            (room / f"left.db{end}").write_bytes(pathlib.Path(path + end).read_bytes())
    left = str(room / "left.db")
    assert [looked(left), enrolled(left)] == [(REFUSED, b"", told(left, OTHER, "not_a_desk"))] * 2
    log = room / "logged.db-wal"
    log.write_bytes(b"")
    look = looked(path)
    assert (look.status, look.errors) == (0, f"uss_desk: {path}: {ORDER}\n")
    assert copied(path, f"{path}.new") == (0, b"copied 1 operators, 0 plans\n", "")
    assert log.read_bytes() == b""
    assert rows_of(f"{path}.new")[0] == [("alfa", 99)]


TORN: list[tuple[str, Callable[[bytes], bytes]]] = [
    ("cut in its last frame", lambda log: log[:-1]),
    ("cut behind the head of its first frame", lambda log: log[:56]),
    ("with another byte in its page", lambda log: log[:600] + bytes([log[600] ^ 1]) + log[601:]),
    ("with another mark of its commit", lambda log: log[:39] + bytes([log[39] ^ 1]) + log[40:]),
]
"""What is left of a log with one commit, of which recovery takes none then."""


@pytest.mark.parametrize("tear", named(TORN))
def test_with_a_torn_log(tear: Callable[[bytes], bytes], room: pathlib.Path) -> None:
    """A file of whose log recovery takes no commit is read by a twin, however long the log is."""
    path = stated_file(str(room / "logged.db"), [*by_name(), PLAN[0]])
    left = room / "left.db"
    with contextlib.closing(sqlite3.connect(path, isolation_level=None)) as connection:
        connection.execute("PRAGMA journal_mode = WAL")
        connection.execute("UPDATE operator SET ceiling = 99")
        left.write_bytes(pathlib.Path(path).read_bytes())
        log = pathlib.Path(path + "-wal").read_bytes()
    (room / "left.db-wal").write_bytes(tear(log))
    look = looked(str(left))
    assert (look.status, look.errors) == (0, f"uss_desk: {left}: {ORDER}\n")
    assert copied(str(left), f"{left}.new") == (0, b"copied 1 operators, 0 plans\n", "")
    assert rows_of(f"{left}.new")[0] == [("alfa", 100)]


def test_in_the_way(room: pathlib.Path) -> None:
    """What isn't a twin's is not taken for one."""
    path = stated_file(str(room / "other.db"), [*by_name(), *PLAN])
    before = bytes_of(path)
    os.mkdir(path + ".twin")
    assert [looked(path), enrolled(path)] == [(REFUSED, b"", told(path + ".twin", TAKEN, "store"))] * 2
    assert bytes_of(path) == before


def assert_left(path: str, ran: Ran, cause: str, before: bytes) -> None:
    """A line at a file in another order was refused with the cause, and the file stands as it was."""
    assert ran == (REFUSED, b"", told(path, cause, "store"))
    assert bytes_of(path) == before
    assert not names_beside(path + ".twin")


def test_in_use(room: pathlib.Path) -> None:
    """A file that sqlite3 has in a transaction isn't changed."""
    path = stated_file(str(room / "other.db"), [*by_name(), PLAN[0]])
    before = bytes_of(path)
    with contextlib.closing(sqlite3.connect(path, isolation_level=None)) as connection:
        connection.execute("BEGIN IMMEDIATE")
        connection.execute("UPDATE operator SET ceiling = 99")
        assert_left(path, enrolled(path), IN_USE, before)
        connection.execute("COMMIT")
    assert enrolled(path).status == 0
    assert rows_of(path)[0] == [("alfa", 99), ("bravo", 100)]


def test_open_without_a_transaction(room: pathlib.Path) -> None:
    """A sqlite3 that has a file open, and is in no transaction, goes on with the file that was put in order."""
    path = stated_file(str(room / "other.db"), [*by_name(), PLAN[0]])
    with contextlib.closing(sqlite3.connect(path, isolation_level=None)) as connection:
        assert connection.execute("SELECT name FROM operator").fetchall() == [("alfa",)]
        ran = enrolled(path)
        assert (ran.status, ran.errors) == (0, f"uss_desk: {path}: {ORDERED}\n")
        connection.execute("UPDATE operator SET ceiling = 99 WHERE name = 'alfa'")
    assert rows_of(path)[0] == [("alfa", 99), ("bravo", 100)]
    look = looked(path)
    assert (look.status, look.errors) == (0, "")


def test_journal(room: pathlib.Path) -> None:
    """A file beside which SQLite left a journal is refused."""
    path = stated_file(str(room / "other.db"), [*by_name(), PLAN[0]])
    pathlib.Path(path + "-journal").write_bytes(b"\xd9\xd5\x05\xf9\x20\xa1\x63\xd7")
    assert_left(path, enrolled(path), JOURNAL, bytes_of(path))


def test_by_a_link(room: pathlib.Path) -> None:
    """A link stays one: the file to which it leads is put in order."""
    (room / "away").mkdir()
    path = stated_file(str(room / "away" / "other.db"), [*by_name(), PLAN[0]])
    link = room / "link.db"
    link.symlink_to(path)
    ran = enrolled(str(link))
    assert (ran.status, ran.errors) == (0, f"uss_desk: {link}: {ORDERED}\n")
    assert link.is_symlink()
    assert rows_of(path)[0] == [("alfa", 100), ("bravo", 100)]
    assert names_beside(path) <= {"other.db", "other.db-wal"}
    assert names_beside(str(link)) == {"link.db"}


def test_left_over(room: pathlib.Path) -> None:
    """What a line that was cut off left of a twin and of its log doesn't come into the file, and is removed."""
    path = stated_file(str(room / "other.db"), [*by_name(), PLAN[0]])
    for end in ("", "-wal"):
        pathlib.Path(f"{path}.twin{end}").write_bytes(bytes_of(path)[:5000])
    ran = enrolled(path)
    assert (ran.status, ran.errors) == (0, f"uss_desk: {path}: {ORDERED}\n")
    assert rows_of(path)[0] == [("alfa", 100), ("bravo", 100)]
    assert not names_beside(path + ".twin")


# calls that write, sync and remove, and how often at least a line makes each that puts a file in order
CALLS = [("pwrite64", 5), ("ftruncate", 1), ("fdatasync", 3), ("fsync", 5), ("unlink", 2)]


@pytest.mark.parametrize("call, least", [pytest.param(call, least, id=call) for call, least in CALLS])
def test_killed(call: str, least: int, room: pathlib.Path) -> None:
    """A line that is killed at each of these calls leaves the file with its rows, as it was or in order, and the next
    one opens it, whatever is left beside it."""
    path = dumped(made_file(str(room / "desk.db"), PLAN), str(room / "dumped.db"))
    rows = rows_of(path)
    for number in range(1, 1_000):
        new = f"{path}.{number}"
        shutil.copyfile(path, new)
        ran = run("play", "--db", new, "--at", "0", under=killed_at(call, number))
        look = looked(new)
        assert (look.status, look.errors in ("", f"uss_desk: {new}: {ORDER}\n")) == (0, True)
        assert rows_of(new) == rows
        assert run("play", "--db", new, "--at", "0").status == 0
        assert_in_schema_2(rows, new)
        assert names_beside(new) <= {os.path.basename(new), os.path.basename(new) + "-wal"}
        if not was_killed(ran.status):
            break
    assert ran.status == 0
    assert number - 1 >= least
