"""Other programs at a desk's file: while it runs they are told that it is locked; between two lines they may read, and
a file that one has written to is refused."""

import pathlib
import random
import sqlite3

import pytest
from faults.program import PROGRAM, finish
from harness.rows import Rows
from lies.changes import Made, change_by_chance, make_file, make_without_sums
from lies.desk import Desk, copy_pair, opened
from lies.flights import World, read_all, show

READS = ["PRAGMA integrity_check", "SELECT * FROM plan", "PRAGMA quick_check; SELECT count(*) FROM span2", ".dump"]
WRITES = [
    "UPDATE operator SET ceiling = 99",
    "DELETE FROM plan WHERE usage = 2",
    "CREATE TABLE other (a)",
    "VACUUM",
    "PRAGMA journal_mode = DELETE",
    "PRAGMA user_version = 1",
]
LOCKED = "database is locked"
RESERVED, SUM = 20, 8
"""The byte of FILE's header that says how many bytes at each page's end aren't SQLite's own, and how many sums take."""
Pair = tuple[pathlib.Path, World]


def sqlite(path: pathlib.Path, text: str) -> tuple[int, str]:
    """Status and both outputs of the tool sqlite3."""
    ran = finish(["sqlite3", str(path), text], b"")
    return ran.status, ran.output.decode() + ran.errors


def by_python(path: pathlib.Path, text: str) -> str | None:
    """What Python's SQLite says of a statement."""
    connection = sqlite3.connect(str(path), timeout=0)
    try:
        connection.execute(text).fetchall()
    except sqlite3.OperationalError as error:
        return str(error)
    finally:
        connection.close()
    return None


@pytest.fixture(scope="module")
def made(place: pathlib.Path) -> Made:
    """A closed file of two operators."""
    return make_file(place / "made.db", 2)


@pytest.fixture(scope="module")
def pairs(made: Made, place: pathlib.Path) -> dict[str, Pair]:
    """The closed file, and one whose log holds a few changes, as a killed desk left it; each with its world."""
    path, world, chance = copy_pair(made.path, place / "log.db"), made.world, random.Random("log")
    with Desk(path) as desk:
        for _ in range(5):
            asked, told, world = change_by_chance(world, chance)
            assert desk.ask(asked) == told, "a change has a wrong answer"
    return {"closed": (made.path, made.world), "killed": (path, world)}


def test_while_a_desk_runs(rows: Rows, made: Made, room: pathlib.Path) -> None:
    """Nobody else reads, writes or serves the file, and the desk answers as before."""
    path = copy_pair(made.path, room / "desk.db")
    with Desk(path) as desk:
        for text in READS + WRITES:
            rows.has(text, LOCKED, sqlite(path, text)[1])
        rows.equal("Python's SQLite", LOCKED, by_python(path, READS[1]))
        ran = finish([PROGRAM, "enrol", "--db", str(path), "carol", "1"], b"")
        in_use = f"uss_desk: {path}: in use by another program\nuss_desk: store\n"
        rows.equal("a second desk", (4, in_use), (ran.status, ran.errors))
        for key in made.world.flights:
            asked, told, _ = show(made.world, *key)
            rows.equal("an answer afterwards", told, desk.ask(asked))


@pytest.mark.quick_each(8)
@pytest.mark.parametrize("kind", ["closed", "killed"])
@pytest.mark.parametrize("text", READS)
def test_read(kind: str, text: str, pairs: dict[str, Pair], room: pathlib.Path) -> None:
    """A file that was read has the same content."""
    path, world = pairs[kind]
    copy = copy_pair(path, room / "desk.db")
    assert sqlite(copy, text)[0] == 0
    assert opened(copy, world) == (None, read_all(world)[1])


@pytest.mark.quick_each(12)
@pytest.mark.parametrize("kind", ["closed", "killed"])
@pytest.mark.parametrize("text", WRITES)
def test_write(kind: str, text: str, pairs: dict[str, Pair], room: pathlib.Path) -> None:
    """A file that was written to is refused."""
    path, world = pairs[kind]
    copy = copy_pair(path, room / "desk.db")
    assert sqlite(copy, text)[0] == 0
    assert opened(copy, world) == ("store", b"")


@pytest.mark.quick
def test_new_file_has_sums(made: Made) -> None:
    """The program makes a file with sums."""
    assert made.data[RESERVED] == SUM


def test_file_without_sums(rows: Rows, room: pathlib.Path) -> None:
    """A file that sqlite3 made keeps its kind, and may be written to by sqlite3 again."""
    path = room / "without.db"
    made = make_without_sums(path, 2)
    rows.equal("it keeps its kind", 0, made.data[RESERVED])
    rows.equal("it is written to by sqlite3", 0, sqlite(path, "UPDATE operator SET ceiling = 60")[0])
    world = made.world._replace(ceilings=dict.fromkeys(made.world.ceilings, 60))
    rows.equal("it opens with what was written", (None, read_all(world)[1]), opened(path, world))
