"""Lines that end with a failure: the exit status, and on standard error the word, and the cause before it.

A line that is refused prints nothing on standard output but the answers to what came before.
"""

from __future__ import annotations

import os
import pathlib
from collections.abc import Iterator

import pytest
from harness.places import EXAMPLES
from harness.program import run
from harness.requests import READY, answers
from harness.rows import named

AT = ["play", "--at", "1780315000"]
STATUS = b"GET /status HTTP/1.1\r\nx-operator: alfa\r\n\r\n"
VERSION = b"uss_desk 2.0.0\nRattle logic dac8208d650f15bf\n"
COVER = ["cover", "0", "0", "0", "0", "65535", "24"]
# the last leaf along a side of a face, and the last of its first half
LAST, HALF = str(2**30 - 1), str(2**29 - 1)
# what is told of a word that is malformed
PAIR = "no NAME=CEILING"
NAME = "no operator's name: 1 to 32 of a to z, 0 to 9 and -"
CEILING = "no ceiling: a number from 0 to 1000, of at most 4 digits"
LIST = "no list of priorities: at most 32 from 0 to 1000, ascending, with commas between"
TOO_MANY = ",".join(map(str, range(33)))


def malformed(word: str, cause: str) -> str:
    """What stands on standard error of a line with a malformed word."""
    return f"uss_desk: {word}: {cause}\nuss_desk: value\n"


def cover(*changes: tuple[int, str]) -> list[str]:
    """The line of a cover with some words changed, each by its place."""
    words = list(COVER)
    for place, word in changes:
        words[place] = word
    return words


# the words, the standard input, the exit status, what stands on standard error
LINES = [
    ("a name given twice", [*AT, "alfa=1", "alfa=100"], STATUS, 0, ""),
    (
        "nobody in memory",
        AT,
        b"",
        0,
        "uss_desk: in memory: no operator is enrolled, so each request is answered 403\n",
    ),
    ("a ceiling too great", [*AT, "alfa=1001"], b"", 2, malformed("alfa=1001", CEILING)),
    ("a ceiling of five digits", [*AT, "alfa=00100"], b"", 2, malformed("alfa=00100", CEILING)),
    ("a ceiling that is no number", [*AT, "alfa=x"], b"", 2, malformed("alfa=x", CEILING)),
    ("a name in upper case", [*AT, "Alfa=100"], b"", 2, malformed("Alfa=100", NAME)),
    ("a name with no ceiling", [*AT, "alfa"], b"", 2, malformed("alfa", PAIR)),
    ("the second of three words", [*AT, "alfa=1", "bravo=", "carol"], b"", 2, malformed("bravo=", CEILING)),
    ("equal priorities", [*AT, "--equal", "0,10,1000", "alfa=100"], STATUS, 0, ""),
    ("equal priorities with a blank", [*AT, "--equal", "5, 10"], b"", 2, malformed("5, 10", LIST)),
    ("no number of an equal priority", [*AT, "--equal", ""], b"", 2, malformed("", LIST)),
    ("a comma too many", [*AT, "--equal", "5,"], b"", 2, malformed("5,", LIST)),
    ("an equal priority of five digits", [*AT, "--equal", "00010"], b"", 2, malformed("00010", LIST)),
    ("an equal priority too great", [*AT, "--equal", "5,1001"], b"", 2, malformed("5,1001", LIST)),
    ("equal priorities that descend", [*AT, "--equal", "10,5"], b"", 2, malformed("10,5", LIST)),
    ("an equal priority given twice", [*AT, "--equal", "10,10"], b"", 2, malformed("10,10", LIST)),
    ("33 equal priorities", [*AT, "--equal", TOO_MANY], b"", 2, malformed(TOO_MANY, LIST)),
    ("32 equal priorities", [*AT, "--equal", ",".join(map(str, range(32))), "alfa=100"], STATUS, 0, ""),
    ("the least spans", [*AT, "--spans", "1", "alfa=100"], STATUS, 0, ""),
    ("the most spans", [*AT, "--spans", "5000000", "alfa=100"], STATUS, 0, ""),
    ("the least cells", [*AT, "--cells", "1", "alfa=100"], STATUS, 0, ""),
    ("the most cells", [*AT, "--cells=5000000", "--spans", "1", "alfa=100"], STATUS, 0, ""),
    ("a request cut short", [*AT, "alfa=100"], STATUS[:-2], 3, "uss_desk: cut_short\n"),
    ("one request and a cut one", [*AT, "alfa=100"], STATUS + b"GET", 3, "uss_desk: cut_short\n"),
    (
        "a request with no end in sight",
        [*AT, "alfa=100"],
        b"GET / HTTP/1.1\r\n\r\n\x00\r\n\r\n",
        3,
        "uss_desk: unframed\n",
    ),
    ("a head that never ends", [*AT, "alfa=100"], b"a" * 16384, 3, "uss_desk: unframed\n"),
    (
        "a folder that isn't there",
        ["play", "--db", "/no/such/folder/desk.db", "--at", "1780315000"],
        b"",
        4,
        "uss_desk: /no/such/folder/desk.db: no such folder\nuss_desk: store\n",
    ),
    (
        "enrolled under too great a ceiling",
        ["enrol", "--db", ":memory:", "alfa", "1001"],
        b"",
        2,
        malformed("1001", CEILING),
    ),
    ("enrolled under no name", ["enrol", "--db", ":memory:", "a b", "1"], b"", 2, malformed("a b", NAME)),
    ("plans of a database in memory", ["migrate", "--db", ":memory:"], b"", 4, "uss_desk: store\n"),
    (
        "plans in a folder that isn't there",
        ["migrate", "--db", "/no/such/folder/desk.db"],
        b"",
        4,
        "uss_desk: /no/such/folder/desk.db: no such file\nuss_desk: store\n",
    ),
    (
        "a file of enrolments that is a folder",
        ["serve", "--port", "8080", "--requests", "1", "--operators", "/"],
        b"",
        3,
        "uss_desk: /: no file\nuss_desk: read\n",
    ),
    ("a token that is empty", ["token", ""], b"", 3, "uss_desk: empty\n"),
    ("a token of 17 digits", ["token", "0" * 17], b"", 3, "uss_desk: too_long\n"),
    ("a token that is not hex", ["token", "X"], b"", 3, "uss_desk: not_hex\n"),
    ("a token of no cell", ["token", "2"], b"", 3, "uss_desk: not_a_cell\n"),
    ("a face above 5", cover((1, "6")), b"", 3, "uss_desk: face\n"),
    ("a coordinate past the face", cover((5, "1073741824")), b"", 3, "uss_desk: coordinate\n"),
    ("a least coordinate above its greatest", cover((2, "1")), b"", 3, "uss_desk: order\n"),
    ("level 7", cover((6, "7")), b"", 3, "uss_desk: level\n"),
    ("1,025 cells", cover((5, "65536")), b"", 3, "uss_desk: too_many_cells\n"),
    ("1,024 cells", COVER, b"", 0, ""),
]
# a line that tells of cells, and what it prints
CELLS = [
    ("a token in upper case", ["token", "B"], "b face 5 level 0 leaves a000000000000001 bfffffffffffffff\n"),
    (
        "a leaf",
        ["token", "0" * 15 + "1"],
        "0000000000000001 face 0 level 30 leaves 0000000000000001 0000000000000001\n",
    ),
    ("half a face, by j", cover((3, LAST), (5, HALF), (6, "8")), "04\n1c\n2 cells, 2 ranges\n"),
    ("half a face, by i", cover((3, HALF), (5, LAST), (6, "8")), "04\n0c\n2 cells, 1 ranges\n"),
    ("a face", cover((3, LAST), (5, LAST), (6, "8")), "1\n1 cells, 1 ranges\n"),
]
# lines that clap refuses: the status alone
REFUSED = [
    ("no line", []),
    ("a line that is none", ["fly"]),
    ("no moment", ["play", "alfa=100"]),
    ("a moment before 1970", ["play", "--at", "-1"]),
    ("no spans", ["play", "--at", "0", "--spans", "0"]),
    ("too many spans", ["play", "--at", "0", "--spans", "5000001"]),
    ("spans that are no number", ["play", "--at", "0", "--spans", "x"]),
    ("spans given twice", ["play", "--at", "0", "--spans", "1", "--spans", "1"]),
    ("no cells", ["play", "--at", "0", "--cells", "0"]),
    ("too many cells", ["play", "--at", "0", "--cells", "5000001"]),
    ("cells that are no number", ["play", "--at", "0", "--cells", "x"]),
    ("cells below 0", ["play", "--at", "0", "--cells=-1"]),
    ("no number of cells", ["play", "--at", "0", "--cells"]),
    ("cells given twice", ["play", "--at", "0", "--cells", "1", "--cells", "1"]),
    ("cells of serve given twice", ["serve", "--port", "8080", "--requests", "1", *["--cells", "1"] * 2]),
    ("cells of enrol", ["enrol", "--db", ":memory:", "--cells", "1", "alfa", "1"]),
    ("a moment too late", ["play", "--at", "253370764801"]),
    ("port 0", ["serve", "--port", "0", "--requests", "1"]),
    ("two files of enrolments", ["serve", "--port", "8080", "--requests", "1", *["--operators", "a"] * 2]),
    ("a file of enrolments of play", ["play", "--at", "0", "--operators", "a"]),
    ("no connections", ["serve", "--port", "8080", "--requests", "0"]),
    ("plans of no database", ["migrate"]),
    ("a database at its place", ["migrate", "desk.db"]),
    ("a coordinate that no number of 32 bits is", cover((5, "4294967296"))),
]


@pytest.mark.quick_each(6)
@pytest.mark.parametrize("words, given, status, errors", named(LINES))
def test_line(words: list[str], given: bytes, status: int, errors: str) -> None:
    """How a line ends, and what it says."""
    ran = run(*words, given=given)
    assert (ran.status, ran.errors) == (status, errors)


@pytest.mark.parametrize("words, output", named(CELLS))
def test_line_that_tells_of_cells(words: list[str], output: str) -> None:
    """What it prints."""
    assert run(*words) == (0, output.encode(), "")


@pytest.mark.quick_each(8)
@pytest.mark.parametrize("words", named(REFUSED))
def test_line_that_clap_refuses(words: list[str]) -> None:
    """Its status, a text of clap's, and no output."""
    ran = run(*words)
    assert (ran.status, ran.output, ran.errors != "") == (2, b"", True)


@pytest.mark.quick
def test_version() -> None:
    """The version, and the kit's."""
    assert run("--version") == (0, VERSION, "")


def test_input_that_cannot_be_read() -> None:
    """A folder is no input."""
    folder = os.open(EXAMPLES, os.O_RDONLY)
    try:
        ran = run(*AT, "alfa=100", stdin=folder)
    finally:
        os.close(folder)
    assert (ran.status, ran.errors) == (3, "uss_desk: read\n")


@pytest.fixture
def full() -> Iterator[int]:
    """An output that takes nothing."""
    with open("/dev/full", "wb") as file:
        yield file.fileno()


def test_answer_before_a_cut_request() -> None:
    """What came whole is answered."""
    assert answers(run(*AT, "alfa=100", given=STATUS + b"GET").output)[0].body == READY


def test_full_output(full: int) -> None:
    """An answer that can't be written."""
    ran = run(*AT, "alfa=100", given=STATUS, stdout=full)
    assert (ran.status, ran.errors) == (4, "uss_desk: write\n")


@pytest.mark.quick
def test_enrolled(room: pathlib.Path) -> None:
    """A ceiling is printed as a number."""
    assert run("enrol", "--db", f"{room}/desk.db", "alfa", "0100")[:2] == (0, b"enrolled alfa 100\n")


def test_mode_of_a_new_file(room: pathlib.Path) -> None:
    """A new file and its log are their owner's alone."""
    run("enrol", "--db", f"{room}/desk.db", "alfa", "100")
    assert [oct(os.stat(f"{room}/desk.db{end}").st_mode & 0o777) for end in ("", "-wal")] == ["0o600", "0o600"]


def test_mode_of_a_copy(room: pathlib.Path, desk_file: pathlib.Path) -> None:
    """A copy is its owner's alone."""
    run("copy", "--db", str(desk_file), "--to", f"{room}/new.db")
    assert oct(os.stat(f"{room}/new.db").st_mode & 0o777) == "0o600"


def test_file_whose_name_has_blanks(room: pathlib.Path) -> None:
    """The name of a file begins and ends as it is given."""
    run("enrol", "--db", f"{room}/ blanks .db ", "alfa", "1")
    assert " blanks .db " in os.listdir(room)


def test_moved_though_of_schema_2(desk_file: pathlib.Path) -> None:
    """A file of schema 2 has no plan to move."""
    assert run("migrate", "--db", str(desk_file)) == (0, b"migrated 0 plans\n", "")


def test_moved_though_no_file(room: pathlib.Path) -> None:
    """No file is made for a move."""
    path = room / "fresh.db"
    assert run("migrate", "--db", str(path)) == (4, b"", f"uss_desk: {path}: no such file\nuss_desk: store\n")
    assert not path.exists()


def test_moved_to_a_full_output(desk_file: pathlib.Path, full: int) -> None:
    """The count of a move that can't be written."""
    ran = run("migrate", "--db", str(desk_file), stdout=full)
    assert (ran.status, ran.errors) == (4, "uss_desk: write\n")
