"""What a line makes of the last record of its folder: cut at any byte, with a bit turned, under another name; and
where a keeper changed a ceiling in between."""

from __future__ import annotations

import contextlib
import pathlib
import shutil
import sqlite3
import time
from collections.abc import Callable
from typing import NamedTuple

import pytest
from faults.scenario import UNKNOWN, answer
from harness.program import Ran, run
from harness.requests import list_plans, plan_id, status
from harness.rows import Rows, named
from harness.serving import Served

from record.entries import LINE, beginning, entries_in, entry
from record.folders import all_alike, dump_of, played, recorded
from record.layers import PLANNED, planned

SHARES = 4
STEP = 24
"""Each of so many bytes is the place of a cut or of damage, and all where an entry begins or ends."""
BOTH = ("desk.db", "desk.db-wal")
BEGINNING = len(entry("record", 1, b"1"))
OPERATORS = [("alfa", 100), ("bravo", 100)]


class Left(NamedTuple):
    """What a desk has left that was killed: its files before and after its last request, and its record."""

    before: dict[str, bytes]
    after: dict[str, bytes]
    name: str
    record: bytes


def words_of(room: pathlib.Path) -> list[str]:
    """The words of a line that records."""
    return ["--db", str(room / "desk.db"), "--record", str(room / "records")]


def files_of(room: pathlib.Path) -> dict[str, bytes]:
    """The desk's files."""
    return {name: (room / name).read_bytes() for name in BOTH if (room / name).exists()}


@pytest.fixture(scope="module")
def left(tmp_path_factory: pytest.TempPathFactory) -> Left:
    """A desk of two plans; the last request is a PUT of the second."""
    room = tmp_path_factory.mktemp("left")
    (room / "records").mkdir()
    with Served(*words_of(room), *(f"{name}={ceiling}" for name, ceiling in OPERATORS)) as desk:
        assert desk.ask(planned(1)) == PLANNED
        before = files_of(room)
        assert desk.ask(planned(2)) == PLANNED
        after = files_of(room)
        desk.kill()
    record = recorded(room / "records")[0]
    return Left(before, after, record.name, record.read_bytes())


def lay_out(room: pathlib.Path, files: dict[str, bytes], name: str, record: bytes) -> pathlib.Path:
    """The files of a desk and its folder with one record, whose path is answered."""
    shutil.rmtree(room / "records", ignore_errors=True)
    (room / "records").mkdir()
    for old in BOTH:
        (room / old).unlink(missing_ok=True)
    for file, data in files.items():
        (room / file).write_bytes(data)
    path = room / "records" / name
    path.write_bytes(record)
    return path


def cuts_of(left: Left) -> list[tuple[int, bool, dict[str, bytes]]]:
    """Where the record is cut, from its last request on; whether that is asked; and the files that may be beside it:
    those of before the request's change if the record lacks the answer, those of after it if it has the request."""
    request, told = (len(entry(it.word, it.number, it.data)) for it in entries_in(left.record)[0][-2:])
    ends = [len(left.record) - request - told, len(left.record) - told, len(left.record)]
    sizes = {
        *range(ends[0], ends[2], STEP),
        *(end + by for end in ends for by in (-1, 0, 1, LINE - 1, LINE, LINE + 1)),
    }
    before = [(size, size >= ends[1], left.before) for size in sorted(sizes) if ends[0] <= size < ends[2]]
    return before + [(size, True, left.after) for size in sorted(sizes) if ends[1] <= size <= ends[2]]


@pytest.mark.parametrize("share", range(SHARES))
def test_cut(room: pathlib.Path, rows: Rows, left: Left, share: int) -> None:
    """A record that is cut from its last request on: what is whole is gone on with, what is torn lies beside it."""
    for size, is_asked, files in cuts_of(left)[share::SHARES]:
        record = lay_out(room, files, left.name, left.record[:size])
        gone_on(rows, room, record, left.record[:size], is_asked)


def gone_on(rows: Rows, room: pathlib.Path, record: pathlib.Path, text: bytes, is_asked: bool) -> None:
    """What the next line does with a record that was cut."""
    said, rest = entries_in(text)
    what = f"cut at {len(text)}"
    with Served(*words_of(room), connections=1) as desk:
        listed = desk.ask(list_plans("alfa"))
        rows.equal(f"{what}: the end", (0, ""), desk.end()[::2])
    is_planned = [plan_id(number).encode() in listed for number in (1, 2)]
    rows.equal(f"{what}: the plans", [True, is_asked], is_planned)
    beside = [it.read_bytes() for it in record.parent.glob("*.rest")]
    rows.equal(f"{what}: torn off", [rest] if rest else [], beside)
    rows.equal(f"{what}: whole", text[: len(text) - len(rest)], record.read_bytes())
    is_left = said[-1].word == "request"
    numbers = [int(it.name[:10]) for it in recorded(record.parent)]
    rows.equal(f"{what}: records", [1, 2, 3] if is_left else [1, 2], numbers)
    new = room / "new.db"
    ran = played(record.parent, new)
    rows.equal(f"{what}: alike", all_alike(record.parent, ran), ran)
    rows.equal(f"{what}: equal tables", dump_of(room / "desk.db"), dump_of(new))
    for name in (new, new.with_name("new.db-wal")):
        name.unlink(missing_ok=True)


def refused(rows: Rows, room: pathlib.Path, what: str, cause: str, word: str = "write") -> None:
    """A line ends before it listens, and changes nothing."""
    folder = room / "records"
    before = files_of(room), {it.name: it.read_bytes() for it in folder.iterdir()}
    ran = run("serve", "--port", "8080", "--requests", "1", *words_of(room))
    told = ran.errors.splitlines()
    rows.equal(what, (4, b"", f"uss_desk: {word}"), (ran.status, ran.output, told[-1]))
    rows.has(f"{what}: why", cause, told[0])
    rows.equal(f"{what}: nothing", before, (files_of(room), {it.name: it.read_bytes() for it in folder.iterdir()}))


@pytest.mark.parametrize("share", range(SHARES))
def test_damaged(room: pathlib.Path, rows: Rows, left: Left, share: int) -> None:
    """A bit that is another, wherever it is, is told, and nothing is changed."""
    for place in range(share * STEP, len(left.record), SHARES * STEP):
        damaged = bytearray(left.record)
        damaged[place] ^= 1 << place % 8
        lay_out(room, left.after, left.name, bytes(damaged))
        refused(rows, room, f"byte {place}", "its last record is damaged")


# the name of a record, its bytes, and a word of why it is refused
OTHERS: list[tuple[str, Callable[[Left], tuple[str, bytes]], str]] = [
    ("another number in its name", lambda left: ("0000000002-1.record", left.record), "number"),
    ("no byte", lambda left: (left.name, b""), "its last record is empty"),
    ("one byte", lambda left: (left.name, left.record[:1]), "its last record is damaged"),
    ("no whole entry", lambda left: (left.name, left.record[: BEGINNING - 1]), "its last record is damaged"),
    ("an entry", lambda left: ("0000000002-1.record", left.record[:BEGINNING]), "number"),
    ("another version", lambda left: (left.name, entry("record", 1, b"2")), "none of a desk"),
    ("no beginning", lambda left: (left.name, entry("operator", 100, b"alfa")), "none of a desk"),
    ("two beginnings", lambda left: (left.name, left.record + left.record), "none of a desk"),
]


@pytest.mark.quick_each(4)
@pytest.mark.parametrize("made, cause", named(OTHERS))
def test_another(
    room: pathlib.Path, rows: Rows, left: Left, made: Callable[[Left], tuple[str, bytes]], cause: str
) -> None:
    """A last record that is none of this folder's."""
    lay_out(room, left.after, *made(left))
    refused(rows, room, "refused", cause)


@pytest.mark.quick
def test_no_file(room: pathlib.Path, rows: Rows, left: Left) -> None:
    """The desk's file is gone, and none is made."""
    lay_out(room, {}, left.name, left.record)
    refused(rows, room, "refused", "no such file", "store")


def test_what_else_is_there(room: pathlib.Path, rows: Rows, left: Left) -> None:
    """Names that are no record's are passed over, and what a line left that was cut off is made anew."""
    record = lay_out(room, left.after, left.name, left.record)
    others = ["0000000009.record", "000000009-1.record", "0000000009-1.records", "0000000009-x.record", "notes"]
    for name in [*others, ".new-0000000002"]:
        (record.parent / name).write_bytes(b"something else\n")
    with Served(*words_of(room), connections=1) as desk:
        desk.ask(status("alfa"))
        rows.equal("the end", (0, ""), desk.end()[::2])
    names = {it.name for it in record.parent.iterdir()}
    rows.equal("they stay", set(others), names & set(others))
    rows.equal("and one more", 1, sum(name.startswith("0000000002-") for name in names))
    rows.equal("nothing else", len(others) + 2, len(names))


def test_request_left(room: pathlib.Path, rows: Rows, left: Left) -> None:
    """A request without an answer is asked again on the terms of its record, in one of its own, before the next."""
    asked = entry("request", int(time.time()), planned(2))
    terms = beginning(1, OPERATORS, [10, 20], 5, 7)
    record = lay_out(room, left.before, left.name, b"".join([*terms, asked]))
    with Served(*words_of(room), connections=1) as desk:
        rows.equal("it is planned", True, plan_id(2).encode() in desk.ask(list_plans("alfa")))
        desk.end()
    again = recorded(record.parent)[1].read_bytes()
    told = entry("answer", int(asked[10:30]), PLANNED)
    rows.equal("its record", b"".join([*beginning(2, OPERATORS, [10, 20], 5, 7), asked, told]), again)
    begun, next_one = b"".join(beginning(3, OPERATORS)), recorded(record.parent)[2].read_bytes()
    rows.equal("the next begins", begun, next_one[: len(begun)])


# what a keeper does between a crash and the next start: the ceiling of 100 that `enrol` replaces; the priority of the
# PUT; whether its change was made before the crash; whether the plan is there afterwards; and whether the records play
LOWER = "50"
BETWEEN = [
    ("nothing, not made", None, 80, False, True, True),
    ("nothing, made", None, 80, True, True, True),
    ("a ceiling that lets it pass", "200", 150, False, True, True),
    ("a lower ceiling, made", LOWER, 80, True, True, True),
    # what is played makes the change under the ceiling of the first record, and the desk itself refuses it
    ("a lower ceiling, not made", LOWER, 80, False, False, False),
]


@pytest.mark.parametrize("ceiling, priority, is_made, is_there, is_alike", named(BETWEEN))
def test_ceiling_by_enrol(
    room: pathlib.Path,
    rows: Rows,
    left: Left,
    ceiling: str | None,
    priority: int,
    is_made: bool,
    is_there: bool,
    is_alike: bool,
) -> None:
    """A ceiling that `enrol` replaces between a crash and the next start."""
    crashed(room, left, planned(2, priority=priority), is_made)
    if ceiling:
        line = ["enrol", "--db", str(room / "desk.db"), "alfa", ceiling]
        rows.equal("enrolled", Ran(0, f"enrolled alfa {ceiling}\n".encode(), ""), run(*line))
    with Served(*words_of(room), connections=1) as desk:
        rows.equal("the plan", is_there, plan_id(2).encode() in desk.ask(list_plans("alfa")))
        rows.equal("the end", (0, ""), desk.end()[::2])
    plays(rows, room, is_alike)


def plays(rows: Rows, room: pathlib.Path, is_alike: bool) -> None:
    """Whether all records give equal answers and tables, or end with `differs`."""
    ran = played(room / "records", room / "new.db")
    if is_alike:
        rows.equal("alike", all_alike(room / "records", ran), ran)
        rows.equal("equal tables", dump_of(room / "desk.db"), dump_of(room / "new.db"))
    else:
        rows.equal("differs", (3, "uss_desk: differs"), (ran.status, ran.errors.splitlines()[-1]))


@pytest.mark.parametrize("is_made", [False, True], ids=["not made", "made"])
def test_ceiling_by_the_file(room: pathlib.Path, rows: Rows, left: Left, is_made: bool) -> None:
    """A lower ceiling in the file of enrolments counts once the request was asked again, and all records play."""
    crashed(room, left, planned(2, priority=80), is_made)
    roll = room / "operators"
    roll.write_text(f"alfa {LOWER}\n")
    refusal = '{"flight_plan_status":"NotPlanned","notes":"priority","planning_result":"Rejected"}'
    with Served(*words_of(room), "--operators", str(roll), connections=2) as desk:
        rows.equal("under the lower ceiling", answer(200, refusal), desk.ask(planned(3, priority=80)))
        rows.equal("the plan", True, plan_id(2).encode() in desk.ask(list_plans("alfa")))
        rows.equal("the end", (0, ""), desk.end()[::2])
    plays(rows, room, True)


def test_operator_removed(room: pathlib.Path, rows: Rows, left: Left) -> None:
    """An operator that another program takes out of the file before the request that it left is asked again."""
    crashed(room, left, planned(2, "bravo"), False)
    file, new = room / "desk.db", room / "without.db"
    with contextlib.closing(sqlite3.connect(file)) as connection, connection:
        connection.execute("DELETE FROM operator WHERE name = 'bravo'")
    rows.equal("a whole file again", 0, run("copy", "--db", str(file), "--to", str(new)).status)
    lay_out_file(room, new.read_bytes())
    with Served(*words_of(room), connections=1) as desk:
        rows.equal("it isn't enrolled", UNKNOWN, desk.ask(list_plans("bravo")))
        rows.equal("the end", (0, ""), desk.end()[::2])
    asked_again = entries_in(recorded(room / "records")[1].read_bytes())[0]
    rows.equal("nor when it is asked again", UNKNOWN, asked_again[-1].data)
    plays(rows, room, False)


def test_one_opening(room: pathlib.Path, rows: Rows, left: Left) -> None:
    """A start after a crash locks the desk's file and its log once, and lists the folder of its records twice."""
    crashed(room, left, planned(2), False)
    trace = room / "trace"
    strace = ["strace", "-f", "-qq", "-e", "trace=openat,fcntl", "-o", str(trace)]
    ran = run("enrol", *words_of(room), "charlie", "50", under=strace)
    rows.equal("enrolled", Ran(0, b"enrolled charlie 50\n", ""), ran)
    rows.equal("records", [1, 2, 3], [int(it.name[:10]) for it in recorded(room / "records")])
    calls = trace.read_text().splitlines()
    rows.equal("locks", 2, sum("F_OFD_SETLK" in it for it in calls))
    rows.equal("lists", 2, sum("O_DIRECTORY" in it for it in calls))
    plays(rows, room, True)


def lay_out_file(room: pathlib.Path, data: bytes) -> None:
    """Another file in the place of the desk's."""
    for old in BOTH:
        (room / old).unlink(missing_ok=True)
    (room / BOTH[0]).write_bytes(data)


def crashed(room: pathlib.Path, left: Left, asked: bytes, is_made: bool) -> None:
    """A desk that crashed at a request in the place of its last one, before the change or after it."""
    second = int(time.time())
    record = b"".join(entry(*it) for it in entries_in(left.record)[0][:-2])
    lay_out(room, left.before, left.name, record + entry("request", second, asked))
    words = ["play", "--db", str(room / "desk.db"), "--at", str(second)]
    ran = run(*words, given=asked if is_made else b"")
    assert ran.output == (PLANNED if is_made else b""), ran
