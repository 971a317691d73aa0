"""A disk that is full: file systems in memory on which a desk runs until there is no room, first for FILE and then for
the journal, which no other file lies beside."""

from __future__ import annotations

import pathlib
import random
import shutil
from collections.abc import Iterator, Sequence

import pytest
from faults.conftest import Note
from faults.judging import STORE, kind_of, told, word_of, wrong_content, wrong_end
from faults.load import load, reading_of
from faults.program import PROGRAM, Ran, finish, play_words
from faults.scenario import CONTENTS, OPERATORS, READING, answer
from harness.mounting import SmallDisk
from harness.program import Ran as Line
from harness.program import run
from harness.requests import list_plans, plan_id, request
from harness.rows import Rows
from harness.serving import Served
from record.entries import beginning, entries_in, entry
from record.folders import all_alike, dump_of, played, recorded, said_in
from record.layers import PLANNED, planned

SIZES = range(32, 1536, 72)
REQUESTS = 300
KILOBYTES = 12
"""The disk's size, three pages: room for some ten requests with their answers."""
ROOM = 1024
"""Its size once room was made."""
PADDINGS = range(0, 900, 100)
"""How much longer the first request is, so that the disk is full at another place of a request or of an answer."""
READY = answer(200, '{"status":"Ready"}')
BROKEN = answer(500, '{"error":"store"}')


def wrong_in_place(ran: Ran, allowed: Sequence[bytes], is_enrolled: bool) -> str | None:
    """What is read on the full disk itself: one of the contents, or nothing where no operator could be enrolled."""
    if ran.status == 0 and ran.output in allowed:
        return None
    is_ended = ran.status == 4 and word_of(ran.errors) == "uss_desk: store\n"
    if is_ended and (ran.output in allowed or not is_enrolled):  # the log can't be copied there, or nothing be made
        return None
    return f"read in place: status {ran.status}, {ran.errors!r}, {ran.output[-200:]!r}"


@pytest.mark.quick_each(30)
@pytest.mark.slow
@pytest.mark.parametrize("size", SIZES, ids="{} KB".format)
def test_full_disk(note: Note, room: pathlib.Path, apart: Sequence[str], size: int) -> None:
    """A desk whose file has too small a disk says so, and what was answered is there, and one call more at most."""
    requests, answers, contents = load(random.Random(size), {}, REQUESTS)
    for name in ("disk", "left"):
        (room / name).mkdir()
    with SmallDisk(apart, room / "disk", size) as disk:
        file = str(room / "disk" / "desk.db")
        ran = finish([*disk.under, PROGRAM, *play_words(file, OPERATORS)], requests)
        again = finish([*disk.under, PROGRAM, *play_words(file, [])], READING)
        for path in disk.seen.iterdir():
            shutil.copy(path, room / "left")
    count, _ = told(ran.output, answers)
    allowed = [reading_of(it) for it in contents[count : count + 2]]
    if count == 0:
        allowed += CONTENTS[:3]
    assert wrong_end(ran, answers, STORE, True) is None
    assert wrong_in_place(again, allowed, count > 0) is None
    assert wrong_content(str(room / "left" / "desk.db"), allowed) is None
    note("full disks: sizes")
    note(f"full disks: {kind_of(ran)}")


class Small:
    """A desk over a file, with a folder of records on a small disk."""

    def __init__(self, room: pathlib.Path, disk: SmallDisk) -> None:
        self.file, self.disk, self._folder = room / "desk.db", disk, room / "records"

    @property
    def words(self) -> list[str]:
        """The words of a line."""
        return ["--db", str(self.file), "--record", str(self._folder), "alfa=100"]

    @property
    def cannot(self) -> str:
        """What is told of a record that can't be written."""
        return f"uss_desk: {self._folder}: the record can't be written\n"

    def serve(self, connections: int = 1_000_000) -> Served:
        """A line that sees the small disk."""
        return Served(*self.words, connections=connections, under=self.disk.under)

    def refused(self) -> Line:
        """A line that ends before it listens."""
        line = ["serve", "--port", "8080", "--requests", "1", *self.words]
        return run(*line, under=self.disk.under)


@pytest.fixture
def small(room: pathlib.Path, apart: Sequence[str]) -> Iterator[Small]:
    """A desk whose records lie on a small disk."""
    (room / "records").mkdir()
    with SmallDisk(apart, room / "records", KILOBYTES) as disk:
        yield Small(room, disk)


def count_plans(file: pathlib.Path) -> int:
    """How many plans a file has, by `check`."""
    return int(run("check", "--db", str(file)).output.split(b" plans")[0].split()[-1])


def padded(padding: int) -> bytes:
    """A request whose head has so many more bytes."""
    return request("GET", "/status", "alfa").replace(b"host: desk", b"host: " + b"d" * (4 + padding))


def filled(padding: int) -> tuple[int, str]:
    """How many plans are answered, after a request that is padded, until an entry doesn't fit, and which that is."""
    free = KILOBYTES * 1024 - len(b"".join(beginning(1, [("alfa", 100)])))
    free -= len(entry("request", 0, padded(padding)) + entry("answer", 0, READY))
    asked, answered = len(entry("request", 0, planned(1))), len(entry("answer", 0, PLANNED))
    plans, free = divmod(free, asked + answered)
    return plans, "request" if free < asked else "answer"


@pytest.mark.quick_each(9)
@pytest.mark.parametrize("padding", PADDINGS)
@pytest.mark.parametrize("is_last", [False, True], ids=["in mid-run", "at the last connection"])
def test_full_under_the_journal(rows: Rows, room: pathlib.Path, small: Small, is_last: bool, padding: int) -> None:
    """What can't be kept is refused, at the line's last request too; what was answered stands; with room the next line
    goes on."""
    plans, full = filled(padding)
    # where it is full within the answer to a request, that was kept, and its change made
    stored = plans + (full == "answer")
    with small.serve(connections=plans + 2 if is_last else 1_000_000) as desk:
        rows.equal("the first", READY, desk.ask(padded(padding)))
        told = [desk.ask(planned(it + 1)) for it in range(plans + 1)]
        rows.equal("answers, and a refusal", [*[PLANNED] * plans, BROKEN], told)
        rows.equal("the end", Line(4, b"", f"{small.cannot}uss_desk: broken\n"), desk.end())
    said, rest = entries_in(recorded(small.disk.seen)[0].read_bytes())
    rows.equal("answers kept", plans + 1, sum(it.word == "answer" for it in said))
    rows.equal("plans", stored, count_plans(small.file))
    rows.equal("nothing can be begun", 4, small.refused().status)
    rows.equal("which changes nothing", stored, count_plans(small.file))
    go_on(rows, room, small, stored)
    rows.equal("what was torn off", [rest], [it.read_bytes() for it in small.disk.seen.glob("*.rest")])


def go_on(rows: Rows, room: pathlib.Path, small: Small, plans: int) -> None:
    """With room the next line goes on, and all records, played into a new file, leave what the desk has."""
    small.disk.resize(ROOM)
    with small.serve(connections=2) as desk:
        rows.equal("one more", PLANNED, desk.ask(planned(plans + 1)))
        listed = desk.ask(list_plans("alfa"))
        rows.equal("the last line", (0, ""), desk.end()[::2])
    rows.equal("its plans", [True] * (plans + 1), [plan_id(it + 1).encode() in listed for it in range(plans + 1)])
    ran = played(small.disk.seen, room / "new.db")
    rows.equal("alike", all_alike(small.disk.seen, ran), ran)
    rows.equal("equal tables", dump_of(small.file), dump_of(room / "new.db"))


@pytest.mark.quick
def test_both_ends() -> None:
    """Of the paddings some fill the disk within a request, and some within an answer."""
    assert {filled(padding)[1] for padding in PADDINGS} == {"request", "answer"}


def test_full_at_the_first_start(rows: Rows, room: pathlib.Path, small: Small) -> None:
    """No record is begun, and no desk is served."""
    ballast = small.disk.seen / "ballast"
    ballast.write_bytes(bytes(KILOBYTES * 1024))
    rows.equal("no room", Line(4, b"", f"{small.cannot}uss_desk: write\n"), small.refused())
    rows.equal("no record", [], recorded(small.disk.seen))
    rows.equal("no plan", 0, count_plans(small.file))
    ballast.unlink()
    go_on(rows, room, small, 0)
    rows.equal("two requests", 2, sum(it.word == "request" for it in said_in(small.disk.seen)))
