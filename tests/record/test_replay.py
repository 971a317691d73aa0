"""What `replay` makes of records: whole, with another answer, cut, damaged, out of order, or up to a second."""

from __future__ import annotations

import os
import pathlib
from collections.abc import Sequence

import pytest
from faults.scenario import cleared
from harness.program import Ran, run
from harness.requests import MOMENT, clear, delete, list_plans, over, plan_id, put, request, show
from harness.rows import Rows, named

from record.entries import LINE, Heard, asked, beginning, entry, exchanges
from record.folders import alike

OPERATORS = (("alfa", 100), ("bravo", 50))
WORDS = ("alfa=100", "bravo=50")
AREA, OTHER = [over(["04"])], [over(["5"])]
# what is asked at one second after the other; of these the second is blocked, and the last is no request of the desk
ASKED: list[list[bytes]] = [
    [put("alfa", plan_id(1), AREA), put("bravo", plan_id(2), AREA)],
    [put("bravo", plan_id(2), OTHER), show("alfa", plan_id(1))],
    [delete("alfa", plan_id(1)), put("bravo", plan_id(3), AREA, 20), request("PATCH", "/flight_plans", "alfa")],
]
COUNT = sum(map(len, ASKED))
CHANGES = 4
"""How many of them make a change: alfa's plan is stored and closed, and two of bravo's are stored."""
LEAST_WITH_A_COMMIT = 568
"""How many bytes a log has that holds a commit: its header, and one frame of a page of 512 bytes."""
NO_ENTRY = "no entry of a record"
OUT_OF_PLACE = "an entry that no record has there"
CUT = "an entry that is cut short"
NOT_NEXT = "a record that is not the next one"
OTHER_ANSWER = "another answer than the recorded one"


@pytest.fixture(scope="module")
def folder(tmp_path_factory: pytest.TempPathFactory) -> pathlib.Path:
    """A folder for the file of the desk that is recorded."""
    return tmp_path_factory.mktemp("record")


@pytest.fixture(scope="module")
def heard(folder: pathlib.Path) -> list[Heard]:
    """The requests with the answers of a desk over the file first.db."""
    file = folder / "first.db"
    return [it for at, group in enumerate(ASKED) for it in asked(file, MOMENT + at, group, *WORDS)]


@pytest.fixture(scope="module")
def whole(heard: list[Heard]) -> list[bytes]:
    """The entries of the whole record."""
    return [*beginning(1, OPERATORS), *exchanges(heard)]


def replayed(entries: Sequence[bytes], *words: str, file: str = ":memory:") -> Ran:
    """What comes of a record."""
    return run("replay", "--db", file, *words, given=b"".join(entries))


def stopped(entries: Sequence[bytes], requests: int, cause: str, word: str) -> Ran:
    """A replay is stopped after these entries."""
    place = len(b"".join(entries))
    return Ran(3, b"", f"uss_desk: request {requests}, at byte {place}: {cause}\nuss_desk: {word}\n")


def held(file: pathlib.Path) -> list[bytes]:
    """What a desk over a file shows of its operators' plans, and what `check` counts but for sizes."""
    lists = run("play", "--db", str(file), "--at", str(MOMENT), given=list_plans("alfa") + list_plans("bravo"))
    return [lists.output, run("check", "--db", str(file)).output.split(b" MB")[0].rsplit(b",", 1)[0]]


def test_whole_record(folder: pathlib.Path, room: pathlib.Path, whole: list[bytes], rows: Rows) -> None:
    """Every answer is alike, and the new file, its owner's alone, holds what the recorded one holds."""
    file = room / "new.db"
    rows.equal("alike", alike(COUNT, CHANGES), replayed(whole, file=str(file)))
    rows.equal("the owner's alone", "0o600", oct(os.stat(file).st_mode & 0o777))
    rows.equal("no commit is left in its log", True, (room / "new.db-wal").stat().st_size < LEAST_WITH_A_COMMIT)
    rows.equal("what is held", held(folder / "first.db"), held(file))


def test_nothing() -> None:
    """No entry is a record of nothing."""
    assert replayed([]) == alike(0, 0)


@pytest.mark.parametrize("number", [0, 1, 7, 18446744073709551615])
def test_any_first_number(number: int, heard: list[Heard]) -> None:
    """The first record may have any number."""
    assert replayed([*beginning(number, OPERATORS), *exchanges(heard)]) == alike(COUNT, CHANGES)


# what is another about an answer
ANSWERS = [
    ("one byte", lambda answer: answer[:-1] + bytes([answer[-1] ^ 1])),
    ("the first byte", lambda answer: b"h" + answer[1:]),
    ("a byte more", lambda answer: answer + b" "),
    ("a byte less", lambda answer: answer[:-1]),
    ("nothing", lambda answer: b""),
]


@pytest.mark.quick_each(8)
@pytest.mark.parametrize("at", range(COUNT))
@pytest.mark.parametrize("changed", named(ANSWERS))
def test_another_answer(at: int, changed: object, heard: list[Heard]) -> None:
    """A request is answered otherwise than the record says: its number and place are told."""
    assert callable(changed)
    other = [*heard[:at], heard[at]._replace(answer=changed(heard[at].answer)), *heard[at + 1 :]]
    entries = [*beginning(1, OPERATORS), *exchanges(other)]
    before = entries[: len(beginning(1, OPERATORS)) + 2 * at + 1]
    assert replayed(entries) == stopped(before, at + 1, OTHER_ANSWER, "differs")


def test_cut(whole: list[bytes], rows: Rows) -> None:
    """A record that is cut at any byte of its last two entries is cut short there, or has one entry less."""
    for last, requests in ((len(whole) - 1, COUNT), (len(whole) - 2, COUNT - 1)):
        before, one = whole[:last], whole[last]
        rows.equal("cut before an entry", alike(requests, CHANGES), replayed(before))
        for size in range(1, len(one)):
            wanted = stopped(before, requests, CUT, "cut_short")
            rows.equal(f"cut at byte {size} of {len(one)}", wanted, replayed([*before, one[:size]]))


def test_damage(whole: list[bytes], rows: Rows) -> None:
    """A bit that is another is told, wherever it is, before anything is made of the entry."""
    for at, requests in ((len(whole) - 1, COUNT), (1, 0)):
        before, one, rest = whole[:at], whole[at], whole[at + 1 :]
        for place in range(len(one)):
            damaged = one[:place] + bytes([one[place] ^ 1 << place % 7]) + one[place + 1 :]
            wanted = stopped(before, requests, NO_ENTRY, "no_record")
            rows.equal(f"byte {place} of {len(one)}", wanted, replayed([*before, damaged, *rest]))


def test_line_of_another_entry(whole: list[bytes]) -> None:
    """A line with the bytes of another entry of the same length is no entry."""
    one, other = entry("operator", 100, b"alfa"), entry("operator", 100, b"echo")
    mixed = one[:LINE] + other[LINE:]
    assert replayed([whole[0], mixed]) == stopped(whole[:1], 0, NO_ENTRY, "no_record")


@pytest.mark.quick
def test_until(folder: pathlib.Path, room: pathlib.Path, whole: list[bytes], rows: Rows) -> None:
    """Up to a second, whatever comes behind it."""
    rows.equal("before the first", alike(0, 0), replayed(whole, "--until", str(MOMENT - 1)))
    rows.equal("the first second", alike(2, 1), replayed(whole, "--until", str(MOMENT)))
    rows.equal(
        "the last but one", alike(4, 2), replayed([*whole[:-6], whole[-6], b"?" * 200], "--until", str(MOMENT + 1))
    )
    rows.equal("the last", alike(COUNT, CHANGES), replayed(whole, "--until", str(MOMENT + 2)))
    rows.equal("the last second of all", alike(COUNT, CHANGES), replayed(whole, "--until", "253370764800"))
    file, same = room / "until.db", room / "same.db"
    rows.equal("into a file", alike(4, 2), replayed(whole, "--until", str(MOMENT + 1), file=str(file)))
    for at, group in enumerate(ASKED[:2]):
        asked(same, MOMENT + at, group, *WORDS)
    rows.equal("what is held then", held(same), held(file))


def test_records_in_a_row(heard: list[Heard], rows: Rows) -> None:
    """Each further record is the next one; another is told, and all before it stays played."""
    first, second = [*beginning(4, OPERATORS), *exchanges(heard[:3])], exchanges(heard[3:])
    next_one = [*beginning(5), *second]
    rows.equal("in their order", alike(COUNT, CHANGES), replayed([*first, *next_one]))
    rows.equal("a wrong order", stopped(next_one[:1], 0, NOT_NEXT, "no_record"), replayed([next_one[0], *first]))
    for number in (3, 4, 6):
        other = [*beginning(number), *second]
        rows.equal(f"record {number}", stopped(first, 3, NOT_NEXT, "no_record"), replayed([*first, *other]))


def test_request_asked_again(heard: list[Heard], rows: Rows) -> None:
    """A request without an answer is the last of its record; the next one asks it again, and it counts once."""
    first = [*beginning(1, OPERATORS), *exchanges(heard[:2])]
    pending = entry("request", heard[2].second, heard[2].request)
    next_one = [*beginning(2), *exchanges(heard[2:])]
    rows.equal("at the end", alike(3, 2), replayed([*first, pending]))
    rows.equal("asked again", alike(COUNT, CHANGES), replayed([*first, pending, *next_one]))
    rows.equal(
        "and once more",
        alike(COUNT, CHANGES),
        replayed([*first, pending, beginning(2)[0], pending, *beginning(3), *exchanges(heard[2:])]),
    )
    other = [*beginning(2), *exchanges(heard[3:])]
    rows.equal(
        "another in its place",
        stopped([*first, pending, other[0]], 3, OUT_OF_PLACE, "no_record"),
        replayed([*first, pending, *other]),
    )


@pytest.mark.parametrize("limit", ["spans", "cells"])
def test_terms(limit: str, room: pathlib.Path, rows: Rows) -> None:
    """Priorities that are permitted and the most spans or cells are those of each record."""
    file, words = room / "terms.db", ("--equal", "10,20", f"--{limit}", "1")
    both = [put("alfa", plan_id(1), AREA), put("bravo", plan_id(2), AREA), put("bravo", plan_id(3), OTHER)]
    one = asked(file, MOMENT, both, *words, *WORDS)
    assert f'"notes":"{limit}_limit"'.encode() in one[2].answer
    two = asked(file, MOMENT, [put("alfa", plan_id(4), AREA)])
    begun = beginning(1, OPERATORS, (10, 20), **{limit: 1})
    entries = [*begun, *exchanges(one), *beginning(2), *exchanges(two)]
    rows.equal("as they were", alike(4, 2), replayed(entries))
    bare = [*beginning(1, OPERATORS), *exchanges(one)]
    rows.equal("without them", stopped(bare[:6], 2, OTHER_ANSWER, "differs"), replayed(bare))
    unlimited = [*beginning(1, OPERATORS, (10, 20)), *exchanges(one)]
    rows.equal("without the limit", stopped(unlimited[:-1], 3, OTHER_ANSWER, "differs"), replayed(unlimited))
    kept = [*begun, *exchanges(one), *exchanges(two)]
    rows.equal("of the record before", stopped(kept[:-1], 4, OTHER_ANSWER, "differs"), replayed(kept))


def test_enrolled_meanwhile(room: pathlib.Path) -> None:
    """An operator that is enrolled between two requests."""
    file = room / "meanwhile.db"
    one = asked(file, MOMENT, [show("bravo", plan_id(1))], "alfa=100")
    two = asked(file, MOMENT, [show("bravo", plan_id(1))], "bravo=50")
    assert (one[0].answer[:12], two[0].answer[:12]) == (b"HTTP/1.1 403", b"HTTP/1.1 404")
    entries = [*beginning(1, OPERATORS[:1]), *exchanges(one), entry("operator", 50, b"bravo"), *exchanges(two)]
    assert replayed(entries) == alike(2, 0)


# requests one after the other, and whether each makes a change
KINDS: list[tuple[str, bytes, bool]] = [
    ("a status", request("GET", "/status", "alfa"), False),
    ("a dry run", put("alfa", plan_id(1), AREA, style="Hypothetical"), False),
    ("a plan", put("alfa", plan_id(1), AREA), True),
    ("the same again", put("alfa", plan_id(1), AREA), True),
    ("one that is blocked", put("bravo", plan_id(2), AREA), False),
    ("one that is used", put("alfa", plan_id(1), AREA, usage="InUse"), True),
    ("a show", show("alfa", plan_id(1)), False),
    ("a list", list_plans("alfa"), False),
    ("no operator of the desk", put("charlie", plan_id(1), OTHER), False),
    ("no plan of the operator", delete("bravo", plan_id(1)), False),
    ("a close by a PUT", put("alfa", plan_id(1), AREA, usage="Closed"), True),
    ("which is closed", put("alfa", plan_id(1), AREA, usage="Closed"), False),
    ("and closed once more", delete("alfa", plan_id(1)), True),
    ("a clear", clear("alfa", over(["04"])), True),
    ("of nothing", clear("alfa", over(["04"])), False),
    ("no request of the desk", request("PATCH", "/status", "alfa"), False),
]


def test_changes(room: pathlib.Path, rows: Rows) -> None:
    """How many requests made a change is told, by what each of them asks and is answered."""
    heard = asked(room / "kinds.db", MOMENT, [it[1] for it in KINDS], *WORDS)
    for at in range(len(KINDS)):
        changes = sum(it[2] for it in KINDS[: at + 1])
        played = replayed([*beginning(1, OPERATORS), *exchanges(heard[: at + 1])])
        rows.equal(KINDS[at][0], alike(at + 1, changes), played)


def test_change_asked_again(heard: list[Heard], rows: Rows) -> None:
    """A change that a request without an answer makes counts once, whatever the request is answered again."""
    first = [*beginning(1, OPERATORS), *exchanges(heard[:2])]
    pending = entry("request", MOMENT, clear("alfa", over(["04"])))
    for count in (0, 1):
        told = entry("answer", MOMENT, cleared(count))
        rows.equal(f"cleared {count}", alike(3, 2), replayed([*first, pending, *beginning(2), pending, told]))


BEGUN = beginning(1, OPERATORS)
STATUS = request("GET", "/status", "alfa")
# entries that no record has at their place
MISPLACED = [
    ("an operator before any record", [], entry("operator", 1, b"alfa")),
    ("a request before any record", [], entry("request", MOMENT, STATUS)),
    ("a record of another version", [], entry("record", 1, b"2")),
    ("a record of no version", [], entry("record", 1)),
    ("an answer to nothing", BEGUN, entry("answer", MOMENT, b"")),
    ("a priority too great", BEGUN, entry("permitted", 1001)),
    ("a priority with bytes", BEGUN, entry("permitted", 1, b"1")),
    ("priorities that descend", [*BEGUN, entry("permitted", 10)], entry("permitted", 9)),
    ("no spans", BEGUN, entry("spans", 0)),
    ("too many spans", BEGUN, entry("spans", 5000001)),
    ("no cells", BEGUN, entry("cells", 0)),
    ("too many cells", BEGUN, entry("cells", 5000001)),
    ("cells with bytes", BEGUN, entry("cells", 1, b"1")),
    ("an operator's name in upper case", BEGUN, entry("operator", 1, b"Alfa")),
    ("an operator without a name", BEGUN, entry("operator", 1)),
    ("a ceiling too great", BEGUN, entry("operator", 1001, b"alfa")),
    ("a second too late", BEGUN, entry("request", 253370764801, STATUS)),
]


@pytest.mark.quick_each(7)
@pytest.mark.parametrize("before, one", named(MISPLACED))
def test_misplaced(before: list[bytes], one: bytes) -> None:
    """What no record has there."""
    assert replayed([*before, one]) == stopped(before, 0, OUT_OF_PLACE, "no_record")


def test_misplaced_answer(heard: list[Heard], rows: Rows) -> None:
    """Answers of another second, and requests in the place of an answer."""
    asking = [*BEGUN, entry("request", heard[0].second, heard[0].request)]
    for name, one in (
        ("the answer of another second", entry("answer", heard[0].second + 1, heard[0].answer)),
        ("another request", entry("request", heard[1].second, heard[1].request)),
        ("the same request", asking[-1]),
    ):
        rows.equal(name, stopped(asking, 1, OUT_OF_PLACE, "no_record"), replayed([*asking, one]))


# words that are a word of no entry, or numbers that are none, with sums that fit
ODD = [("another word", b"requests "), ("a word in upper case", b"REQUEST  "), ("a word that is blank", b"         ")]


@pytest.mark.parametrize("word", named(ODD))
def test_no_word(word: bytes) -> None:
    """A line with the sum that fits it, and a word that no entry has."""
    assert replayed([entry(word.decode(), 1)]) == stopped([], 0, NO_ENTRY, "no_record")


@pytest.mark.quick_each(3)
@pytest.mark.parametrize(
    "words",
    named(
        [
            ("no database", ["replay"]),
            ("a second before 1970", ["replay", "--db", ":memory:", "--until", "-1"]),
            ("a second too late", ["replay", "--db", ":memory:", "--until", "253370764801"]),
            ("no number", ["replay", "--db", ":memory:", "--until", "x"]),
            ("two seconds", ["replay", "--db", ":memory:", "--until", "1", "--until", "2"]),
            ("an operator", ["replay", "--db", ":memory:", "alfa=1"]),
        ]
    ),
)
def test_line_that_clap_refuses(words: list[str]) -> None:
    """The status of words that are no line."""
    ran = run(*words)
    assert (ran.status, ran.output, ran.errors != "") == (2, b"", True)


def test_refused_files(room: pathlib.Path, whole: list[bytes], rows: Rows) -> None:
    """At a file that can't be opened nothing is played, and the cause is told."""
    file = room / "text.db"
    file.write_text("no database\n")
    errors = f"uss_desk: {file}: no SQLite database\nuss_desk: store\n"
    rows.equal("no database", Ran(4, b"", errors), replayed(whole, file=str(file)))
    there = room / "no" / "desk.db"
    errors = f"uss_desk: {there}: no such folder\nuss_desk: store\n"
    rows.equal("no folder", Ran(4, b"", errors), replayed(whole, file=str(there)))


def test_full_output(whole: list[bytes]) -> None:
    """The line that can't be written; all is played."""
    with open("/dev/full", "wb") as full:
        ran = run("replay", "--db", ":memory:", given=b"".join(whole), stdout=full.fileno())
    assert (ran.status, ran.errors) == (4, "uss_desk: write\n")


def test_input_that_cannot_be_read() -> None:
    """A folder is no record."""
    place = os.open("/", os.O_RDONLY)
    try:
        ran = run("replay", "--db", ":memory:", stdin=place)
    finally:
        os.close(place)
    assert (ran.status, ran.errors) == (3, "uss_desk: request 0, at byte 0: a read failed\nuss_desk: read\n")


def test_into_a_file_that_holds_more(room: pathlib.Path, whole: list[bytes], heard: list[Heard]) -> None:
    """A record that is played twice at one file differs at its first change of what is there."""
    file = room / "twice.db"
    assert replayed(whole, file=str(file)) == alike(COUNT, CHANGES)
    again = replayed(whole, file=str(file))
    assert (again.status, again.output, again.errors.splitlines()[-1]) == (3, b"", "uss_desk: differs")
