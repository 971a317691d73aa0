"""Lines of `enrol` and of `play` with `--record`: what they write down, and what they do without it all the same."""

from __future__ import annotations

import pathlib
import uuid

import pytest
from harness.program import Ran, run
from harness.requests import answers, delete, list_plans, over, put
from harness.rows import Rows

from record.entries import Heard, beginning, entry, exchanges
from record.folders import dump_of, played, recorded

SECOND = 1_780_315_000
REQUESTS = [
    put("alfa", uuid.UUID(int=1), [over(["1"])]),
    put("bravo", uuid.UUID(int=2), [over(["1"])]),
    list_plans("alfa"),
    delete("alfa", uuid.UUID(int=1)),
]
INPUTS = {
    "requests": b"".join(REQUESTS),
    "nothing": b"",
    "cut short": b"".join(REQUESTS)[:-1],
    "unframed": REQUESTS[0] + b"no request\r\n\r\n" + REQUESTS[2],
}


def enrol(file: pathlib.Path, folder: pathlib.Path, name: str, ceiling: int) -> Ran:
    """A line of `enrol` that is recorded."""
    return run("enrol", "--db", str(file), "--record", str(folder), name, str(ceiling))


def words_of(file: pathlib.Path | None, folder: pathlib.Path | None = None) -> list[str]:
    """The words of a line of `play`, over a file or in memory, recorded or not."""
    kept = ["--record", str(folder)] if folder else []
    database = ["--db", str(file)] if file else []
    return ["play", *database, *kept, "--at", str(SECOND), "--equal", "7", "alfa=100", "bravo=7"]


def test_enrol(room: pathlib.Path, rows: Rows) -> None:
    """Each enrolment begins a record, which ends with it; an operator has its last ceiling."""
    file, folder = room / "desk.db", room / "records"
    folder.mkdir()
    given = [("alfa", 100), ("bravo", 7), ("alfa", 50)]
    for name, ceiling in given:
        ran = enrol(file, folder, name, ceiling)
        rows.equal(f"{name} {ceiling}", (0, f"enrolled {name} {ceiling}\n".encode()), ran[:2])
    held = [given[:1], given[:2], [*given[:2], given[2]]]
    for number, (record, operators) in enumerate(zip(recorded(folder), held), 1):
        rows.equal(f"record {number}", b"".join(beginning(number, operators)), record.read_bytes())
    rows.equal("alike", 0, played(folder, room / "new.db").status)
    rows.equal("the rows", dump_of(file), dump_of(room / "new.db"))


def test_enrol_unkept(room: pathlib.Path, rows: Rows) -> None:
    """Nobody is enrolled where that can't be recorded."""
    file = room / "desk.db"
    run("enrol", "--db", str(file), "alfa", "100")
    before = dump_of(file)
    ran = enrol(file, room / "none", "bravo", 7)
    rows.equal("no folder", (4, b"", "uss_desk: write\n"), (ran.status, ran.output, ran.errors[-16:]))
    rows.equal("nobody", before, dump_of(file))
    ran = run("enrol", "--db", ":memory:", "--record", str(room), "bravo", "7")
    rows.equal("no file", (4, "uss_desk: store\n"), (ran.status, ran.errors[-16:]))


def test_enrol_after_a_kill(room: pathlib.Path, rows: Rows) -> None:
    """What a record left undone is done before the enrolment: an operator is listed, or a request asked again."""
    request = entry("request", SECOND, put("alfa", uuid.UUID(int=1), [over(["04"])]))
    for name, left, operators, count in (
        ("an operator", entry("operator", 7, b"bravo"), [("alfa", 100), ("bravo", 7), ("carol", 9)], 2),
        ("a request", request, [("alfa", 100), ("carol", 9)], 3),
    ):
        file, folder = room / f"{name}.db", room / name
        folder.mkdir()
        enrol(file, folder, "alfa", 100)
        first = recorded(folder)[0]
        first.write_bytes(first.read_bytes() + left)
        rows.equal(f"{name}: enrolled", 0, enrol(file, folder, "carol", 9).status)
        numbers = [int(it.name[:10]) for it in recorded(folder)]
        rows.equal(f"{name}: records", list(range(1, count + 1)), numbers)
        rows.equal(f"{name}: the last", b"".join(beginning(count, operators)), recorded(folder)[-1].read_bytes())
        rows.equal(f"{name}: alike", 0, played(folder, room / f"{name} played.db").status)
        rows.equal(f"{name}: the rows", dump_of(file), dump_of(room / f"{name} played.db"))


@pytest.mark.quick
def test_play(room: pathlib.Path, rows: Rows) -> None:
    """A line of `play` prints and ends as it does without a record, which has its requests and answers."""
    for name, given in INPUTS.items():
        for place in ("file", "memory"):
            folder = room / f"{name} {place}"
            folder.mkdir()
            file, other = (room / f"{name}.db", room / f"{name} other.db") if place == "file" else (None, None)
            bare = run(*words_of(other), given=given)
            kept = run(*words_of(file, folder), given=given)
            rows.equal(f"{name}, {place}", bare, kept)
            if name == "requests":
                heard = [
                    Heard(SECOND, request, answer.whole) for request, answer in zip(REQUESTS, answers(kept.output))
                ]
                wanted = [*beginning(1, [("alfa", 100), ("bravo", 7)], [7]), *exchanges(heard)]
                rows.equal(f"{name}, {place}: the record", b"".join(wanted), recorded(folder)[0].read_bytes())
            rows.equal(f"{name}, {place}: alike", 0, played(folder, room / f"{name} {place}.db").status)


def test_play_goes_on(room: pathlib.Path, rows: Rows) -> None:
    """A line of `play` over a file asks again what a record left; one in memory wants a folder without records."""
    file, folder = room / "desk.db", room / "records"
    folder.mkdir()
    run(*words_of(file, folder), given=REQUESTS[0])
    first = recorded(folder)[0]
    first.write_bytes(first.read_bytes() + entry("request", SECOND + 5, REQUESTS[3]))
    rows.equal("goes on", 0, run(*words_of(file, folder), given=REQUESTS[1]).status)
    rows.equal("three records", 3, len(recorded(folder)))
    rows.equal("alike", 0, played(folder, room / "new.db").status)
    rows.equal("the rows", dump_of(file), dump_of(room / "new.db"))
    ran = run(*words_of(None, folder), given=REQUESTS[0])
    rows.equal("in memory", (4, b"", "uss_desk: write\n"), (ran.status, ran.output, ran.errors[-16:]))
