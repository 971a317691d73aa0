"""A file that is moved, removed or replaced under a desk: the next change is refused, told and not made; what was
answered before it is in the file that the desk had, wherever that is by then."""

from __future__ import annotations

import contextlib
import os
import pathlib
import shutil
import subprocess
from collections.abc import Callable

import pytest
from harness.program import DESK, Ran
from harness.requests import status
from harness.rows import Rows
from harness.serving import Served
from keeping.given import AT, TOMORROW, requests, run

pytestmark = pytest.mark.alone

FILE_GONE = "it was moved or removed while the desk ran"
LOG_GONE = "its log was moved or removed while the desk ran"
COMPLETED = '"planning_result":"Completed"'
STORE = b'{"error":"store"}'


def log_of(file: pathlib.Path) -> pathlib.Path:
    """The log of a file."""
    return file.with_name(f"{file.name}-wal")


def move_file(file: pathlib.Path, kept: pathlib.Path) -> None:
    """The file is moved, and its log stays."""
    file.rename(kept)


def move_both(file: pathlib.Path, kept: pathlib.Path) -> None:
    """The file is moved, and its log with it."""
    log_of(file).rename(log_of(kept))
    file.rename(kept)


def remove_file(file: pathlib.Path, kept: pathlib.Path) -> None:
    """The file is removed; a second name, of which the desk knows nothing, keeps what it holds."""
    kept.hardlink_to(file)
    file.unlink()


def replace_file(file: pathlib.Path, kept: pathlib.Path) -> None:
    """Another file is moved to its path, which has the bytes of the first."""
    other = file.with_name("other.db")
    shutil.copy(file, other)
    file.rename(kept)
    other.rename(file)


def remove_log(file: pathlib.Path, kept: pathlib.Path) -> None:
    """The log alone is removed."""
    log_of(file).unlink()
    kept.hardlink_to(file)


def replace_log(file: pathlib.Path, kept: pathlib.Path) -> None:
    """Another file is moved to the path of the log."""
    other = file.with_name("other.db-wal")
    shutil.copy(log_of(file), other)
    other.rename(log_of(file))
    kept.hardlink_to(file)


GONE = [
    pytest.param(move_file, FILE_GONE, id="moved"),
    pytest.param(move_both, FILE_GONE, id="moved with its log"),
    pytest.param(remove_file, FILE_GONE, id="removed"),
    pytest.param(replace_file, FILE_GONE, id="replaced by another file"),
    pytest.param(remove_log, LOG_GONE, id="its log removed"),
    pytest.param(replace_log, LOG_GONE, id="its log replaced"),
]


def given() -> list[bytes]:
    """Plans of alfa for tomorrow."""
    puts = [made.replace(b"2026-06-01", TOMORROW.encode()) for made in requests()]
    return [put for put in puts if put.startswith(b"PUT") and b"x-operator: alfa" in put]


def checked(file: pathlib.Path) -> str:
    """How many operators and plans `check` finds in a file and its log."""
    return ",".join(run([*DESK, "check", "--db", file]).split(",")[2:4])


def held_by(file: pathlib.Path) -> str:
    """How many it finds in a file alone."""
    only = file.with_name("only.db")
    shutil.copy(file, only)
    return checked(only)


def copy_removed(file: pathlib.Path, to: pathlib.Path) -> None:
    """Copies a file that was removed from the program that has it open."""
    for opened in pathlib.Path("/proc").glob("[0-9]*/fd/*"):
        with contextlib.suppress(OSError):
            if os.readlink(opened) == f"{file} (deleted)":
                shutil.copyfile(opened, to)


def told(file: pathlib.Path, text: str, word: str) -> str:
    """The lines on standard error."""
    return f"uss_desk: {file}: {text}\nuss_desk: {word}\n"


@pytest.mark.quick_each(6)
@pytest.mark.parametrize("gone, text", GONE)
def test_changed_after(
    rows: Rows, desk_file: pathlib.Path, gone: Callable[[pathlib.Path, pathlib.Path], None], text: str
) -> None:
    """What is read is answered; the next change is not made, and the desk ends."""
    kept = desk_file.with_name("kept.db")
    first, second = given()
    with Served("--db", str(desk_file)) as desk:
        rows.has("a change before it", COMPLETED, desk.ask(first).decode())
        gone(desk_file, kept)
        rows.has("a status after it", "Ready", desk.ask(status("alfa")).decode())
        answer = desk.ask(second)
        rows.equal("the next change", (b"HTTP/1.1 500 ", STORE), (answer[:13], answer[-len(STORE) :]))
        rows.equal("the end", Ran(4, b"", told(desk_file, text, "broken")), desk.end())
    rows.equal("the file that it had, alone", " 2 operators, 1 plans", held_by(kept))


@pytest.mark.parametrize("gone, text", GONE)
def test_nothing_after(
    rows: Rows, desk_file: pathlib.Path, gone: Callable[[pathlib.Path, pathlib.Path], None], text: str
) -> None:
    """No change comes any more: the end of the line tells it."""
    kept = desk_file.with_name("kept.db")
    with Served("--db", str(desk_file), connections=2) as desk:
        rows.has("a change before it", COMPLETED, desk.ask(given()[0]).decode())
        gone(desk_file, kept)
        rows.has("a status after it", "Ready", desk.ask(status("alfa")).decode())
        rows.equal("the end", Ran(4, b"", told(desk_file, text, "store")), desk.end())
    rows.equal("the file that it had, alone", " 2 operators, 1 plans", held_by(kept))


@pytest.mark.quick
def test_killed_after(rows: Rows, desk_file: pathlib.Path) -> None:
    """The desk is killed once the file was moved: nothing is made in its place, and it is whole once it is back."""
    kept = desk_file.with_name("kept.db")
    cause = told(desk_file, "its log is there without it: was it moved or removed while a desk ran?", "store")
    with Served("--db", str(desk_file)) as desk:
        rows.has("a change before it", COMPLETED, desk.ask(given()[0]).decode())
        move_file(desk_file, kept)
    for words in (["play", "--at", AT], ["check"], ["enrol", "alfa", "1"]):
        line = [*DESK, words[0], "--db", str(desk_file), *words[1:]]
        rows.equal(words[0], f"status 4: {cause}", run(line))
    rows.equal("and no file is made", False, desk_file.exists())
    kept.rename(desk_file)
    rows.equal("the file and its log", " 2 operators, 1 plans", checked(desk_file))


def test_killed_over_another(rows: Rows, desk_file: pathlib.Path) -> None:
    """The desk is killed once another desk's file was put in the place of its own: the log beside it is the first's,
    and each line refuses the two, until the log is moved to the file that it belongs to."""
    kept, other = desk_file.with_name("kept.db"), desk_file.with_name("other.db")
    run([*DESK, "enrol", "--db", other, "zulu", "1"])
    with Served("--db", str(desk_file)) as desk:
        rows.has("a change before it", COMPLETED, desk.ask(given()[0]).decode())
        desk_file.rename(kept)
        other.rename(desk_file)
    for words in (["play", "--at", AT], ["check"], ["enrol", "alfa", "1"]):
        line = [*DESK, words[0], "--db", str(desk_file), *words[1:]]
        rows.has(words[0], "the log of another file", run(line))
    log_of(desk_file).rename(log_of(kept))
    rows.equal("the file that was put there", " 1 operators, 0 plans", checked(desk_file))
    rows.equal("the first with its log", " 2 operators, 1 plans", checked(kept))


def test_put_back(rows: Rows, desk_file: pathlib.Path) -> None:
    """Both are moved away and put back before the next change: nothing is told, and all is kept."""
    kept = desk_file.with_name("kept.db")
    first, second = given()
    with Served("--db", str(desk_file), connections=2) as desk:
        rows.has("a change before it", COMPLETED, desk.ask(first).decode())
        move_both(desk_file, kept)
        move_both(kept, desk_file)
        rows.has("a change after it", COMPLETED, desk.ask(second).decode())
        rows.equal("the end", Ran(0, b"", ""), desk.end())
    rows.equal("the file", " 2 operators, 2 plans", held_by(desk_file))


@pytest.mark.quick
def test_by_a_link(rows: Rows, desk_file: pathlib.Path) -> None:
    """A file to which a link leads is held like any other; a link that leads elsewhere is told."""
    link, kept = desk_file.with_name("link.db"), desk_file.with_name("kept.db")
    link.symlink_to(desk_file)
    first, second = given()
    with Served("--db", str(link)) as desk:
        rows.has("a change", COMPLETED, desk.ask(first).decode())
        shutil.copy(desk_file, kept)
        link.unlink()
        link.symlink_to(kept)
        rows.equal("the next change", STORE, desk.ask(second)[-len(STORE) :])
        rows.equal("the end", Ran(4, b"", told(link, FILE_GONE, "broken")), desk.end())
    rows.equal("the file that it had", " 2 operators, 1 plans", held_by(desk_file))


def test_copied_while_it_runs(rows: Rows, desk_file: pathlib.Path) -> None:
    """Both are removed; what the desk has open is copied before it ends."""
    back = desk_file.with_name("back.db")
    with Served("--db", str(desk_file)) as desk:
        rows.has("a change before it", COMPLETED, desk.ask(given()[0]).decode())
        desk_file.unlink()
        log_of(desk_file).unlink()
        copy_removed(desk_file, back)
        copy_removed(log_of(desk_file), log_of(back))
    rows.equal("the copy and its log", " 2 operators, 1 plans", checked(back))


def test_played(rows: Rows, desk_file: pathlib.Path) -> None:
    """A line that reads its requests while the file is moved."""
    kept = desk_file.with_name("kept.db")
    words = [*DESK, "play", "--db", str(desk_file), "--at", AT]
    puts = [made for made in requests() if b"x-operator: alfa" in made]
    pipe = subprocess.PIPE
    with subprocess.Popen(words, stdin=pipe, stdout=pipe, stderr=pipe, bufsize=0) as desk:
        assert desk.stdin and desk.stdout and desk.stderr
        desk.stdin.write(puts[0])
        got = desk.stdout.read(1)
        desk_file.rename(kept)
        desk.stdin.write(puts[1])
        desk.stdin.close()
        got += desk.stdout.read()
        rows.equal("the answers", 1, got.count(COMPLETED.encode()))
        rows.equal("the last of them", STORE, got[-len(STORE) :])
        rows.equal("what is told", told(desk_file, FILE_GONE, "broken"), desk.stderr.read().decode())
    rows.equal("the status", 4, desk.returncode)
    rows.equal("the file that it had", " 2 operators, 1 plans", held_by(kept))
