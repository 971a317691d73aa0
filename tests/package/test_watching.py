"""What an administrator watches: desk_metrics over logs of known lines, and the alerts."""

from __future__ import annotations

import os
import pathlib
import re

import pytest
from harness.places import DEPLOY, TESTS, TOOLS
from harness.printed import page
from harness.program import PROGRAM
from harness.requests import delete, put, volume
from harness.rows import Rows, named
from package.commands import promtool, run

pytestmark = pytest.mark.alone

METRICS = str(TOOLS / "desk_metrics")
LONG_LOG = 200_000
"""Lines, so that reading all of them takes several times what the command takes beside."""
# Eight fields of each line.
LINES = """\
2026-06-01T12:00:00+00:00\t127.0.0.1\talfa\tPUT\t/flight_plans/11111111-1111-4111-8111-111111111111\t200\t0.004\t76
2026-06-01T12:00:01+00:00\t127.0.0.1\talfa\tPUT\t/flight_plans/11111111-1111-4111-8111-111111111112\t200\t0.300\t76
2026-06-01T12:00:02+00:00\t127.0.0.1\t-\tGET\t/flight_plans\t401\t0.000\t24
2026-06-01T12:00:03+00:00\t127.0.0.1\tbravo\tGET\t/a"b\\x09\t404\t0.001\t20
2026-06-01T12:00:04+00:00\t127.0.0.1\tbravo\tDELETE\t/flight_plans/11111111-1111-4111-8111-111111111111\t502\t61.5\t23
no line of the proxy's
"""
# What they come to, among others.
TOLD = """\
uss_desk_requests_total{operator="-",method="GET",path="/flight_plans",status="401"} 1
uss_desk_requests_total{operator="alfa",method="PUT",path="/flight_plans/{id}",status="200"} 2
uss_desk_requests_total{operator="bravo",method="DELETE",path="/flight_plans/{id}",status="502"} 1
uss_desk_requests_total{operator="bravo",method="GET",path="other",status="404"} 1
uss_desk_answers_total{status="500"} 0
uss_desk_answers_total{status="502"} 1
uss_desk_request_seconds_bucket{method="PUT",path="/flight_plans/{id}",le="0.005"} 1
uss_desk_request_seconds_bucket{method="PUT",path="/flight_plans/{id}",le="0.25"} 1
uss_desk_request_seconds_bucket{method="PUT",path="/flight_plans/{id}",le="0.5"} 2
uss_desk_request_seconds_bucket{method="PUT",path="/flight_plans/{id}",le="+Inf"} 2
uss_desk_request_seconds_sum{method="PUT",path="/flight_plans/{id}"} 0.304
uss_desk_request_seconds_bucket{method="DELETE",path="/flight_plans/{id}",le="60"} 0
uss_desk_request_seconds_count{method="DELETE",path="/flight_plans/{id}"} 1
uss_desk_unread_lines 1
"""


def told_of(log: pathlib.Path, *words: str) -> str:
    """What desk_metrics prints of a log, with the operators' names."""
    return run([METRICS, "--names", "--access-log", str(log), *words])


@pytest.mark.quick
@pytest.mark.parametrize(
    "text", [LINES, re.sub(r"(\d)\n", r"\1\t-\t-\n", LINES)], ids=["of eight fields", "with further fields"]
)
def test_log(rows: Rows, room: pathlib.Path, text: str) -> None:
    """Lines of a log, of the former kind and with further fields."""
    (room / "access.log").write_text(text)
    told = told_of(room / "access.log")
    rows.equal(
        "what it comes to", TOLD.splitlines(), [line for line in TOLD.splitlines() if line in told.splitlines()]
    )
    rows.equal("promtool", "", promtool(told))


@pytest.mark.quick
def test_empty_log(room: pathlib.Path) -> None:
    """Of nothing there are none."""
    (room / "access.log").write_text("")
    assert 'uss_desk_answers_total{status="500"} 0\n' in told_of(room / "access.log")


@pytest.mark.quick
def test_no_names(room: pathlib.Path) -> None:
    """Operators aren't told apart unless that is asked for."""
    (room / "access.log").write_text(LINES)
    told = run([METRICS, "--access-log", str(room / "access.log")])
    assert ("alfa" in told, 'total{method="PUT",path="/flight_plans/{id}",status="200"} 2\n' in told) == (False, True)


@pytest.mark.quick
def test_no_log(rows: Rows, room: pathlib.Path) -> None:
    """A part that can't be read is told, and the others are printed all the same."""
    (room / "desk.db").write_bytes(bytes(5000))
    words = ["--file", str(room / "desk.db"), "--unit-state", str(room / "none"), "--to", str(room / "told")]
    said = told_of(room / "none", *words)
    told = (room / "told").read_text()
    rows.holds("the exit status", said.endswith("status 1\n"))
    rows.has("the log", '\nuss_desk_part_read{part="log"} 0\n', told)
    rows.has("the unit", '\nuss_desk_part_read{part="unit"} 0\n', told)
    rows.has("the file", '\nuss_desk_part_read{part="file"} 1\n', told)
    rows.has("its size", "\nuss_desk_file_bytes 5000\n", told)
    rows.has("no copy", "\nuss_desk_copy_named 0\n", told)
    rows.equal("promtool", "", promtool(told))


def count_of(told: str) -> int:
    """How many PUTs of alfa's are told."""
    found = re.search(r'requests_total{operator="alfa",method="PUT",.* (\d+)', told)
    return int(found[1]) if found else 0


def processor() -> float:
    """Seconds of the processor that commands have taken."""
    return os.times().children_user


def test_reading_on(rows: Rows, room: pathlib.Path) -> None:
    """Of a long log only what is new is read, over a rotation too."""
    log, words = room / "access.log", ["--state", str(room / "state")]
    line = LINES.splitlines(True)[0]
    log.write_text(line * LONG_LOG)
    begun = processor()
    rows.equal("all of it", LONG_LOG, count_of(told_of(log, *words)))
    whole = processor() - begun
    with log.open("a") as more:
        more.write(line + line[:20])
    begun = processor()
    rows.equal("a line more, and a part of one", LONG_LOG + 1, count_of(told_of(log, *words)))
    seconds = processor() - begun
    rows.holds(f"{seconds:.2f} s of the processor, and {whole:.2f} s before", seconds < whole / 2)
    with log.open("a") as more:
        more.write(line[20:] + line)
    log.rename(room / "access.log.1")
    log.write_text(line * 3)
    rows.equal("over a rotation", LONG_LOG + 6, count_of(told_of(log, *words)))
    rows.equal("nothing new", LONG_LOG + 6, count_of(told_of(log, *words)))
    (room / "state").write_text("{")
    rows.equal("a state that can't be read", 3, count_of(told_of(log, *words)))


def test_links(rows: Rows, room: pathlib.Path) -> None:
    """It writes through no link, whoever put it there."""
    log, secret = room / "access.log", room / "secret"
    log.write_text(LINES)
    secret.write_text("secret\n")
    secret.chmod(0o600)
    for name in ("told.part", "told", "state.part"):
        (room / name).symlink_to(secret)
    told_of(log, "--to", str(room / "told"), "--state", str(room / "state"))
    rows.equal("what a link led to", ("secret\n", 0o600), (secret.read_text(), secret.stat().st_mode & 0o777))
    for name, mode in (("told", 0o644), ("state", 0o600)):
        path = room / name
        rows.equal(f"{name} is a file", (False, mode), (path.is_symlink(), path.stat().st_mode & 0o777))


def test_records_and_room(rows: Rows, room: pathlib.Path) -> None:
    """The size of the records, and what is free where they lie."""
    (room / "records").mkdir()
    for number, size in enumerate((1000, 234)):
        (room / "records" / f"000000000{number}-x.record").write_bytes(bytes(size))
    told = run([METRICS, "--records", str(room / "records")])
    rows.has("bytes", "\nuss_desk_journal_bytes 1234\n", told)
    rows.has("files", "\nuss_desk_journal_files 2\n", told)
    found = os.statvfs(room)
    rows.has("the disk", f'\nuss_desk_room_bytes{{of="records"}} {found.f_blocks * found.f_frsize}\n', told)
    rows.holds("what is free of it", re.search(r'\nuss_desk_free_bytes\{of="records"\} \d+\n', told))
    for name, option in (("file", "--file"), ("log", "--access-log")):
        told = run([METRICS, option, str(room / "lacking")])
        rows.holds(f"what is free for the {name}", re.search(rf'\nuss_desk_free_bytes\{{of="{name}"\}} \d+\n', told))


CHECKS = [
    ("memory", "echo 'uss_desk: memory' >&2; exit 4", False),
    ("ended by the kernel", "kill -KILL $$", False),
    ("a full disk", "printf 'uss_desk: copy.db: a full disk\\nuss_desk: store\\n' >&2; exit 4", False),
    ("a damaged page", "printf 'uss_desk: copy.db: a damaged page\\nuss_desk: store\\n' >&2; exit 4", True),
    ("a damaged log", "echo 'uss_desk: damaged_log' >&2; exit 4", True),
]
"""What `check` says and how it ends, and whether that says something of the copy."""


@pytest.mark.parametrize("script, is_of_copy", named(row for row in CHECKS))
def test_check(script: str, is_of_copy: bool, rows: Rows, room: pathlib.Path) -> None:
    """A check that can't look is told as that; one that refuses the copy as a copy that no desk opens."""
    program, copy = room / "program", room / "copy.db"
    program.write_text(f"#!/bin/sh\n{script}\n")
    program.chmod(0o755)
    copy.write_bytes(b"copy")
    told = run([METRICS, "--copy", str(copy), "--program", str(program)])
    rows.has("whether it was looked at", f"\nuss_desk_copy_checked {int(is_of_copy)}\n", told)
    rows.equal("whether it is called damaged", is_of_copy, "\nuss_desk_copy_intact 0\n" in told)
    rows.has("when it was made", f"\nuss_desk_copy_timestamp_seconds {int(copy.stat().st_mtime)}\n", told)


@pytest.mark.quick
@pytest.mark.parametrize(
    "how, file",
    [("check", DEPLOY / "desk_alerts.yml"), ("test", TESTS / "package" / "desk_alerts_test.yml")],
    ids=["check", "test"],
)
def test_alerts(how: str, file: pathlib.Path) -> None:
    """The alerts are read, and each comes when it should and not before."""
    told = run(["promtool", how, "rules", str(file)])
    assert ("SUCCESS" in told, "status" in told) == (True, False), told


@pytest.mark.quick
def test_alerts_of_the_page() -> None:
    """docs/monitoring.md names them."""
    named = re.findall(r"- alert: (\w+)", (DEPLOY / "desk_alerts.yml").read_text())
    assert re.findall(r"^\| `(Desk\w+)` \|", page("monitoring.md"), re.MULTILINE) == named


# What the copy below holds at half past twelve: alfa's plan is in the air, bravo's two cells begin later, and a plan of
# two cells is closed.
COPY = """\
uss_desk_copy_intact 1
uss_desk_operators 2
uss_desk_plans 3
uss_desk_plans_live 2
uss_desk_spans 3
uss_desk_most_cells 3
uss_desk_plans_in_air 1
uss_desk_most_spans{operator="bravo"} 2
"""
# operator, plan, the minutes after twelve at which it begins, its cells
PLANS = [("alfa", 1, 0, ["04"]), ("bravo", 1, 40, ["34", "9"]), ("alfa", 2, 50, ["7", "b"])]


def identity(number: int) -> str:
    """The id of a plan."""
    return f"11111111-1111-4111-8111-11111111111{number}"


@pytest.fixture
def copied(room: pathlib.Path) -> pathlib.Path:
    """A copy of a desk."""
    given = b"".join(
        put(operator, identity(plan), [volume({"cells": cells}, start=f"2026-06-01T12:{begin:02}:00Z")])
        for operator, plan, begin, cells in PLANS
    )
    path = room / "desk.db"
    words = [str(PROGRAM), "play", "--db", str(path), "--at", "1780315000", "alfa=100", "bravo=100"]
    run(words, given=(given + delete("alfa", identity(2))).decode())
    return path


def told_of_copy(path: pathlib.Path) -> str:
    """What desk_metrics tells of a copy."""
    words = ["--copy", str(path), "--file", str(path), "--program", str(PROGRAM), "--at", "1780317000", "--names"]
    return run([METRICS, *words])


def test_copy(rows: Rows, copied: pathlib.Path) -> None:
    """What is told of a copy."""
    told = told_of_copy(copied)
    rows.equal("what it holds", COPY.splitlines(), [line for line in COPY.splitlines() if line in told.splitlines()])
    rows.has("the size of a file", f"uss_desk_file_bytes {copied.stat().st_size}\n", told)
    rows.holds("seconds of an opening", re.search(r"^uss_desk_opening_seconds \d", told, re.MULTILINE))
    rows.equal("promtool", "", promtool(told))
    rows.equal(
        "what lies beside it", [copied], sorted(path for path in copied.parent.iterdir() if "wal" not in path.name)
    )


def test_copy_of_no_desk(copied: pathlib.Path) -> None:
    """A copy that is no desk's is told as that."""
    copied.write_bytes(b"no database" * 1000)
    told = told_of_copy(copied)
    assert ("uss_desk_copy_intact 0\n" in told, "uss_desk_plans" in told) == (True, False)
