"""What is planned: by the SQL of docs/tables.md over a copy, and by tools/planned_now over the
copy and at a port."""

from __future__ import annotations

import os
import pathlib
import shutil
import signal
import subprocess
from collections.abc import Sequence

import pytest
from harness.places import TOOLS
from harness.printed import blocks, page, section
from harness.rows import Rows
from harness.serving import Served
from keeping.given import count_of, identity, made_file, run

pytestmark = pytest.mark.alone

NOW = 1780317000
"""12:30:00 of the day of the requests, between the two volumes of a plan of two, and within the others."""
HEADINGS = (
    "operator  plan                                  status      priority  air  from                 until"
    "                lowest  highest  volumes"
)
# What is planned at NOW: a closed plan and one that is over aren't. Altitudes are metres.
TABLE = f"""\
{HEADINGS}
bravo     {identity(1)}  OffNominal  0         yes  2026-06-01 12:00:00  2026-06-01 13:00:00  -5.0    100.5    1
alfa      {identity(2)}  Planned     10        no   2026-06-01 12:05:00  2026-06-01 13:00:00  200.0   300.0    2
alfa      {identity(1)}  OkToFly     10        yes  2026-06-01 12:10:00  2026-06-01 13:00:00  0.0     100.0    1
"""
# The same as the SQL prints it, in decimetres.
ROWS = f"""\
bravo|{identity(1)}|OffNominal|0|1|2026-06-01 12:00:00|2026-06-01 13:00:00|-50|1005|1
alfa|{identity(2)}|Planned|10|0|2026-06-01 12:05:00|2026-06-01 13:00:00|2000|3000|2
alfa|{identity(1)}|OkToFly|10|1|2026-06-01 12:10:00|2026-06-01 13:00:00|0|1000|1
"""
LOOK = [str(TOOLS / "planned_now"), "--at", str(NOW)]
NOBODY = "http://127.0.0.1:9"
"""A web proxy that isn't there."""


@pytest.mark.quick
def test_planned(rows: Rows, room: pathlib.Path) -> None:
    """A file is copied with its log, looked at, and served."""
    answers = made_file(room / "planned.db")
    rows.equal("requests that were taken", 7, answers.count('"planning_result":"Completed"'))
    copy = room / "copy"
    copy.mkdir()
    for name in room.glob("planned.db*"):
        shutil.copy2(name, copy)
    over_a_copy(rows, copy / "planned.db")
    at_a_port(rows, room / "planned.db")


def unread(words: Sequence[str]) -> tuple[int, bytes]:
    """How a command ends whose output nobody reads, and what it prints on standard error."""
    output, left = os.pipe()
    os.close(output)
    with subprocess.Popen(words, stdout=left, stderr=subprocess.PIPE) as process:
        os.close(left)
        _, errors = process.communicate(timeout=300)
    return process.returncode, errors


def over_a_copy(rows: Rows, copy: pathlib.Path) -> None:
    """By planned_now and by the SQL over a copy."""
    rows.equal("planned_now over a copy", TABLE, run([*LOOK, "--db", copy]))
    query = blocks(section(page("tables.md"), "## What is planned"), "sql")[0]
    text = query.replace("CAST(strftime('%s', 'now') AS INTEGER)", str(NOW))
    rows.equal("the SQL over a copy", ROWS, run(["sqlite3", copy, text]))
    rows.equal("how many there are", "2|5\n", count_of(copy))


def at_a_port(rows: Rows, file: pathlib.Path) -> None:
    """By planned_now at a port, for a reader that hangs up, and beside a web proxy that is named by the environment."""
    with Served("--db", str(file), connections=6) as desk:
        at = [*LOOK, "--port", str(desk.port)]
        rows.equal("planned_now at a port", TABLE, run([*at, "alfa", "bravo"]))
        rows.equal("beside a web proxy", TABLE, run(["env", f"http_proxy={NOBODY}", *at, "alfa", "bravo"]))
        rows.equal("to a reader that hangs up", (-signal.SIGPIPE, b""), unread([*at, "alfa"]))
        wanted = 'status 1: planned_now: carol: 403 {"error":"unknown_operator"}\n'
        rows.equal("an operator that isn't enrolled", wanted, run([*at, "carol"]))
        rows.equal("the desk's end", 0, desk.end().status)
        rows.equal("no desk", "status 1: planned_now: alfa: ", run([*at, "alfa"])[:29])


@pytest.mark.quick
def test_no_file(rows: Rows, room: pathlib.Path) -> None:
    """planned_now makes no file."""
    told = run([*LOOK, "--db", "no.db"], room)
    rows.equal("no file", "status 1: planned_now: no.db: no such file\n", told)
    rows.equal("and none is made", False, (room / "no.db").exists())
