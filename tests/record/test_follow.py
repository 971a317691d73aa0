"""What tools/follow prints of a folder's records: whole entries alone, in their order, over a start of the desk."""

from __future__ import annotations

import pathlib
import sqlite3
import subprocess

import pytest
from harness.places import TOOLS
from harness.ports import until
from harness.program import DESK, Ran, command
from harness.rows import Rows
from harness.serving import Served

from record.entries import beginning, entry
from record.folders import all_alike, dump_of, recorded
from record.layers import PLANNED, planned

FOLLOW = str(TOOLS / "follow")
TORN = entry("request", 1, planned(9))[:100]
"""What a crash may leave of an entry."""


def count_plans(file: pathlib.Path) -> int:
    """How many plans a file has, that of a desk that runs too; none while it is being made or written to."""
    try:
        return sum(line.startswith('INSERT INTO "plan"') for line in dump_of(file)) if file.exists() else 0
    except sqlite3.DatabaseError:
        return 0


def test_follow(room: pathlib.Path, rows: Rows) -> None:
    """A second desk follows the first over a kill, what that left of an entry, and a start."""
    file, folder, second = room / "desk.db", room / "records", room / "second.db"
    folder.mkdir()
    words = ["--db", str(file), "--record", str(folder), "alfa=100"]
    with subprocess.Popen([FOLLOW, str(folder)], stdout=subprocess.PIPE) as follow:
        standby = subprocess.Popen(
            [*DESK, "replay", "--db", str(second)],
            stdin=follow.stdout,
            stdout=subprocess.PIPE,
            stderr=subprocess.PIPE,
            text=True,
        )
        with Served(*words) as desk:
            rows.equal("at first", [PLANNED] * 3, [desk.ask(planned(number)) for number in (1, 2, 3)])
            until("the first plans", lambda: count_plans(second) == 3)
            desk.kill()
        with recorded(folder)[0].open("ab") as record:
            record.write(TORN)
        with Served(*words, connections=2) as desk:
            rows.equal("after a start", [PLANNED] * 2, [desk.ask(planned(number)) for number in (4, 5)])
            desk.end()
        until("all plans", lambda: count_plans(second) == 5)
        follow.terminate()
        output, errors = standby.communicate()
    ran = Ran(standby.returncode, output.encode(), errors)
    rows.equal("it ends", all_alike(folder, ran), ran)
    rows.equal("equal tables", dump_of(file), dump_of(second))


@pytest.mark.quick
def test_one_lacks(room: pathlib.Path) -> None:
    """A record that lacks is told, once the ones before are printed."""
    for number in (1, 3):
        (room / f"{number:010}-1.record").write_bytes(b"".join(beginning(number)))
    wanted = Ran(1, b"".join(beginning(1)), f"follow: {room}: record 2 lacks\n")
    assert command([FOLLOW, str(room)]) == wanted
