"""Copies and openings that are killed at each call that writes, and copies for which there is no room."""

from __future__ import annotations

import os
import pathlib
import shutil

import pytest
from harness.program import run
from harness.tracing import killed_at, was_killed
from tables.files import bytes_of, made_file, names_beside, rows_of, stated_file
from tables.judging import REFUSED, assert_in_schema_2, assert_opened, copied, looked
from tables.statements import PACKED, PLAN

# calls that write, sync, remove and rename, and how often at least a copy, and an opening, makes each
CALLS = [
    ("pwrite64", 10, 5),
    ("ftruncate", 1, 1),
    ("fdatasync", 5, 3),
    ("fsync", 1, 1),
    ("unlink", 1, 0),
    ("unlinkat", 0, 0),
    ("rename", 1, 0),
    ("renameat", 0, 0),
    ("renameat2", 0, 0),
]
MOST = 1_000


def assert_whole_or_nothing(before: list[list[object]], path: str, new: str) -> None:
    """What a killed copy leaves of the new name: all rows, or nothing, and then the next copy makes the file, whatever
    is left beside it, and leaves nothing there."""
    if not os.path.exists(new):
        assert copied(path, new).status == 0
        assert names_beside(new) == {os.path.basename(new)}
    assert_in_schema_2(before, new)


@pytest.mark.quick_each(9)
@pytest.mark.parametrize("call, least", [pytest.param(call, least, id=call) for call, least, _ in CALLS])
def test_copy_killed(call: str, least: int, room: pathlib.Path) -> None:
    """A copy that is killed at each of these calls: no file of the new name, or the whole of it; the file keeps its
    rows, and what is left beside the new name keeps no later copy from it."""
    path = made_file(str(room / "desk.db"), PLAN)
    before = rows_of(path)
    for number in range(1, MOST):
        new = f"{path}.{number}"
        ran = run("copy", "--db", path, "--to", new, under=killed_at(call, number))
        assert_whole_or_nothing(before, path, new)
        assert rows_of(path) == before
        if not was_killed(ran.status):
            break
    assert ran.status == 0
    assert number - 1 >= least


@pytest.mark.parametrize("call, least", [pytest.param(call, least, id=call) for call, _, least in CALLS])
def test_packed_opening_killed(call: str, least: int, room: pathlib.Path) -> None:
    """A packed file, the opening of which is killed at each of these calls: its rows stay, and it opens afterwards."""
    path = stated_file(str(room / "packed.db"), [*PACKED, *PLAN])
    before = rows_of(path)
    for number in range(1, MOST):
        new = f"{path}.{number}"
        shutil.copyfile(path, new)
        ran = run("play", "--db", new, "--at", "0", under=killed_at(call, number))
        assert looked(new).status == 0
        assert rows_of(new) == before
        assert_opened(new)
        if not was_killed(ran.status):
            break
    assert ran.status == 0
    assert number - 1 >= least


@pytest.mark.quick
def test_copy_without_room(room: pathlib.Path) -> None:
    """A copy that fails in its midst, as each file may have so many bytes alone: the source is the same, byte for byte,
    and nothing is left beside it but its own log; with room for the whole it succeeds."""
    path = made_file(str(room / "desk.db"), PLAN)
    before, new = bytes_of(path), path + ".new"
    beside = {os.path.basename(path), os.path.basename(path) + "-wal"}
    fails = 0
    for limit in range(1024, 1024 * 1024, 3072):
        ran = run(
            "copy", "--db", path, "--to", new, under=["prlimit", f"--fsize={limit}", "env", "--ignore-signal=XFSZ"]
        )
        assert bytes_of(path) == before
        if ran.status == 0:
            break
        assert (ran.status, ran.output) == (REFUSED, b"")
        assert ran.errors.endswith("uss_desk: store\n")
        assert names_beside(path) <= beside
        fails += 1
    assert ran.status == 0
    assert fails > 5
    assert looked(new).status == 0
