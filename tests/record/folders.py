"""A folder of records and the desk's file beside it: what both hold, as docs/journal-format.md and sqlite3 have it."""

from __future__ import annotations

import contextlib
import pathlib
import re
import shutil
import sqlite3
import tempfile
from collections.abc import Sequence

from harness.program import Ran, run

from record.entries import Said, changes_in, count_played, entries_in

COUNTS = re.compile(rb"replayed (\d+) requests, (\d+) changes, all answers alike\n")


def recorded(folder: pathlib.Path) -> list[pathlib.Path]:
    """The records of a folder, in their order."""
    return sorted(folder.glob("*.record"))


def text_of(folder: pathlib.Path) -> bytes:
    """All records of a folder, one after the other."""
    return b"".join(it.read_bytes() for it in recorded(folder))


def said_in(folder: pathlib.Path) -> list[Said]:
    """What the entries of a folder's records say, of each record up to its last whole one."""
    return [it for record in recorded(folder) for it in entries_in(record.read_bytes())[0]]


def played(folder: pathlib.Path, file: pathlib.Path) -> Ran:
    """What comes of all records of a folder, played into a file."""
    return run("replay", "--db", str(file), given=text_of(folder))


def alike(count: int, changes: int) -> Ran:
    """All that was to be played is played."""
    return Ran(0, b"replayed %d requests, %d changes, all answers alike\n" % (count, changes), "")


def told_alike(said: Sequence[Said], ran: Ran) -> Ran:
    """What has to come of some entries. Where they leave open how many changes were made, it is what came, if that may
    be."""
    told, changes = COUNTS.fullmatch(ran.output), changes_in(said)
    count = int(told[2]) if told and int(told[2]) in changes else changes.start
    return alike(count_played(said), count)


def all_alike(folder: pathlib.Path, ran: Ran) -> Ran:
    """What has to come of all records of a folder, of which this came."""
    return told_alike(said_in(folder), ran)


def dump_of(file: pathlib.Path) -> list[str]:
    """The lines of sqlite3's dump, sorted, of a copy of a file and of its log: the desk may run, unasked."""
    with tempfile.TemporaryDirectory(prefix="desk-") as room:
        for name in (file, file.with_name(f"{file.name}-wal")):
            if name.exists():
                shutil.copy(name, room)
        with contextlib.closing(sqlite3.connect(pathlib.Path(room) / file.name)) as connection:
            return sorted(connection.iterdump())
