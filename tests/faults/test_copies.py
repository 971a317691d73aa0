"""A disk that gets full while a file is copied: the file stands, byte for byte, and its log too; of the new one nothing
is left, or all is there."""

import os
import pathlib
import random
import shutil
import subprocess
import tempfile
import threading
from collections.abc import Sequence
from typing import NamedTuple

import pytest
from faults.conftest import Note
from faults.judging import wrong_content
from faults.load import Content, load, reading_of
from faults.program import PROGRAM, Ran, finish, play_words
from faults.scenario import OPERATORS
from harness.mounting import SmallDisk

REQUESTS = 600
# KB that are free beside the file and its log, in steps of six pages
ROOM = range(0, 768, 24)
SOURCES = ("desk.db", "desk.db-wal")


def leave(path: str) -> Content:
    """A file with the log that a killed `play` left, and what both hold."""
    requests, answers, contents = load(random.Random("copied"), {}, REQUESTS)
    line = [PROGRAM, *play_words(path, OPERATORS)]
    given, giving = os.pipe()
    with subprocess.Popen(line, stdin=given, stdout=subprocess.PIPE, stderr=subprocess.DEVNULL) as desk:
        os.close(given)
        assert desk.stdout
        giver = threading.Thread(target=os.write, args=(giving, requests))
        giver.start()
        desk.stdout.read(len(b"".join(answers)))
        desk.kill()
        giver.join()
    os.close(giving)
    return contents[-1]


def wrong_copy(ran: Ran, left: pathlib.Path, plans: int) -> str | None:
    """A copy that failed has said so and made nothing; another is whole, and alone."""
    names = sorted(file.name for file in left.iterdir())
    if ran.status == 0:
        said = ran.output == f"copied {len(OPERATORS)} operators, {plans} plans\n".encode() and not ran.errors
        is_right = said and names == ["copy.db", *SOURCES]
        return None if is_right else f"status 0, {ran.output!r}, {ran.errors!r}, {names}"
    if (ran.status, ran.output) != (4, b"") or not ran.errors.endswith("uss_desk: store\n"):
        return f"status {ran.status}: {ran.output!r}, {ran.errors!r}"
    return None if names == list(SOURCES) else f"what is left is {names}"


class Source(NamedTuple):
    """A file and its log, by their names, and what both hold."""

    files: dict[str, bytes]
    content: Content


@pytest.fixture(scope="module")
def source() -> Source:
    """A file with a log that has something."""
    with tempfile.TemporaryDirectory(prefix="faults-") as folder:
        content = leave(f"{folder}/desk.db")
        files = {name: (pathlib.Path(folder) / name).read_bytes() for name in SOURCES}
    return Source(files, content)


def copy_in(apart: Sequence[str], place: pathlib.Path, source: Source, room: int) -> Ran:
    """How a copy ended on a disk that has so many KB of room; what is left is in the folder `left`."""
    for name in ("disk", "left"):
        (place / name).mkdir()
    size = sum(-(-len(data) // 4096) * 4 for data in source.files.values()) + room
    with SmallDisk(apart, place / "disk", size) as disk:
        for name, data in source.files.items():
            (disk.seen / name).write_bytes(data)
        words = ["copy", "--db", str(place / "disk" / "desk.db"), "--to", str(place / "disk" / "copy.db")]
        ran = finish([*disk.under, PROGRAM, *words], b"")
        for path in disk.seen.iterdir():
            shutil.copy(path, place / "left")
    return ran


def test_log_of_the_file(source: Source) -> None:
    """Something is in the log alone."""
    assert len(source.files["desk.db-wal"]) > 4096


@pytest.mark.proved
@pytest.mark.slow
@pytest.mark.parametrize("kilobytes", ROOM, ids="{} KB of room".format)
def test_copy(note: Note, room: pathlib.Path, apart: list[str], source: Source, kilobytes: int) -> None:
    """A file that is copied to a disk that gets full stands, and the copy is whole or isn't there."""
    ran = copy_in(apart, room, source, kilobytes)
    left = room / "left"
    found = {file.name: file.read_bytes() for file in left.iterdir()}
    assert [name for name, data in source.files.items() if found.get(name) != data] == [], "changed"
    assert wrong_copy(ran, left, len(source.content)) is None
    if ran.status == 0:
        assert wrong_content(str(left / "copy.db"), [reading_of(source.content)]) is None
    note("copies to full disks: sizes")
    note("copies to full disks: " + ("failed" if ran.status else "whole"))


@pytest.mark.parametrize("kilobytes, status", [(ROOM[0], 4), (ROOM[-1], 0)], ids=["failed", "whole"])
def test_either_end(room: pathlib.Path, apart: list[str], source: Source, kilobytes: int, status: int) -> None:
    """With the least room a copy fails, and with the most it doesn't."""
    assert copy_in(apart, room, source, kilobytes).status == status
