"""A kill, a failure of the disk and a full disk at each write and each sync of the program, over a new file."""

import functools
import pathlib
import tempfile
from collections.abc import Iterator
from typing import Any

import pytest
from faults.conftest import Note
from faults.judging import kind_of
from faults.lines import LINES
from harness.rows import Rows

CALLS = {
    "without a journal": {"pwrite64": 1, "fdatasync": 1, "fsync": 1, "ftruncate": 1},
    "with a journal": {"write": 1, "fdatasync": 1, "fsync": 1, "rename": 1, "pwrite64": 4, "ftruncate": 1},
}
"""The calls at which a line is stopped, each time or every so many times."""
FAULTS = {
    "killed": "signal=SIGKILL:when={}",
    "failing disk": "error=EIO:when={}",
    "full disk": "error=ENOSPC:when={}+",
}
"""The name of a fault, and how strace does it at the Kth call. A full disk stays full."""
QUICK = ("without a journal", "fsync", "killed")


def stops() -> Iterator[Any]:
    """Each line, call and fault. (test_full_disk has disks that are full under a journal.)"""
    for journal, calls in CALLS.items():
        for call in calls:
            for fault in FAULTS if journal == "without a journal" else ("killed", "failing disk"):
                marks = [pytest.mark.quick] if (journal, call, fault) == QUICK else []
                yield pytest.param(journal, call, fault, id=f"{journal}, {fault} at {call}", marks=marks)


@functools.cache
def count_calls(journal: str, call: str) -> int:
    """How many such calls an undisturbed run makes."""
    with tempfile.TemporaryDirectory(prefix="faults-") as room:
        ran = LINES[journal].run(pathlib.Path(room), ["-e", f"trace={call}"])
    assert ran.status == 0, ran
    return len(ran.trace)


@pytest.mark.slow
@pytest.mark.parametrize("journal, call, fault", stops())
def test_stopped(rows: Rows, note: Note, journal: str, call: str, fault: str) -> None:
    """What is left is what was answered, and one call more at most."""
    line = LINES[journal]
    for number in range(1, count_calls(journal, call) + 1, CALLS[journal][call]):
        options = ["-e", f"trace={call}", "-e", f"inject={call}:{FAULTS[fault].format(number)}"]
        with tempfile.TemporaryDirectory(prefix="faults-") as folder:
            ran = line.run(pathlib.Path(folder), options)
            complaint = line.wrong(pathlib.Path(folder), ran, fault == "killed")
        rows.equal(f"{fault} at {call} {number}", None, complaint)
        note(f"{journal}, stops at writes and syncs: {kind_of(ran)}")
