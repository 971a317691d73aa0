"""Power that fails: what the disk has then is what was synced, and of what was written since any part.

One run of each line is recorded by strace, with the bytes of each write. For each moment of it the files are made as a
failure of power may leave them: without all that wasn't synced, and with sectors of it by chance.
"""

import functools
import pathlib
import tempfile

import pytest
from faults.conftest import Note
from faults.disk import CALLS, Disk, Moment, lay_out, moments
from faults.lines import LINES
from harness.rows import Rows

SHARES = 8


@functools.cache
def places(journal: str) -> list[Moment]:
    """The moments of one run, each once."""
    line = LINES[journal]
    with tempfile.TemporaryDirectory(prefix="faults-") as folder:
        room = pathlib.Path(folder)
        ran = line.run(room, ["-xx", "-s", "1000000", "-e", f"trace={CALLS}"])
    assert ran.status == 0, ran
    found: list[Moment] = []
    for is_ordered in line.orders:
        made = moments(Disk(room, *line.folders), ran.trace, line.by_chance, is_ordered)
        found += [it for it in made if it not in found]
    return found


@pytest.mark.proved
@pytest.mark.slow
@pytest.mark.parametrize("share", range(SHARES))
@pytest.mark.parametrize("journal", LINES)
def test_power_fails(rows: Rows, note: Note, journal: str, share: int) -> None:
    """What is opened after a failure of power is what was answered, and one call more at most."""
    line = LINES[journal]
    for number in range(share, len(places(journal)), SHARES):
        files, output = places(journal)[number]
        with tempfile.TemporaryDirectory(prefix="faults-") as folder:
            room = pathlib.Path(folder)
            for name in line.folders:
                (room / name).mkdir()
            lay_out(files, room)
            found, complaint = line.after_power(room, output)
        rows.equal(f"place {number}", None, complaint)
        note(f"{journal}, power that fails: {found}")
