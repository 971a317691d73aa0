"""The script uss_desk takes a program for that of its sources by their sums: new times change nothing, a byte does. The
program is a stand-in, and rt isn't found, so that nothing is built."""

from __future__ import annotations

import os
import pathlib
import shutil
import time

import pytest
from harness.rows import Rows
from keeping.given import SCRIPT, run

pytestmark = pytest.mark.alone

ABSENT = "status 4: uss_desk: put the folder bin of the Rattle toolchain on the PATH: the command rt isn't found\n"


def stand_in(path: pathlib.Path, says: str) -> None:
    """Makes a program that says something."""
    path.write_text(f"#!/bin/sh\necho {says}\n")
    path.chmod(0o755)


@pytest.mark.quick
def test_sums_of_sources(rows: Rows, room: pathlib.Path) -> None:
    """Each change, and what the script runs then."""
    source, out = room / "crates" / "uss_desk" / "src" / "main.rt", room / "crates" / "uss_desk" / "out"
    for made in (source.parent, out):
        made.mkdir(parents=True)
    shutil.copy2(SCRIPT, room)
    (room / "crates.txt").write_text("uss_desk:\n")
    source.write_text("fn main() {}\n")
    stand_in(out / "uss_desk", "the program")
    ask: list[str | pathlib.Path] = ["env", "PATH=/usr/bin:/bin", room / "uss_desk"]
    rows.equal("a program of unknown sources", ABSENT, run([*ask, "token", "1"]))
    rows.equal("it is taken", "", run([*ask, "--take"]))
    rows.equal("it runs", "the program\n", run([*ask, "token", "1"]))
    os.utime(source, (time.time() + 60,) * 2)
    rows.equal("after a source was touched", "the program\n", run([*ask, "token", "1"]))
    rows.equal("a program that is older than a source isn't taken", "status 4: ", run([*ask, "--take"])[:10])
    source.write_text("fn main() { }\n")
    rows.equal("after a source was changed", ABSENT, run([*ask, "token", "1"]))
    source.write_text("fn main() {}\n")
    stand_in(out / "uss_desk", "another program")
    rows.equal("another program in its place", ABSENT, run([*ask, "token", "1"]))
