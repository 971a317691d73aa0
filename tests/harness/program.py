"""The program: its file, and what a line of it comes to."""

from __future__ import annotations

import os
import pathlib
import subprocess
from collections.abc import Sequence
from typing import Any, NamedTuple

import pytest
from harness.places import CRATES, TOP

PATIENCE = 600
"""Seconds that a line may take."""
SCRIPT = TOP / "uss_desk"
"""The script, which builds the program."""
PROGRAM = pathlib.Path(os.environ.get("PROGRAM", CRATES / "uss_desk" / "out" / "uss_desk")).absolute()
"""The program's file: that of the variable PROGRAM, or what the script builds."""
DESK = [str(PROGRAM)]
"""The command that runs it."""


def need_script() -> None:
    """Skips a test of the script where a program is given and the script's own isn't built."""
    is_built = [str(SCRIPT), "--built"]
    if "PROGRAM" in os.environ and subprocess.run(is_built, capture_output=True, check=False).returncode != 0:
        pytest.skip("./uss_desk isn't built of these sources")


class Ran(NamedTuple):
    """What a line of the program came to."""

    status: int
    output: bytes
    errors: str


def command(words: Sequence[str], given: bytes = b"", stdin: int | None = None, stdout: int = subprocess.PIPE) -> Ran:
    """Runs a command on these bytes, or on a descriptor that is open; its output is empty if it goes elsewhere."""
    from_bytes: dict[str, Any] = {"input": given} if stdin is None else {"stdin": stdin}
    ran = subprocess.run(words, **from_bytes, stdout=stdout, stderr=subprocess.PIPE, timeout=PATIENCE, check=False)
    return Ran(ran.returncode, ran.stdout or b"", ran.stderr.decode(errors="replace"))


def run(
    *words: str,
    given: bytes = b"",
    under: Sequence[str] = (),
    stdin: int | None = None,
    stdout: int = subprocess.PIPE,
) -> Ran:
    """Runs a line of the program as `command` does, under another command (as `strace`) if there is one."""
    return command([*under, *DESK, *words], given, stdin, stdout)
