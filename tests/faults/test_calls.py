"""Growths of memory that are refused to single calls, each of which is then made again.

The part `refusals` of the program desk_trials makes the calls: of the ground, at a desk over a list, and at a desk over
tables, and writes after each what it said. Whichever growth is refused, it writes the same: its lines of the stored
run, which were written from docs/api.md. One run refuses the Nth growth after each write. So with every N each growth
is refused once, after calls to which others were refused.
"""

import os
import pathlib
import re
import subprocess
import sys

import pytest
from faults.conftest import Note
from faults.program import Ran, finish
from harness.places import CRATES, TOP
from harness.rows import Rows

pytestmark = [pytest.mark.proved, pytest.mark.slow]

CALLS = CRATES / "desk_trials"
BUILT = CALLS / "out" / CALLS.name
REFUSER = pathlib.Path(__file__).resolve().parent / "in_each_call.py"
FIRST = b"\nground\n"
"""The first line of the part in the stored run, of which it is the last."""
SAMPLE = 60
"""How many runs the sample has, at least."""
SHARES = 8
# What a run says on standard error: how many calls told of a refusal, and then what in_each_call.py counted.
TOLD = re.compile(r"(\d+) refused\n(\d+) of (\d+) growths refused, at most (\d+) after a write\n")


def is_built() -> bool:
    """Whether the program is there, and no source of any crate is newer."""
    sources = (file for part in ("src", "specs", "proofs") for file in TOP.glob(f"crates/*/{part}/**/*.*"))
    return BUILT.exists() and all(file.stat().st_mtime <= BUILT.stat().st_mtime for file in sources)


@pytest.fixture(scope="module")
def calls() -> str:
    """The path of the program that makes the calls, which is built if it isn't."""
    if not is_built():
        words = ["rt", "run", "--", "refusals"]
        subprocess.run(words, cwd=CALLS, stdin=subprocess.DEVNULL, capture_output=True, check=True)
    return os.fspath(BUILT)


def stored_lines() -> bytes:
    """What the part writes in the stored run of all parts."""
    _, first, lines = (CALLS / "stdout").read_bytes().partition(FIRST)
    return (first + lines).removeprefix(b"\n")


def run_refused(calls: str, number: int) -> tuple[Ran, list[int]]:
    """A run to which the growth of this number is refused after each write, or none by 0; what it told, as numbers."""
    ran = finish([sys.executable, str(REFUSER), str(number), calls, "refusals"], b"")
    told = TOLD.fullmatch(ran.errors)
    return ran, [int(part) for part in told.groups()] if told else []


def wrong_calls(ran: Ran, told: list[int], right: bytes) -> str | None:
    """The run ends with status 0, and writes what it writes if nothing is refused; no call tells of a refusal twice."""
    if ran.status != 0 or not told:
        return f"status {ran.status}: {ran.errors[:200]!r}"
    if ran.output != right:
        at = next((at for at, pair in enumerate(zip(ran.output, right)) if pair[0] != pair[1]), len(right))
        return f"from byte {at} on it writes {ran.output[at:at + 200]!r}"
    if told[0] > told[1]:
        return f"{told[0]} calls told of {told[1]} refusals"
    return None


@pytest.fixture(scope="module")
def undisturbed(calls: str) -> tuple[Ran, list[int]]:
    """A run to which nothing is refused."""
    return run_refused(calls, 0)


def test_nothing_refused(note: Note, undisturbed: tuple[Ran, list[int]]) -> None:
    """It writes what is stored."""
    assert wrong_calls(*undisturbed, stored_lines()) is None
    _, _, growths, longest = undisturbed[1]
    note("memory refused to calls: growths", growths)
    note("memory refused to calls: after one write at most", longest)


@pytest.mark.parametrize("share", range(SHARES))
def test_memory_refused(
    rows: Rows, note: Note, calls: str, undisturbed: tuple[Ran, list[int]], is_every: bool, share: int
) -> None:
    """The growth of some numbers, or of every one, is refused after each write; most refusals are told by a call."""
    longest = undisturbed[1][3]
    numbers = range(1, longest + 1, 1 if is_every else max(1, longest // SAMPLE))
    by_a_call = refused = 0
    for number in numbers[share::SHARES]:
        ran, told = run_refused(calls, number)
        complaint = wrong_calls(ran, told, stored_lines())
        rows.equal(f"growth {number} after each write", None, complaint)
        if complaint is None:
            by_a_call, refused = by_a_call + told[0], refused + told[1]
    note("memory refused to calls: refused", refused)
    note("memory refused to calls: told by a call", by_a_call)
    rows.holds(f"{by_a_call} of {refused} refusals were told by a call", by_a_call * 2 > refused)
