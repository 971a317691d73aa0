"""Lives of a desk over one file: it is killed at random under load and started again on what it left."""

import pathlib
import random
import subprocess
import tempfile
import time
from collections.abc import Sequence

import pytest
from faults.conftest import Note
from faults.judging import first_of, told, wrong_content, wrong_stop
from faults.load import Content, load, reading_of
from faults.program import PROGRAM, Ran, play_words, read_content
from faults.scenario import OPERATORS
from harness.rows import Rows

REQUESTS = 300
DESKS = 4
"""How many desks share the lives."""


def live(path: str, operators: Sequence[str], given: bytes, seconds: float) -> Ran:
    """Runs the program on requests, and kills it after so many seconds if it hasn't ended."""
    with tempfile.TemporaryFile() as asked, tempfile.TemporaryFile() as output:
        asked.write(given)
        asked.seek(0)
        line = [PROGRAM, *play_words(path, operators)]
        desk = subprocess.Popen(line, stdin=asked, stdout=output, stderr=subprocess.PIPE)
        try:
            errors = desk.communicate(timeout=seconds)[1]
        except subprocess.TimeoutExpired:
            desk.kill()
            errors = desk.communicate()[1]
        output.seek(0)
        return Ran(desk.returncode, output.read(), errors.decode(), [])


def judged(
    path: str, ran: Ran, answers: Sequence[bytes], contents: Sequence[Content]
) -> tuple[str | None, Content, int]:
    """The complaint about a life, the content that it left, and the number of answers."""
    count, _ = told(ran.output, answers)
    allowed = contents[count : count + 2]
    complaint = first_of(wrong_stop(ran, answers), wrong_content(path, [reading_of(it) for it in allowed]))
    left = read_content(path).output
    found = next((it for it in allowed if reading_of(it) == left), allowed[0])
    return complaint, found, count


@pytest.mark.proved
@pytest.mark.slow
@pytest.mark.parametrize("desk", range(DESKS))
def test_lives(rows: Rows, note: Note, room: pathlib.Path, pytestconfig: pytest.Config, desk: int) -> None:
    """One life that isn't killed, which tells how long one takes, and then those that are: what was answered stands,
    and one call more at most."""
    lives: int = pytestconfig.getoption("--lives", 20)
    chance, path, whole = random.Random(desk), str(room / "desk.db"), 300.0
    content: Content = {}
    for life in range((lives + desk) // DESKS + 1):
        requests, answers, contents = load(chance, content, REQUESTS)
        started = time.monotonic()
        ran = live(path, [] if life else OPERATORS, requests, chance.uniform(0, whole) if life else whole)
        if ran.status == 0:
            whole = min(whole, time.monotonic() - started)
        complaint, content, answered = judged(path, ran, answers, contents)
        rows.equal(f"life {life}", None, complaint)
        note("killed under load: lives")
        note("killed under load: killed in mid-run", int(ran.status == -9))
        note("killed under load: answers", answered)
        if complaint:
            break
