"""README: its first commands as they stand there, what they print, and its size; samples of requests and answers."""

from __future__ import annotations

import os
import pathlib
import subprocess

import pytest
from harness.places import EXAMPLES, TOP
from harness.printed import blocks, page
from harness.program import DESK

README = (TOP / "README.md").read_text()
ANSWER = (EXAMPLES / "blocked_put.answer").read_bytes()
MOST_LINES, MOST_WORDS = 110, 30


@pytest.fixture
def top(room: pathlib.Path) -> pathlib.Path:
    """A folder like the repository's top, in which ./uss_desk is the program."""
    for name in ("clients", "examples"):
        (room / name).symlink_to(TOP / name)
    (room / "uss_desk").symlink_to(DESK[0])
    return room


@pytest.mark.quick
@pytest.mark.parametrize("command", blocks(README, "sh"))
def test_command(command: str, top: pathlib.Path) -> None:
    """Each prints the answers of the example that it plays."""
    quiet = {**os.environ, "PYTHONDONTWRITEBYTECODE": "1"}
    ran = subprocess.run(["bash", "-c", command], cwd=top, env=quiet, capture_output=True, check=False)
    assert (ran.stdout, ran.returncode) == (ANSWER, 0)


@pytest.mark.quick
@pytest.mark.parametrize("text", [README, page("operate.md")], ids=["README", "operate"])
def test_samples(text: str) -> None:
    """What it shows of requests and answers is that of an example."""
    played = [file.read_text() for file in EXAMPLES.glob("*.*")]
    samples = [sample.strip() for sample in blocks(text, "json")]
    assert samples
    assert [sample for sample in samples if not any(sample in one for one in played)] == []


@pytest.mark.quick
def test_size() -> None:
    """It is one page, and its tables are short."""
    lines = README.splitlines()
    cells = [cell for line in lines if line.startswith("|") for cell in line.split("|")]
    assert len(lines) <= MOST_LINES
    assert max(len(cell.split()) for cell in cells) <= MOST_WORDS
