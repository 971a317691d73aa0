"""docs/tutorial.md: its commands and its Python, at a mock desk, as they stand there but for the port."""

from __future__ import annotations

import os
import pathlib
import re
import signal
import subprocess
from collections.abc import Iterator

import pytest
from harness.places import CLIENTS, DOCS, TOP
from harness.ports import free_port, is_listening, until
from harness.printed import blocks, page

PYTHON = {**os.environ, "PYTHONPATH": f"{CLIENTS / 'python'}:{CLIENTS / 'mock_desk'}", "PYTHONDONTWRITEBYTECODE": "1"}


@pytest.fixture
def tutorial() -> Iterator[str]:
    """The page with a free port in the place of 8080, at which the desk of its first command answers."""
    port = free_port()
    text = page("tutorial.md").replace("8080", str(port))
    desk = subprocess.Popen(["bash", "-c", f"{blocks(text, 'sh')[0]} wait"], cwd=TOP, start_new_session=True)
    try:
        until("the mock desk", lambda: is_listening(port))
        yield text
    finally:
        os.killpg(desk.pid, signal.SIGTERM)
        desk.wait()


@pytest.mark.quick
def test_tutorial(tutorial: str, room: pathlib.Path) -> None:
    """Python prints what the page says; the last command draws the page's picture."""
    session = room / "session.txt"
    session.write_text("\n".join(blocks(tutorial, "pycon")))
    words = ["/usr/bin/python3", "-m", "doctest", "-o", "ELLIPSIS", str(session)]
    told = subprocess.run(words, env=PYTHON, capture_output=True, text=True, check=False)
    assert (told.stdout, told.returncode) == ("", 0)
    drawn = subprocess.run(
        ["bash", "-c", blocks(tutorial, "sh")[-1]], cwd=room, env=PYTHON, capture_output=True, text=True, check=False
    )
    assert f"It prints `{drawn.stdout.splitlines()[0]}`" in tutorial, drawn.stderr
    pictures = ((room / "why.svg").read_text(), (DOCS / "images" / "tutorial.svg").read_text())
    assert len({re.sub(r"\d{4}-\d\d-\d\d", "DAY", one) for one in pictures}) == 1
