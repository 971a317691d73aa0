"""A desk to ask: the mock desk, at a port of this machine."""
import os
import socket
import subprocess
import sys
from collections.abc import Iterator
from pathlib import Path

import pytest

MOCK_DESK = Path(__file__).resolve().parents[2] / "mock_desk"
TRIES = 10
"""How often another port is taken if somebody else was faster."""


@pytest.fixture(scope="module")
def mock_desk() -> Iterator[str]:
    """The URL of a mock desk of alfa, bravo and carol; each module has one of its own."""
    environment = {**os.environ, "PYTHONPATH": str(MOCK_DESK)}
    for _ in range(TRIES):
        with socket.create_server(("127.0.0.1", 0)) as held:
            port = held.getsockname()[1]
        words = [sys.executable, "-m", "mock_desk", "--port", str(port), "alfa=100", "bravo=100", "carol=100"]
        with subprocess.Popen(words, stdout=subprocess.PIPE, text=True, env=environment) as process:
            try:
                assert process.stdout
                if process.stdout.readline() == f"listening 127.0.0.1:{port}\n":
                    yield f"http://127.0.0.1:{port}"
                    return
            finally:
                process.terminate()
    raise OSError("the mock desk doesn't listen")
