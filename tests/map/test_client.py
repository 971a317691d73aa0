"""The tests of clients/map."""

import os
import subprocess
import sys

import pytest
from harness.places import CLIENTS

pytestmark = [pytest.mark.alone, pytest.mark.browser, pytest.mark.proxy]


@pytest.mark.quick
def test_tests_of_the_map() -> None:
    """They pass."""
    words = [sys.executable, "-m", "pytest", "-q", "-p", "no:cacheprovider"]
    quiet = {**os.environ, "PYTHONDONTWRITEBYTECODE": "1"}
    ran = subprocess.run(words, cwd=CLIENTS / "map", capture_output=True, text=True, check=False, env=quiet)
    assert ran.returncode == 0, ran.stdout + ran.stderr
