"""The tests of each package of clients/."""

from __future__ import annotations

import subprocess
import sys
from collections.abc import Callable

import pytest
from harness.places import CLIENTS


@pytest.mark.quick
@pytest.mark.parametrize("name", ["python", "interuss_bridge", "mock_desk"])
def test_package(name: str, record_property: Callable[[str, object], None]) -> None:
    """They pass, in their own folder."""
    words = [sys.executable, "-m", "pytest", "-q", "-p", "no:cacheprovider"]
    ran = subprocess.run(words, cwd=CLIENTS / name, capture_output=True, text=True, check=False)
    last = ran.stdout.strip().splitlines()[-1]
    assert ran.returncode == 0, ran.stdout
    record_property(f"tests of clients/{name}", int(last.split()[0]))
