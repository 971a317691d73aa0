"""What the tests of records share: a folder in which no sync is waited for."""

from __future__ import annotations

import pathlib
import tempfile
from collections.abc import Iterator

import pytest

MEMORY = pathlib.Path("/dev/shm")


@pytest.fixture
def quick_room() -> Iterator[pathlib.Path]:
    """A folder that is removed afterwards, in memory if there is such a place: for files that are made anew."""
    place = str(MEMORY) if MEMORY.is_dir() else None
    with tempfile.TemporaryDirectory(prefix="desk-", dir=place) as folder:
        yield pathlib.Path(folder)
