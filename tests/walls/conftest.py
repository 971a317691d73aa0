"""What the tests of this folder share."""

from __future__ import annotations

from collections.abc import Iterator

import pytest
from walls.given import Walls, walls_of


@pytest.fixture
def walls() -> Iterator[Walls]:
    """nginx and HAProxy before a stub that answers as a desk."""
    with walls_of() as made:
        yield made
