"""What the tests of the page share: one desk behind nginx, one browser, and the map's program of each operator."""

from __future__ import annotations

from collections.abc import Iterator
from typing import TYPE_CHECKING

import pytest
from harness.setting import Setting
from map.given import MAP_PATIENCE, OPERATORS, SHORT

if TYPE_CHECKING:
    from map.browser import Driver, Programs


@pytest.fixture(scope="session")
def setting() -> Iterator[Setting]:
    """A desk over a file, which is started again whenever it ends, behind nginx."""
    with Setting(OPERATORS) as made:
        yield made


@pytest.fixture(scope="session")
def driver() -> Iterator[Driver]:
    """A browser."""
    from map.browser import browser  # where selenium isn't installed, this file is read all the same

    with browser() as made:
        yield made


@pytest.fixture(scope="session")
def programs(setting: Setting) -> Iterator[Programs]:
    """The map's program of each operator, by the operator's name; none complains up to its end."""
    from map.browser import Program

    made = {name: Program(setting, name, SHORT if name == "carol" else MAP_PATIENCE) for name in OPERATORS}
    yield made
    assert {name: program.end() for name, program in made.items()} == dict.fromkeys(OPERATORS, "")
