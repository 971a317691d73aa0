"""Rows: those of a table, which are parameters of a test, and those of a scenario."""

from __future__ import annotations

from collections.abc import Iterable
from contextlib import AbstractContextManager
from typing import Any, Protocol

import pytest


def named(table: Iterable[tuple[Any, ...]]) -> list[Any]:
    """The rows of a table as parameters of a test: the first column is a row's name."""
    return [pytest.param(*row[1:], id=row[0]) for row in table]


class Subtests(Protocol):
    """The fixture of pytest-subtests."""

    def test(self, msg: str) -> AbstractContextManager[None]:
        """Within it an assertion that fails is a row that fails, and the scenario goes on."""


class Rows:
    """Compares what a scenario gives, row by row: each is counted, and one that fails doesn't end the scenario."""

    def __init__(self, subtests: Subtests) -> None:
        self._subtests = subtests

    def equal(self, what: str, wanted: object, got: object) -> None:
        """Two values are the same."""
        with self._subtests.test(what):
            assert got == wanted, what

    def at_most(self, what: str, most: float, got: float) -> None:
        """A number isn't greater than another."""
        with self._subtests.test(what):
            assert got <= most, what

    def holds(self, what: str, is_so: object) -> None:
        """Something holds."""
        with self._subtests.test(what):
            assert is_so, what

    def has(self, what: str, part: str, whole: str) -> None:
        """A text has a part."""
        with self._subtests.test(what):
            assert part in whole, what
