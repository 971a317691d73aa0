"""Trials: each damages a file by chance of its own seed, and comes to an outcome in words."""

import pathlib
import random
from collections.abc import Callable, Sequence
from typing import Any

import pytest

Note = Callable[[str, object], None]


class Trial:
    """One trial of many: where its file is, its own chance, and where it tells what came of it."""

    def __init__(self, name: str, seed: int, folder: pathlib.Path, note: Note) -> None:
        self.path, self.chance = folder / "desk.db", random.Random(f"{name} {seed}")
        self._name, self._note = name, note

    def came_to(self, outcome: str) -> None:
        """Tells what came of it; it is counted by the trials' name."""
        self._note(f"{self._name}: {outcome}", 1)


def seeded(what: str, table: Sequence[tuple[Any, ...]], times: int) -> list[Any]:
    """The parameters of a test of trials, for each row of a table so many: a row is a name, how often, and the words of
    the test. They are the name of the row's trials with the number of one, and the words."""
    return [
        pytest.param((", ".join(filter(None, (what, name))), seed), words, id=f"{name or what} {seed}")
        for name, often, *words in table
        for seed in range(often * times)
    ]
