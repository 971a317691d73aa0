"""Damage in a closed file between two lines. It is refused, or has the same content; pages of an older state, each of
them whole, may show another one, and so may a file without sums."""

import pathlib

import pytest
from lies.changes import Made, make_without_sums
from lies.damage import (
    PAGE,
    SECTOR,
    Kind,
    bit,
    burst,
    cut,
    damaged,
    older_page,
    older_pages,
    pair_of_bits,
    swapped,
    zeroed,
)
from lies.desk import opened
from lies.flights import read_all
from lies.trials import Trial

# name, how often, kind, and whether another content is what the documents say
KINDS = [
    ("single bits", 200, bit, False),
    ("two bits of a page", 40, pair_of_bits, False),
    ("64 random bytes", 40, burst, False),
    ("sectors of zeros", 40, zeroed(SECTOR), False),
    ("pages of zeros", 40, zeroed(PAGE), False),
    ("two pages swapped", 40, swapped, False),
    ("cut short", 20, cut, False),
    ("one older page", 40, older_page, True),
    ("some older pages", 40, older_pages, True),
]


@pytest.fixture(scope="module")
def without_sums(place: pathlib.Path) -> Made:
    """A file whose pages have no sums."""
    return make_without_sums(place / "without.db", 4)


@pytest.mark.quick_each(10)
@pytest.mark.slow
@pytest.mark.trials("FILE between lines", KINDS)
def test_with_sums(trial: Trial, words: tuple[Kind, bool], small: Made) -> None:
    """A file with sums."""
    kind, is_whole = words
    damage(trial, small, kind, is_whole)


@pytest.mark.quick_each(10)
@pytest.mark.slow
@pytest.mark.trials("FILE without sums between lines", KINDS)
def test_without_sums(trial: Trial, words: tuple[Kind, bool], without_sums: Made) -> None:
    """A file without sums, which may always show another content."""
    damage(trial, without_sums, words[0], True)


def damage(trial: Trial, made: Made, kind: Kind, may_differ: bool) -> None:
    """Damages a copy of a file, and opens it: it is refused and left as it is, or has the same content, or another one
    if it may."""
    trial.path.write_bytes(damaged(made.data, made.older, kind, trial.chance))
    before = trial.path.read_bytes()
    found = opened(trial.path, made.world)
    if found.word:
        assert trial.path.read_bytes() == before, f"refused by {found.word}, and changed"
        trial.came_to("refused")
    elif found.content == read_all(made.world)[1]:
        trial.came_to("the same content")
    else:
        assert may_differ, "it opens with another content"
        trial.came_to("another content")
