"""The administrator's pages: each block of commands is run by a test, or named with the reason why it can't be."""

from __future__ import annotations

import collections
import re

import pytest
from harness.places import DOCS, TOP

from howtos.commands import ELSEWHERE, NOT_RUN, ON_THE_MACHINE, PAGES, blocks_of, of_the_machine

READER = "For the administrator"
"""How the administrator's pages begin, below their title."""
FENCED = re.compile(r"(?ms)^( *)```(\w*)\n.*?^\1```$")
LANGUAGES = {"ini", "json", "sh", "text"}


@pytest.mark.quick
@pytest.mark.parametrize("name", PAGES)
def test_each_is_run(name: str) -> None:
    """A block that is added to a page, or taken away, has to be in the tables, and in the steps of tests/package."""
    found = collections.Counter(block.heading for block in of_the_machine() if block.page == name)
    assert dict(found) == ON_THE_MACHINE.get(name, {})


@pytest.mark.quick
def test_pages() -> None:
    """All of the administrator's pages are looked at."""
    pages = {path.name for path in DOCS.glob("*.md") if READER in path.read_text()[:200]}
    assert {name for name in pages if blocks_of(name)} == set(PAGES)


@pytest.mark.quick
@pytest.mark.parametrize("name, beginning", [*ELSEWHERE, *NOT_RUN])
def test_apart(name: str, beginning: str) -> None:
    """What isn't run on the machine is one block of its page."""
    assert [block.text.startswith(beginning) for block in blocks_of(name)].count(True) == 1


@pytest.mark.quick
@pytest.mark.parametrize("path", sorted(set(ELSEWHERE.values())))
def test_elsewhere(path: str) -> None:
    """The other tests are there, and take the commands of the page."""
    assert "BY_HAND" in (TOP / path).read_text()


@pytest.mark.quick
@pytest.mark.parametrize("name", PAGES)
def test_no_other_code(name: str) -> None:
    """Code is in blocks of these languages alone, so that no commands are overlooked."""
    text = (DOCS / name).read_text()
    assert {language for _, language in FENCED.findall(text)} <= LANGUAGES
    assert re.findall(r"(?m)^    .*$", FENCED.sub("", text)) == []
