"""What a page prints: its blocks of code, which tests run as they stand there."""

from __future__ import annotations

import re

from harness.places import DOCS


def page(name: str) -> str:
    """The text of a page of docs/."""
    return (DOCS / name).read_text()


def blocks(text: str, language: str) -> list[str]:
    """The fenced blocks of a text in a language, in their order."""
    return re.findall(rf"(?ms)^```{language}\n(.*?)^```$", text)


def section(text: str, heading: str) -> str:
    """A part of a text: from the line of its heading to the next heading of the same depth or above."""
    depth = len(heading) - len(heading.lstrip("#"))
    found = re.search(rf"(?ms)^{re.escape(heading)}\n(.*?)(?=^#{{1,{depth}}} |\Z)", text)
    assert found, f"no heading {heading}"
    return found[1]
