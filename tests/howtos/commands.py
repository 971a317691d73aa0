"""The blocks of commands of the administrator's pages: which of them tests/package runs on its machine, one after the
other as they stand there; which other tests run; and which can't be run, and why."""

from __future__ import annotations

import re
from typing import NamedTuple

from harness.printed import page

FENCE = re.compile(r"(?ms)^( *)```sh\n(.*?)^\1```$|^#+ ([^\n]*)$")


class Block(NamedTuple):
    """A block of commands, without the indentation that it has within a list, and the heading above it."""

    page: str
    heading: str
    text: str


def blocks_of(name: str) -> list[Block]:
    """The blocks of commands of a page."""
    found, heading = list[Block](), ""
    for indent, text, headed in FENCE.findall(page(name)):
        if headed:
            heading = headed
        else:
            found.append(Block(name, heading, re.sub(rf"(?m)^{indent}", "", text)))
    return found


def commands(name: str, heading: str) -> list[str]:
    """The blocks of commands under a heading of a page."""
    return [block.text for block in blocks_of(name) if block.heading == heading]


ON_THE_MACHINE = {
    "backup-restore.md": {
        "A backup each night": 1,
        "Make a backup": 2,
        "Check a backup": 1,
        "Restore a backup": 3,
        "Replay the request journal": 3,
        "Go back to a moment": 1,
        "After a kill or a power failure": 1,
    },
    "how-files-get-damaged.md": {"What to do when a file is damaged": 1},
    "install.md": {"1. Install": 2, "2. Enrol an operator": 1, "3. Give an operator a password": 1, "4. Start it": 2},
    "journal.md": {"Turn it on": 1, "Who asked what": 2},
    "monitoring.md": {"Health": 2, "Count requests": 1, "One id through all logs": 1, "Metrics": 1},
    "operate.md": {
        "Start and stop": 1,
        "Enrol operators": 3,
        "Passwords": 1,
        "Lock an operator out": 1,
        "An operator who leaves": 1,
        "See what is planned": 1,
        "Equal priorities": 1,
        "Several desks": 1,
    },
    "proxy.md": {"Limits": 1, "TLS": 1, "Other users of the machine": 1},
    "sizing.md": {"The limit on spans": 1, "The limit on cells": 1},
    "standby.md": {"Set up": 2, "Take over": 1, "Follow again": 1},
    "troubleshooting.md": {"Troubleshooting": 1},
    "upgrade.md": {"Rehearse the upgrade": 3, "Upgrade the package": 1, "Go back": 1, "A database of schema 1": 1},
}
"""How many blocks the machine of tests/package runs under each heading of each page."""
ELSEWHERE = {
    ("by-hand.md", "./uss_desk enrol"): "tests/keeping/test_readme.py",
    ("by-hand.md", "install crates/"): "tests/keeping/test_readme.py",
}
"""Other blocks that are run, by how they begin, and by which tests."""
NOT_RUN = {
    ("how-files-get-damaged.md", "uss_desk copy --db FILE --to NEW"): "it names no file",
    ("how-files-get-damaged.md", "ls -l /proc/PID/fd"): "it names no process",
    ("standby.md", "runuser -u uss_desk -- sh -c 'ssh root@first.example"): "it follows until it is ended",
}
"""The blocks that can't be run as they stand, by how they begin, and why."""
PAGES = sorted({*ON_THE_MACHINE, *(name for name, _ in [*ELSEWHERE, *NOT_RUN])})


def is_apart(block: Block) -> bool:
    """Whether a block isn't run on the machine."""
    return any(name == block.page and block.text.startswith(text) for name, text in [*ELSEWHERE, *NOT_RUN])


def of_the_machine() -> list[Block]:
    """The blocks that are run on the machine."""
    return [block for name in PAGES for block in blocks_of(name) if not is_apart(block)]
