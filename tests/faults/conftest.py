"""What the tests of faults share: that the program is there and may be traced, and a count of what came of each."""

import os
import subprocess
import tempfile
from collections import Counter
from collections.abc import Callable, Iterator

import pytest

Note = Callable[..., None]
"""Counts something: `note("full disks: sizes")`, `note("lives: answers", 12)`."""


@pytest.fixture(scope="session", autouse=True)
def may_trace() -> None:
    """Strace may trace the program."""
    with tempfile.TemporaryDirectory(prefix="faults-") as room:
        tried = subprocess.run(["strace", "-qq", "-o", os.path.join(room, "trace"), "true"], check=False)
    assert tried.returncode == 0, "strace can't trace here (in a container: --cap-add SYS_PTRACE)"


@pytest.fixture(scope="session")
def is_every(pytestconfig: pytest.Config) -> bool:
    """Whether each growth is refused."""
    return bool(pytestconfig.getoption("--every"))


@pytest.fixture
def note(record_property: Callable[[str, object], None]) -> Iterator[Note]:
    """Counts what came of faults; the counts are told before the last line."""
    counts = Counter[str]()

    def count(what: str, number: int = 1) -> None:
        counts[what] += number

    yield count
    for what, number in counts.items():
        record_property(what, number)
