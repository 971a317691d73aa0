"""What the tests of damaged files share: trials, and files that are made once."""

import fcntl
import os
import pathlib
import pickle
import tempfile
from collections.abc import Iterator

import pytest
from lies.changes import Made, make_file
from lies.trials import Note, Trial, seeded


def pytest_generate_tests(metafunc: pytest.Metafunc) -> None:
    """Makes the trials of a test that is marked so."""
    mark = metafunc.definition.get_closest_marker("trials")
    if mark:
        what, table = mark.args
        metafunc.parametrize("numbered, words", seeded(what, table, metafunc.config.getoption("--times")))


@pytest.fixture
def trial(numbered: tuple[str, int], room: pathlib.Path, record_property: Note) -> Trial:
    """One trial."""
    return Trial(*numbered, room, record_property)


@pytest.fixture(scope="session")
def place() -> Iterator[pathlib.Path]:
    """A folder for files of many tests."""
    with tempfile.TemporaryDirectory(prefix="lies-") as folder:
        yield pathlib.Path(folder)


@pytest.fixture(scope="session")
def small(tmp_path_factory: pytest.TempPathFactory) -> Made:
    """A closed file of four operators. The first of several processes makes it, and the others wait for it."""
    folder = tmp_path_factory.getbasetemp()
    folder = folder.parent if "PYTEST_XDIST_WORKER" in os.environ else folder
    kept = folder / "small.made"
    with open(folder / "small.lock", "w", encoding="utf-8") as lock:
        fcntl.flock(lock, fcntl.LOCK_EX)
        if not kept.exists():
            kept.write_bytes(pickle.dumps(make_file(folder / "small.db", 4)))
    made: Made = pickle.loads(kept.read_bytes())
    return made
