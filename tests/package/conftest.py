"""What the tests of packages share: the packages, what is in them, and a clean machine."""

from __future__ import annotations

import os
import pathlib
import tempfile
from collections.abc import Iterator, Mapping

import pytest
from package.building import built, needs_of, unpacked
from package.machine import Machine, Making

Debs = Mapping[str, pathlib.Path]
"""The packages by their names."""


@pytest.fixture(scope="session")
def folder() -> Iterator[pathlib.Path]:
    """A folder for what is built, once the program is there."""
    assert os.geteuid() == 0, "it has to be run as root"
    with tempfile.TemporaryDirectory(prefix="package-") as room:
        yield pathlib.Path(room)


@pytest.fixture(scope="session")
def building(folder: pathlib.Path) -> tuple[str, list[pathlib.Path]]:
    """What is told of the packages, and where they are."""
    (folder / "first").mkdir()
    return built(folder / "first")


@pytest.fixture(scope="session")
def told(building: tuple[str, list[pathlib.Path]]) -> str:
    """What is told of the packages."""
    return building[0]


@pytest.fixture(scope="session")
def making(building: tuple[str, list[pathlib.Path]], request: pytest.FixtureRequest) -> Iterator[Making | None]:
    """The root of a clean machine, which is made while other tests run; None if no test needs it."""
    is_needed = any("machine" in getattr(item, "fixturenames", ()) for item in request.session.items)
    making = Making(needs_of(by_name(building[1]))) if is_needed else None
    yield making
    if making:
        making.archive()


def by_name(paths: list[pathlib.Path]) -> dict[str, pathlib.Path]:
    """Packages by their names."""
    return {path.name.split("_")[0]: path for path in paths}


@pytest.fixture(scope="session")
def debs(building: tuple[str, list[pathlib.Path]], making: Making | None) -> Debs:
    """The packages; meanwhile the root of a clean machine is begun."""
    return by_name(building[1])


@pytest.fixture(scope="session")
def desk(debs: Debs, folder: pathlib.Path) -> pathlib.Path:
    """The files of the program's package."""
    return unpacked(debs["uss-desk"], folder / "desk")


@pytest.fixture(scope="session")
def clients(debs: Debs, folder: pathlib.Path) -> pathlib.Path:
    """The files of the clients' package."""
    return unpacked(debs["uss-desk-client"], folder / "client")


@pytest.fixture(scope="session")
def machine(making: Making) -> Iterator[Machine]:
    """A clean machine that has booted."""
    with Machine(making.archive()) as booted:
        yield booted
