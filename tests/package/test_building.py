"""The packages as they are built: the same bytes in every setting, and nothing that lintian calls an error."""

from __future__ import annotations

import hashlib
import os
import pathlib
import re
from collections.abc import Iterator

import pytest
from harness.places import DEPLOY
from harness.program import PROGRAM
from harness.rows import Rows
from package.building import BUILD, built, settings, sums
from package.commands import run
from package.conftest import Debs

pytestmark = [pytest.mark.alone, pytest.mark.proved, pytest.mark.root]

NAMES = ["uss-desk", "uss-desk-client"]
BY_HAND = (b"/srv/desk_proxy", b"/usr/local")
"""Folders of an installation by hand."""


def test_packages(debs: Debs) -> None:
    """There are two."""
    names = ["uss-desk-client_2.0.0_all.deb", "uss-desk_2.0.0_amd64.deb"]
    assert sorted(path.name for path in debs.values()) == names


@pytest.mark.parametrize("name", NAMES)
def test_sum(debs: Debs, told: str, name: str) -> None:
    """The sum of each is told."""
    assert f"{sums([debs[name]])[debs[name].name]}  {debs[name]}\n" in told


@pytest.fixture
def narrow() -> Iterator[None]:
    """Files that are made are their owner's alone."""
    before = os.umask(0o077)
    yield
    os.umask(before)


@pytest.mark.usefixtures("narrow")
def test_built_again(debs: Debs, room: pathlib.Path) -> None:
    """Elsewhere and in another setting the same bytes are built."""
    other = {"TZ": "Asia/Tokyo", "LC_ALL": "C", "DPKG_DEB_THREADS_MAX": "3", "COLUMNS": "40"}
    assert sums(built(room, **other)[1]) == sums(debs.values())


@pytest.mark.parametrize("name", NAMES)
def test_lintian(debs: Debs, name: str) -> None:
    """lintian finds no error."""
    told = run(["lintian", "--allow-root", "--fail-on", "error", "--no-cfg", debs[name]])
    assert [line for line in told.splitlines() if re.match(r"E:|status", line)] == []


def test_program(desk: pathlib.Path) -> None:
    """The program is the one given."""
    shipped = (desk / "usr/bin/uss_desk").read_bytes()
    assert hashlib.sha256(shipped).hexdigest() == hashlib.sha256(PROGRAM.read_bytes()).hexdigest()


@pytest.mark.parametrize("name", ["uss_desk.service", "uss_desk@.service"])
def test_settings(desk: pathlib.Path, name: str) -> None:
    """What is shipped is what is installed by hand, but for the paths that build_deb names."""
    by_hand = (DEPLOY / name).read_text() if "@" not in name else run([str(BUILD), "--by-port"])
    ours = settings(by_hand.replace("/usr/local/bin", "/usr/bin"))
    assert settings((desk / "lib/systemd/system" / name).read_text()) == ours


def test_nothing_by_hand(rows: Rows, desk: pathlib.Path) -> None:
    """No file names a folder of an installation by hand."""
    for path in desk.rglob("*"):
        if path.is_file() and "usr/share/doc" not in str(path) and path.suffix != ".gz":
            left = [word for word in BY_HAND if word in path.read_bytes()]
            rows.equal(f"{path.relative_to(desk)} names no such folder", [], left)


def test_limits_by_address(desk: pathlib.Path) -> None:
    """They are shipped, and nothing that is installed loads them."""
    shipped = desk / "usr/share/doc/uss-desk/examples/address_limits.nft"
    assert shipped.read_text() == (DEPLOY / "address_limits.nft").read_text()
    others = [path for path in desk.rglob("*") if path.is_file() and "usr/share/doc" not in str(path)]
    assert [path for path in others if b"address_limits" in path.read_bytes()] == []


@pytest.mark.parametrize("package", ["desk", "clients"])
def test_links(package: str, request: pytest.FixtureRequest) -> None:
    """Each link of the documents in a package leads to a file of the package."""
    folder: pathlib.Path = request.getfixturevalue(package)
    links = [
        (page, link.partition("#")[0])
        for page in (folder / "usr/share/doc").rglob("*.md")
        for link in re.findall(r"\]\(([^)\s]+)\)", page.read_text())
        if "://" not in link
    ]
    assert len(links) > 10
    assert [(page.name, link) for page, link in links if not (page.parent / link).exists()] == []
