"""The packages as they are built and taken apart."""

from __future__ import annotations

import hashlib
import os
import pathlib
import re
import shutil
import subprocess
from collections.abc import Callable, Iterable, Mapping

from harness.places import TOP
from harness.program import PROGRAM
from package.commands import run

BUILD = TOP / "packaging" / "build_deb"
SECOND = "1780315000"
OF_PAGES = ("curl", "openssh-client", "openssh-server", "prometheus-node-exporter", "sqlite3")
"""What commands of the pages need beside the packages, or install: the machine has no network to fetch it from."""


def built(folder: pathlib.Path, **settings: str) -> tuple[str, list[pathlib.Path]]:
    """The packages that are made into a folder, and what is told of them."""
    words = [str(BUILD), str(PROGRAM), "--to", str(folder)]
    told = run(words, env={**os.environ, "SOURCE_DATE_EPOCH": SECOND, **settings})
    return told, sorted(folder.glob("*.deb"))


def sums(paths: Iterable[pathlib.Path]) -> dict[str, str]:
    """The sha256 of each file, by its name."""
    return {path.name: hashlib.sha256(path.read_bytes()).hexdigest() for path in paths}


def settings(text: str) -> list[str]:
    """The lines of a unit but comments and empty ones."""
    return [line for line in text.splitlines() if line and not line.startswith("#")]


def unpacked(deb: pathlib.Path, folder: pathlib.Path) -> pathlib.Path:
    """The folder into which the files of a package are put."""
    subprocess.run(["dpkg-deb", "--extract", deb, folder], check=True)
    return folder


def repacked(
    deb: pathlib.Path, folder: pathlib.Path, version: str, change: Callable[[pathlib.Path], None] | None = None
) -> pathlib.Path:
    """The package as another version, with something changed in it."""
    shutil.rmtree(folder, ignore_errors=True)
    subprocess.run(["dpkg-deb", "--raw-extract", deb, folder], check=True)
    control = folder / "DEBIAN/control"
    control.write_text(re.sub(r"(?m)^Version: .*", f"Version: {version}", control.read_text()))
    if change:
        change(folder)
    path = pathlib.Path(f"{folder}_{version}.deb")
    subprocess.run(
        ["dpkg-deb", "--root-owner-group", "-Zgzip", "--build", folder, path], stdout=subprocess.DEVNULL, check=True
    )
    return path


def fields(deb: pathlib.Path) -> dict[str, str]:
    """The package's control fields."""
    told = run(["dpkg-deb", "--field", deb])
    return dict(re.findall(r"(?m)^([A-Za-z-]+): (.*)$", told))


def named_in(field: str) -> list[str]:
    """The first package of each choice of a field as Depends, without versions."""
    return re.findall(r"(?:^|,)\s*([a-z0-9.+-]+)", field)


def needs_of(debs: Mapping[str, pathlib.Path]) -> list[str]:
    """What Depends and Recommends of both name, beside each other; and what each Debian has that isn't a bare root,
    or what the pages install."""
    names = {"logrotate", *OF_PAGES}
    for deb in debs.values():
        told = fields(deb)
        names |= set(named_in(told.get("Depends", ""))) | set(named_in(told.get("Recommends", "")))
    return sorted(names - set(debs))
