"""Debian's packages that tests need, and which of them aren't installed: packages.txt lists them."""

from __future__ import annotations

import functools
import importlib.util
import os
import pathlib
import shutil
from typing import NamedTuple

from harness.places import TESTS


class Package(NamedTuple):
    """A package, by what it is found, and who uses it."""

    name: str
    found_by: str
    users: tuple[str, ...]


@functools.cache
def packages() -> list[Package]:
    """The lines of packages.txt."""
    lines = (line.split() for line in (TESTS / "packages.txt").read_text(encoding="utf-8").splitlines())
    return [Package(words[0], words[1], tuple(words[2:])) for words in lines if words and words[0] != "#"]


def is_there(found_by: str) -> bool:
    """Whether a module of Python, a file or a tool is there."""
    if found_by.startswith("import:"):
        return importlib.util.find_spec(found_by.removeprefix("import:")) is not None
    if found_by.startswith("/"):
        return pathlib.Path(found_by).exists()
    return shutil.which(found_by, path=f"{os.environ.get('PATH', '')}:/usr/sbin") is not None


@functools.cache
def lacking(user: str) -> list[str]:
    """The packages that a folder or a file of tests needs and that aren't installed."""
    needed = (package for package in packages() if {"all", user} & set(package.users))
    return [package.name for package in needed if not is_there(package.found_by)]
