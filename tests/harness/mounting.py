"""File systems in memory, which are mounted where nothing but some commands see them."""

from __future__ import annotations

import pathlib
import subprocess
import tempfile
from collections.abc import Sequence

from harness.program import PATIENCE

APART = (["unshare", "--mount"], ["unshare", "--map-root-user", "--mount"])
# Mounts $1 KB at the folder $2, tells that it is there, and holds it until it is killed.
HELD = 'mount -t tmpfs -o size="$1"k tmpfs "$2" && echo mounted && exec sleep infinity'


def way_to_mount() -> list[str] | None:
    """The words that run a command where it may mount, or None."""
    for words in APART:
        with tempfile.TemporaryDirectory(prefix="mounted-") as room:
            tried = [*words, "mount", "-t", "tmpfs", "-o", "size=64k", "tmpfs", room]
            try:
                if subprocess.run(tried, capture_output=True, timeout=PATIENCE, check=False).returncode == 0:
                    return words
            except FileNotFoundError:
                return None
    return None


class SmallDisk:
    """A disk of so many KB that is mounted at a folder, for commands that are run `under` it, until it is left."""

    def __init__(self, apart: Sequence[str], folder: pathlib.Path, kilobytes: int) -> None:
        self._apart, self._folder, self._kilobytes = apart, folder, kilobytes

    @property
    def under(self) -> list[str]:
        """The words before a command that sees it."""
        users = ["--user", "--preserve-credentials"] if "--map-root-user" in self._apart else []
        return ["nsenter", "--target", str(self._holder.pid), *users, "--mount"]

    @property
    def seen(self) -> pathlib.Path:
        """The path at which everybody sees what is on it."""
        return pathlib.Path(f"/proc/{self._holder.pid}/root") / self._folder.relative_to("/")

    def resize(self, kilobytes: int) -> None:
        """Gives it another size."""
        words = ["mount", "-o", f"remount,size={kilobytes}k", str(self._folder)]
        subprocess.run([*self.under, *words], check=True, capture_output=True)

    def __enter__(self) -> SmallDisk:
        words = [*self._apart, "sh", "-c", HELD, "sh", str(self._kilobytes), str(self._folder)]
        self._holder = subprocess.Popen(words, stdin=subprocess.DEVNULL, stdout=subprocess.PIPE)
        assert self._holder.stdout and self._holder.stdout.readline() == b"mounted\n"
        return self

    def __exit__(self, *_: object) -> None:
        self._holder.kill()
        self._holder.communicate()
