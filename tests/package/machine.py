"""A clean Debian 12, with just what the packages say that they need, booted as a machine of its own in which they are
installed and run.

Its root is made once by mmdebstrap, and kept for some days in packaging/out. systemd-nspawn boots it, with a network of
its own, so that its ports are free and nothing of it is left.
"""

from __future__ import annotations

import contextlib
import hashlib
import os
import pathlib
import signal
import subprocess
import tempfile
import time
from collections.abc import Sequence

from harness.places import TOP
from harness.ports import until
from package.commands import PATIENCE, run

MIRROR = os.environ.get("DEBIAN_MIRROR", "http://deb.debian.org/debian")
KEPT = TOP / "packaging" / "out"
DAYS = 14
# What nobody reads here, left out so that it is made sooner.
LEFT_OUT = ("/usr/share/locale/*", "/usr/share/doc/*", "/usr/share/man/*")
PATH = "/usr/local/sbin:/usr/local/bin:/usr/sbin:/usr/bin:/sbin:/bin"
ROOM = 2_000_000_000
# Seconds that a machine may take to boot.
BOOTED = 300
PASSED_OVER = {
    "proc",
    "sys",
    "dev",
    "run",
    "tmp",
    "root",
    "var/lib/dpkg",
    "var/lib/apt",
    "var/lib/systemd",
    "var/cache",
    "var/log",
}


def quick_folder() -> str | None:
    """A folder in memory, if there is one with room that runs programs; else none, which is that of TMPDIR."""
    with contextlib.suppress(OSError):
        room = os.statvfs("/dev/shm")
        if room.f_bavail * room.f_frsize > ROOM and not room.f_flag & (os.ST_NOEXEC | getattr(os, "ST_NODEV", 4)):
            return "/dev/shm"
    return None


class Making:
    """The archive of a root with these packages of Debian; it is begun at once if it isn't there."""

    made: subprocess.Popen[str] | None

    def __init__(self, packages: Sequence[str]) -> None:
        sum_of = hashlib.sha256(" ".join([MIRROR, *packages]).encode()).hexdigest()[:12]
        self.path = KEPT / f"bookworm-{sum_of}.tar"
        self.part = pathlib.Path(f"{self.path}.{os.getpid()}")
        self.made = None
        if self.path.is_file() and time.time() - self.path.stat().st_mtime < DAYS * 86400:
            return
        KEPT.mkdir(parents=True, exist_ok=True)
        for old in KEPT.glob("bookworm-*.tar"):
            old.unlink()
        words = [
            "mmdebstrap",
            "--quiet",
            "--variant=apt",
            "--components=main",
            "--format=tar",
            f"--include={','.join(packages)}",
            *(f"--dpkgopt=path-exclude={glob}" for glob in LEFT_OUT),
            '--aptopt=Acquire::Languages "none"',
            "bookworm",
            str(self.part),
            MIRROR,
        ]
        quick = quick_folder()
        place = {"TMPDIR": quick} if quick else {}
        self.made = subprocess.Popen(
            words, stdout=subprocess.PIPE, stderr=subprocess.STDOUT, text=True, env={**os.environ, **place}
        )

    def archive(self) -> pathlib.Path:
        """The archive, once it is made."""
        made, self.made = self.made, None
        if made:
            told, _ = made.communicate(timeout=4 * PATIENCE)
            if made.returncode:
                self.part.unlink(missing_ok=True)
                raise RuntimeError(f"mmdebstrap made no root: {told.strip()[-500:]}")
            self.part.rename(self.path)
        return self.path


class Machine:
    """A machine that systemd boots in a root of an archive; all of it is gone at the end."""

    def __init__(self, archive: pathlib.Path) -> None:
        self._room = tempfile.TemporaryDirectory(prefix="machine-", dir=quick_folder())
        self.folder = pathlib.Path(self._room.name) / "root"
        self.folder.mkdir()
        subprocess.run(["tar", "--extract", "--numeric-owner", f"--file={archive}"], cwd=self.folder, check=True)
        # Where no systemd runs, there is none that could be asked for a unit.
        alone = [] if pathlib.Path("/run/systemd/system").is_dir() else ["--keep-unit"]
        words = [
            "systemd-nspawn",
            "--quiet",
            "--register=no",
            *alone,
            "--private-network",
            "--console=pipe",
            f"--directory={self.folder}",
            "--boot",
        ]
        self.log = open(f"{self._room.name}/log", "w+", encoding="utf-8", errors="replace")
        self.nspawn = subprocess.Popen(words, stdin=subprocess.DEVNULL, stdout=self.log, stderr=subprocess.STDOUT)
        self.first = self._first_process()

    def _first_process(self) -> str:
        """The number of the machine's systemd, once it has started what it starts."""
        path = pathlib.Path(f"/proc/{self.nspawn.pid}/task/{self.nspawn.pid}/children")
        end = time.monotonic() + BOOTED
        while self.nspawn.poll() is None and time.monotonic() < end:
            with contextlib.suppress(OSError):  # one of them ends in this moment
                for child in path.read_text().split():
                    if pathlib.Path(f"/proc/{child}/comm").read_text() == "systemd\n":
                        self.first = child
                        if self.sh("systemctl is-system-running").split()[0] in ("running", "degraded"):
                            return child
            time.sleep(0.1)
        self.log.seek(0)
        raise RuntimeError(f"systemd-nspawn boots no machine here: {self.log.read()[-500:]}")

    def __enter__(self) -> Machine:
        return self

    def __exit__(self, *_: object) -> None:
        with contextlib.suppress(ProcessLookupError):
            os.kill(int(self.first), signal.SIGKILL)
        self.nspawn.wait(timeout=PATIENCE)
        self.log.close()
        self._room.cleanup()

    def sh(self, line: str) -> str:
        """What a line of a shell prints there, as root in /root."""
        words = [
            "nsenter",
            f"--target={self.first}",
            "--mount",
            "--uts",
            "--ipc",
            "--net",
            "--pid",
            "env",
            "-i",
            f"PATH={PATH}",
            "HOME=/root",
            "LC_ALL=C.UTF-8",
            "DEBIAN_FRONTEND=noninteractive",
            "sh",
            "-c",
        ]
        return run([*words, f"cd /root && {line}"])

    def until(self, condition: str) -> None:
        """Waits until a line of a shell ends well there."""
        until(condition, lambda: "status" not in self.sh(f"{condition} >/dev/null 2>&1"), PATIENCE)

    def curl(self, *words: str) -> str:
        """What this machine's curl prints in the network of that one."""
        return run(
            [
                "nsenter",
                f"--target={self.first}",
                "--net",
                "curl",
                "--silent",
                "--show-error",
                "--max-time",
                "100",
                *words,
            ]
        )

    def tree(self) -> set[str]:
        """Each path, but for what dpkg, apt, systemd and the kernel keep, and root's own folder."""
        found = set[str]()
        for folder, names, files in os.walk(self.folder):
            here = pathlib.Path(folder).relative_to(self.folder)
            names[:] = [name for name in names if str(here / name) not in PASSED_OVER]
            found |= {str(here / name) for name in [*names, *files]}
        return found | {str(path.relative_to(self.folder)) for path in (self.folder / "var/log").glob("uss*")}


def put_in(machine: Machine, *debs: pathlib.Path) -> None:
    """Hands packages to the administrator of the machine."""
    for deb in debs:
        (machine.folder / "root" / deb.name).write_bytes(deb.read_bytes())
