"""The units, the rotation of the proxy's log, and the glibc that the built program wants."""

from __future__ import annotations

import pathlib
import re
import shutil
import signal
import subprocess

import pytest
from harness.places import DEPLOY, TOP
from harness.program import PROGRAM
from harness.rows import Rows
from keeping.given import run

pytestmark = pytest.mark.alone

GLIBC = (2, 34)
"""The newest that the program may want."""
MOST = {
    DEPLOY / "uss_desk.service": 10,
    DEPLOY / "uss_desk_standby.service": 20,
    DEPLOY / "uss_desk_proxy.service": 30,
    DEPLOY / "uss_desk_metrics.service": 15,
    TOP / "packaging/uss-desk/uss_desk_queue.service": 25,
}
"""At most so much of 10 by systemd-analyze, times ten, for each unit that always runs or reads what others send."""


def settings(unit: str) -> str:
    """The settings of a unit: its lines but comments and empty ones."""
    return "\n".join(line for line in unit.splitlines() if line and not line.startswith("#"))


@pytest.mark.quick
def test_one_unit_and_many() -> None:
    """The unit of several desks, which is made of that of a single desk, differs in its names, and in all of them."""
    many = settings(run([TOP / "packaging" / "build_deb", "--by-port"]))
    assert re.findall(r"8080|/lib/uss_desk/(?!%i/)|default/uss_desk(?!-%i)|=uss_desk (?!serve)", many) == []
    alone = many.replace("uss_desk/%i", "uss_desk").replace("uss_desk-%i", "uss_desk").replace(" at port %i", "")
    assert alone.replace("%i", "8080") == settings((DEPLOY / "uss_desk.service").read_text())


@pytest.mark.quick
@pytest.mark.parametrize("path", MOST, ids=[path.name for path in MOST])
def test_what_a_unit_allows(path: pathlib.Path) -> None:
    """It lets a program do little."""
    words = ["systemd-analyze", "security", "--offline=true", f"--threshold={MOST[path]}", "--no-pager"]
    ended = subprocess.run([*words, path], capture_output=True, text=True, check=False)
    assert ended.returncode == 0, ended.stdout


@pytest.mark.quick
def test_rotation(rows: Rows, room: pathlib.Path) -> None:
    """The rotation of the proxy's log, tried in a folder."""
    rules, logrotate = room / "logrotate", shutil.which("logrotate") or "/usr/sbin/logrotate"
    rules.write_text((DEPLOY / "nginx.logrotate").read_text().replace("/srv/desk_proxy", str(room)))
    rules.chmod(0o644)
    (room / "access.log").write_text("a line\n")
    with subprocess.Popen(["sleep", "60"]) as sleeper:
        (room / "nginx.pid").write_text(str(sleeper.pid))
        run([logrotate, "--force", "--state", room / "state", rules])
        texts = [(room / name).read_text() for name in ("access.log", "access.log.1")]
        rows.equal("a rotated log", ["", "a line\n"], texts)
        rows.equal("nginx is told", -signal.SIGUSR1, sleeper.wait())


@pytest.mark.quick
def test_rotation_by_size(rows: Rows, room: pathlib.Path) -> None:
    """Each hour a log is looked at, and is rotated before the day is over once it has 100 MB."""
    rules, logrotate = room / "logrotate", shutil.which("logrotate") or "/usr/sbin/logrotate"
    rules.write_text((DEPLOY / "nginx.logrotate").read_text().replace("/srv/desk_proxy", str(room)))
    rules.chmod(0o644)
    for megabytes, names in ((1, ["access.log"]), (99, ["access.log"]), (101, ["access.log", "access.log.1"])):
        with (room / "access.log").open("ab") as log:
            log.truncate(megabytes * 2**20)
        run([logrotate, "--state", room / "state", rules])
        rows.equal(f"with {megabytes} MB", names, sorted(path.name for path in room.glob("access.log*")))


@pytest.mark.proved
def test_glibc(rows: Rows) -> None:
    """The newest glibc that the built programs want."""
    programs = [PROGRAM.parent / name for name in ("uss_desk", "uss_desk.by-rattle")]
    for program in filter(pathlib.Path.is_file, programs):
        wanted = re.findall(rb"GLIBC_(\d+)\.(\d+)", program.read_bytes())
        newest = max((int(major), int(minor)) for major, minor in wanted)
        rows.holds(f"{program.name}: glibc {newest}, and {GLIBC} or earlier", newest <= GLIBC)
