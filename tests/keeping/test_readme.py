"""The commands of docs/by-hand.md, by the program and by the script uss_desk, which ends a desk; the build."""

from __future__ import annotations

import contextlib
import os
import pathlib
import re
import shutil
import signal
import subprocess
from collections.abc import Iterator, Sequence

import pytest
from harness.places import TOP
from harness.ports import free_port
from harness.printed import blocks, page, section
from harness.program import DESK, PROGRAM, need_script
from harness.rows import Rows
from keeping.given import BY_HAND, SCRIPT, STORED, count_of, put_at, run, shown

pytestmark = pytest.mark.alone


@pytest.fixture
def port() -> int:
    """A free port."""
    return free_port()


def serve_line(port: int) -> list[str]:
    """The page's command that serves, at another port."""
    return shown(BY_HAND, "./uss_desk serve").replace("8080", str(port)).split()


def hear_interrupts() -> None:
    """Ctrl-C is heard. What a shell begins in the background ignores it, and then no script can trap it."""
    signal.signal(signal.SIGINT, signal.SIG_DFL)


@contextlib.contextmanager
def serving(words: Sequence[str], folder: pathlib.Path) -> Iterator[subprocess.Popen[str]]:
    """A desk that serves, once it says so; all its processes are killed if they are left."""
    desk = subprocess.Popen(
        words,
        cwd=folder,
        stdout=subprocess.PIPE,
        stderr=subprocess.PIPE,
        text=True,
        start_new_session=True,
        preexec_fn=hear_interrupts,
    )
    assert desk.stdout
    desk.stdout.readline()
    try:
        yield desk
    finally:
        with contextlib.suppress(ProcessLookupError):
            os.killpg(desk.pid, signal.SIGKILL)
        desk.wait()


def enrol(folder: pathlib.Path) -> str:
    """What the page's command that enrols prints."""
    return run(shown(BY_HAND, "./uss_desk enrol").split(), folder)


@pytest.mark.quick
def test_by_hand(rows: Rows, room: pathlib.Path, port: int) -> None:
    """Where ./uss_desk is the program: an enrolment, and a desk that answers."""
    (room / "uss_desk").symlink_to(DESK[0])
    rows.equal("the enrolment", "enrolled alfa 100\n", enrol(room))
    with serving(serve_line(port), room):
        rows.equal("a plan", STORED, put_at(port))


def count_alone(file: pathlib.Path) -> str:
    """What a copy of the file without its log has."""
    alone = file.with_name("alone.db")
    shutil.copy2(file, alone)
    return count_of(alone)


# In the place of `rt`: proves what stands in a folder if all crates below it are proved there, and fails at one crate.
RT = """#!/usr/bin/env python3
import os, pathlib, sys
here = pathlib.Path.cwd()
lines = [line.split(":") for line in (here.parents[1] / "crates.txt").read_text().splitlines() if line[:1].isalpha()]
uses = {name: set(needs.split()) & {one for one, _ in lines} for name, needs in lines}
lacking = [one for one in uses[here.name] if not (here.parent / one / "out/rlib/stamp").is_file()]
print(here.name, "lacks", lacking)
if lacking or here.name == os.environ.get("FAILS"):
    sys.exit(1)
if (here / "out/rlib/stamp").is_file():
    sys.exit(0)
(here / "out/rlib").mkdir(parents=True)
(here / "out/rlib/stamp").write_text("proved")
with (here / "out/times").open("a") as times:
    times.write("once ")
"""


def crates_below() -> set[str]:
    """The crates that the program stands on."""
    lines = [line.split(":") for line in (TOP / "crates.txt").read_text().splitlines() if re.match("[a-z]", line)]
    uses = {name: set(needs.split()) & {name for name, _ in lines} for name, needs in lines}
    below, found = set[str](), uses["uss_desk"]
    while found:
        below |= found
        found = set[str]().union(*(uses[name] for name in found)) - below
    return below


@pytest.fixture
def crates(room: pathlib.Path) -> pathlib.Path:
    """A repository of the crates of crates.txt, each of one line, with a command rt that proves nothing."""
    (room / "packaging").mkdir()
    shutil.copy2(TOP / "packaging" / "prove", room / "packaging" / "prove")
    for file in ("crates.txt", "HANDLES"):
        shutil.copy2(TOP / file, room / file)
    for name in {*crates_below(), "uss_desk"}:
        (room / "crates" / name / "src").mkdir(parents=True)
        (room / "crates" / name / "src" / "lib.rt").write_text("//!\n")
    (room / "bin").mkdir()
    (room / "bin" / "rt").write_text(RT)
    (room / "bin" / "rt").chmod(0o755)
    return room


def prove(crates: pathlib.Path, fails: str = "") -> tuple[int, list[str]]:
    """The status of the build's proofs, where this crate isn't proved, and the crates that it tells of as proved."""
    environment = {**os.environ, "PATH": f"{crates / 'bin'}:{os.environ['PATH']}", "FAILS": fails}
    words = [str(crates / "packaging" / "prove"), "uss_desk"]
    ran = subprocess.run(words, capture_output=True, text=True, env=environment, check=False)
    return ran.returncode, re.findall(r"uss_desk: (\w+) is proved,", ran.stderr)


@pytest.mark.quick
def test_build_proves_all_below(crates: pathlib.Path) -> None:
    """Each crate below the program is proved, once those are that it stands on."""
    status, told = prove(crates)
    assert (status, sorted(told)) == (0, sorted(crates_below()))


def test_build_takes_what_is_proved(crates: pathlib.Path) -> None:
    """What a build has proved stands in the crates' folders, and isn't proved again by the next."""
    assert prove(crates)[0] == prove(crates)[0] == 0
    assert {(crates / "crates" / one / "out" / "times").read_text() for one in crates_below()} == {"once "}
    assert not list((crates / "crates" / "uss_desk" / "out").glob("lanes-*"))


@pytest.mark.quick
def test_build_ends_at_a_failure(crates: pathlib.Path) -> None:
    """Where a crate isn't proved, none that stands on it is begun, and the status says so."""
    status, told = prove(crates, "desk_rules")
    assert status == 4
    assert not {"desk_rules", "desk_store", "desk_wire", "desk_tables"} & set(told)


@pytest.fixture
def linked(room: pathlib.Path) -> pathlib.Path:
    """A folder in which ./uss_desk is a link to the script."""
    need_script()
    (room / "uss_desk").symlink_to(SCRIPT)
    return room


@pytest.mark.proved
def test_script_by_a_link(linked: pathlib.Path) -> None:
    """It runs the program."""
    assert run(["./uss_desk", "--version"], linked) == run([SCRIPT, "--version"])


@pytest.mark.proved
@pytest.mark.parametrize("name, status", [("SIGINT", 130), ("SIGTERM", 143)])
def test_script_ended(rows: Rows, linked: pathlib.Path, port: int, name: str, status: int) -> None:
    """The page's command that serves, ended as Ctrl-C and as systemd do: the file alone is the desk."""
    enrol(linked)
    with serving(serve_line(port), linked) as desk:
        rows.equal("a plan", STORED, put_at(port))
        os.killpg(desk.pid, getattr(signal, name))
        told = desk.communicate(timeout=300)[1]
    wanted = f"uss_desk: ended by {name}; desk.db is closed and has all of the desk\n"
    rows.equal("what is said", wanted, told)
    rows.equal("the status", status, desk.returncode)
    rows.equal("the file alone", "1|1\n", count_alone(linked / "desk.db"))


@pytest.mark.proved
def test_bare_program_ended(rows: Rows, linked: pathlib.Path, port: int) -> None:
    """After a signal to the bare program the file alone is the desk once the page's command was given, not before."""
    enrol(linked)
    with serving([str(PROGRAM), *serve_line(port)[1:]], linked) as desk:
        rows.equal("a plan at the bare program", STORED, put_at(port))
        desk.terminate()
        rows.equal("the bare program ends by the signal", -signal.SIGTERM, desk.wait())
    rows.equal("and its file alone lacks the plan", "1|0\n", count_alone(linked / "desk.db"))
    after = section(page("backup-restore.md"), "## After a kill or a power failure")
    line = blocks(after, "sh")[0].replace("runuser -u uss_desk -- uss_desk", str(PROGRAM))
    run(["sh", "-c", line.replace("/var/lib/uss_desk/", "")], linked)
    rows.equal("until the page's command is given", "1|1\n", count_alone(linked / "desk.db"))


@pytest.mark.proved
def test_install_line(rows: Rows, room: pathlib.Path) -> None:
    """The page's command that installs the program, into a folder; the unit shows the same line."""
    need_script()
    line = shown(BY_HAND, "install crates/")
    unit = (TOP / "deploy" / "uss_desk.service").read_text()
    rows.has("uss_desk.service: how the program is installed", line, unit)
    rows.equal("the page's command", "", run(["sh", "-c", line.replace("/usr/local/bin", str(room))], TOP))
    told = run([room / "uss_desk", "--version"])
    rows.equal("the program that it installs", run([*DESK, "--version"]), told)
