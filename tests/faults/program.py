"""Runs of the program: bare, or under strace, which refuses and stops what it is told to."""

import os
import pathlib
import re
import shutil
import subprocess
import tempfile
from collections.abc import Sequence
from subprocess import PIPE
from typing import NamedTuple

from faults.in_each_call import ONE_MAPPING_EACH
from faults.scenario import MOMENT, OPERATORS, READING
from harness import program
from harness.ports import until

PROGRAM = str(program.PROGRAM)
PATIENCE = 300
# In which each allocation is one mmap.
TUNED = {**os.environ, "GLIBC_TUNABLES": ONE_MAPPING_EACH}
# With -f each line of strace begins with the number of a process.
PROCESS = re.compile(r"^\d+ +", re.MULTILINE)
WHOLE = "PRAGMA integrity_check; PRAGMA foreign_key_check;"


class Ran(NamedTuple):
    """What came of a run: its exit status (less than 0: the signal that ended it), its two outputs, strace's lines."""

    status: int
    output: bytes
    errors: str
    trace: list[str]


def play_words(path: str | None = None, operators: Sequence[str] = OPERATORS) -> list[str]:
    """The line of a `play`, in memory or over a file, that enrols operators first."""
    where = ["--db", path] if path else []
    return ["play", *where, "--at", MOMENT, *operators]


def finish(line: Sequence[str], given: bytes) -> Ran:
    """Runs a line to its end, or until patience ends, which is told as status 124."""
    try:
        ran = subprocess.run(line, input=given, capture_output=True, timeout=PATIENCE, check=False)
    except subprocess.TimeoutExpired as late:
        return Ran(124, late.stdout or b"", f"no end within {PATIENCE} s", [])
    return Ran(ran.returncode, ran.stdout, ran.stderr.decode(errors="replace"), [])


def run(words: Sequence[str], given: bytes = b"") -> Ran:
    """Runs the program bare."""
    return finish([PROGRAM, *words], given)


def run_traced(words: Sequence[str], given: bytes, options: Sequence[str]) -> Ran:
    """Runs the program under strace with these options."""
    with tempfile.TemporaryDirectory(prefix="faults-") as room:
        trace = pathlib.Path(room) / "trace"
        ran = finish(["strace", "-qq", "-o", str(trace), *options, PROGRAM, *words], given)
        lines = PROCESS.sub("", trace.read_text(errors="replace")).splitlines() if trace.exists() else []
    return ran._replace(trace=lines)


def run_attached(words: Sequence[str], before: bytes, length: int, given: bytes, options: Sequence[str]) -> Ran:
    """Runs the program, and traces it by strace with these options once it has answered what is asked before, by so
    many bytes, and reads on; then it is given the rest. The trace has what it does from then on."""
    with tempfile.TemporaryDirectory(prefix="faults-") as room:
        with subprocess.Popen([PROGRAM, *words], stdin=PIPE, stdout=PIPE, stderr=PIPE, env=TUNED) as program:
            assert program.stdin and program.stdout
            program.stdin.write(before)
            program.stdin.flush()
            told = program.stdout.read(length)
            until("a read of its input", lambda: reads_on(program.pid), pause=0.001)
            line = ["strace", "-o", f"{room}/trace", *options, "-p", str(program.pid)]
            with subprocess.Popen(line, stderr=PIPE) as tracer:
                assert tracer.stderr and b"attached" in tracer.stderr.readline()
                output, errors = communicate(program, given)
        lines = pathlib.Path(room, "trace").read_text(errors="replace").splitlines()
    return Ran(program.returncode, told + output, errors.decode(errors="replace"), lines)


def communicate(program: subprocess.Popen[bytes], given: bytes) -> tuple[bytes, bytes]:
    """What a program that is given this says until it ends, or until it is killed as patience ends."""
    try:
        return program.communicate(given, PATIENCE)
    except subprocess.TimeoutExpired:
        program.kill()
        return program.communicate()


def reads_on(number: int) -> bool:
    """Whether the process of this number waits for its standard input."""
    return pathlib.Path(f"/proc/{number}/syscall").read_text().startswith("0 0x0 ")


def read_content(path: str) -> Ran:
    """What the program answers to a List of each operator, over a file that it opens again."""
    return run(play_words(path, []), READING)


def damage(path: str) -> str | None:
    """What SQLite's own tools find wrong with a copy of a file and of its log, or None."""
    with tempfile.TemporaryDirectory(prefix="faults-") as room:
        for name in filter(os.path.exists, (path, f"{path}-wal")):
            shutil.copy(name, room)
        ran = finish(["sqlite3", f"{room}/{os.path.basename(path)}", WHOLE], b"")
    said = ran.output.decode(errors="replace") + ran.errors
    return None if said == "ok\n" else f"sqlite3 says {said!r}"
