"""Lines of the program over files, and a desk at a port that is asked, killed, or left to end."""

import pathlib
import shutil
import socket
import subprocess
from collections.abc import Mapping, Sequence
from typing import NamedTuple, Self

from faults.judging import word_of
from faults.program import PROGRAM, finish
from harness.ports import free_port
from lies.flights import MOMENT, Step, World, name_of, read_all

# seconds in which a desk answers or ends
PATIENCE = 300
REFUSED = ("store", "not_a_desk", "damaged_log")
# more than any part asks
CONNECTIONS = 100_000


class Opened(NamedTuple):
    """What came of opening a file: the word with which it was refused, or all that was read of its content."""

    word: str | None
    content: bytes


def log_of(path: pathlib.Path) -> pathlib.Path:
    """Where a file's log is."""
    return pathlib.Path(f"{path}-wal")


def copy_pair(path: pathlib.Path, to: pathlib.Path) -> pathlib.Path:
    """Copies a file, and its log if it has one."""
    shutil.copy(path, to)
    if log_of(path).exists():
        shutil.copy(log_of(path), log_of(to))
    return to


def play(path: pathlib.Path, steps: Sequence[Step], ceilings: Mapping[int, int]) -> bool:
    """Plays requests over a file, and enrols operators first. Tells whether each was answered right."""
    operators = [f"{name_of(operator)}={ceiling}" for operator, ceiling in ceilings.items()]
    line = [PROGRAM, "play", "--db", str(path), "--at", str(MOMENT), *operators]
    ran = finish(line, b"".join(step[0] for step in steps))
    return (ran.status, ran.errors, ran.output) == (0, "", b"".join(step[1] for step in steps))


def opened(path: pathlib.Path, world: World) -> Opened:
    """Opens a file, and reads its content by the requests that tell a world."""
    return opened_or_told(path, world)[0]


def opened_or_told(path: pathlib.Path, world: World) -> tuple[Opened, str]:
    """The same, and the lines before the word of a refusal."""
    ran = finish([PROGRAM, "play", "--db", str(path), "--at", str(MOMENT)], read_all(world)[0])
    if ran.status == 0 and not ran.errors:
        return Opened(None, ran.output), ""
    cause, _, word = ran.errors.removesuffix("\n").rpartition("uss_desk: ")
    is_refused = (ran.status, ran.output) == (4, b"") and word in REFUSED
    assert is_refused, f"opened again: {ran.status}, {ran.errors!r}, {ran.output[-200:]!r}"
    return Opened(word, b""), cause


class Desk:
    """A desk that serves a file at a port of its own."""

    def __init__(self, path: pathlib.Path, connections: int = CONNECTIONS) -> None:
        for _ in range(5):
            self.port = free_port()
            words = ["serve", "--db", str(path), "--port", str(self.port), "--requests", str(connections)]
            self.process = subprocess.Popen([PROGRAM, *words], stdout=subprocess.PIPE, stderr=subprocess.PIPE)
            assert self.process.stdout
            if self.process.stdout.readline() == f"listening 127.0.0.1:{self.port}\n".encode():
                return
            self.process.kill()
            errors = self.process.communicate()[1].decode()
            if word_of(errors) != "uss_desk: network\n":
                break
        raise OSError(f"serve doesn't listen: {errors!r}")

    def __enter__(self) -> Self:
        return self

    def __exit__(self, *_: object) -> None:
        self.kill()

    def ask(self, asked: bytes) -> bytes:
        """The answer to a request, over a connection of its own."""
        with socket.create_connection(("127.0.0.1", self.port), timeout=PATIENCE) as client:
            client.sendall(asked)
            return b"".join(iter(lambda: client.recv(65536), b""))

    def kill(self) -> None:
        """Kills the desk by SIGKILL, unless it has ended."""
        self.process.kill()
        self.process.communicate()

    def ended(self) -> tuple[int, str]:
        """The exit status and the errors of a desk that ends by itself."""
        errors = self.process.communicate(timeout=PATIENCE)[1].decode(errors="replace")
        return self.process.returncode, errors
