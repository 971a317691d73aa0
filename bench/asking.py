"""A desk that is asked one request at a time, and what each takes of the processor."""

import os
import pathlib
import re
import select
import subprocess

import crowds

HERE = pathlib.Path(__file__).resolve().parent
PROGRAM = os.environ.get("DESK", str(HERE.parent / "crates" / "uss_desk" / "out" / "uss_desk")).split()
"""The command line of the program, without its words."""
MOMENT = 1780315000


class Ended(Exception):
    """The desk has ended or is asked no more: its status, below 0 if it was killed, or why."""


class Desk:
    """A `play` over a file or `:memory:`, which is killed once a request takes more than so many seconds."""

    def __init__(self, file: str, words: list[str], longest: float = 3600) -> None:
        line = [*PROGRAM, "play", "--db", file, "--at", str(MOMENT), *words]
        self._process = subprocess.Popen(line, stdin=subprocess.PIPE, stdout=subprocess.PIPE)
        assert self._process.stdin and self._process.stdout
        self._input, self._output, self._longest = self._process.stdin, self._process.stdout, longest

    def ask(self, asked: bytes) -> tuple[bytes, bytes]:
        """The status line and the body of an answer."""
        begun = self.spent()
        try:
            self._input.write(asked)
            self._input.flush()
        except BrokenPipeError:
            raise Ended(self._process.wait()) from None
        while not select.select([self._output], [], [], 0.2)[0]:
            if self.spent() - begun > self._longest:
                self._process.kill()
        head = b""
        while not head.endswith(b"\r\n\r\n"):
            line = self._output.readline()
            if not line:
                raise Ended(self._process.wait())
            head += line
        return head.split(b"\r\n")[0], self._output.read(crowds.length_of(head))

    def spent(self) -> float:
        """Seconds of the processor so far."""
        return int(pathlib.Path(f"/proc/{self._process.pid}/schedstat").read_text().split()[0]) / 1e9

    def most(self) -> float:
        """The most memory so far, in MB."""
        status = pathlib.Path(f"/proc/{self._process.pid}/status").read_text()
        return int(status.split("VmHWM:")[1].split()[0]) * 1024 / 1e6

    def end(self) -> None:
        """Ends the input, and waits for the desk."""
        self._input.close()
        if self._process.wait():
            raise Ended(self._process.returncode)

    def kill(self) -> None:
        """Ends the desk at once, if it runs still."""
        self._process.kill()
        self._process.wait()
        self._input.close()
        self._output.close()


def told(line: bytes, body: bytes) -> str:
    """An answer in a few words."""
    words = re.search(rb'"(?:notes|message|error|status)":"([^"]+)"', body[:400])
    return f"{line.split()[1].decode()} {words[1].decode() if words else f'{len(body):,} bytes'}"


def counted(requests: list[bytes], words: list[str]) -> float:
    """Millions of instructions of a desk that answers these requests."""
    line = ["valgrind", "--tool=callgrind", "--callgrind-out-file=/dev/null", *PROGRAM, "play"]
    line += ["--db", ":memory:", "--at", str(MOMENT), *words]
    ran = subprocess.run(line, input=b"".join(requests), capture_output=True, check=True)
    return int(ran.stderr.split(b"Collected : ")[1].split()[0]) / 1e6
