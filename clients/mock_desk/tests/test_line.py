"""The command line, as its users type it."""
import contextlib
import pathlib
import socket
import subprocess
import sys
from collections.abc import Iterator

import pytest

PLACE = pathlib.Path(__file__).parent.parent
EXAMPLES = PLACE.parent.parent / "examples"
STATUS = b"GET /status HTTP/1.1\r\nx-operator: alfa\r\n\r\n"
READY = b'{"status":"Ready"}'


def run(*words: str, given: bytes = b"") -> tuple[int, bytes, str]:
    """The exit status, the standard output and the standard error of a line."""
    ran = subprocess.run(
        [sys.executable, "-m", "mock_desk", *words], cwd=PLACE, input=given, capture_output=True, timeout=300
    )
    return ran.returncode, ran.stdout, ran.stderr.decode()


@pytest.mark.parametrize("name", sorted(it.stem for it in EXAMPLES.glob("*.http")))
def test_examples(name: str) -> None:
    given, wanted = ((EXAMPLES / f"{name}.{it}").read_bytes() for it in ("http", "answer"))
    terms = EXAMPLES / f"{name}.args"
    words = terms.read_text().split() if terms.is_file() else []
    assert run("--at", "1780315000", *words, "alfa=100", "bravo=100", given=given) == (0, wanted, "")


def test_a_file(tmp_path: pathlib.Path) -> None:
    line = ["--db", str(tmp_path / "mock.db"), "--at", "1780315000"]
    put, show = ((EXAMPLES / f"{it}.http").read_bytes() for it in ("first_put", "show_p"))
    assert run(*line, "alfa=100", given=put) == (0, (EXAMPLES / "first_put.answer").read_bytes(), "")
    assert run(*line, given=show) == (0, (EXAMPLES / "show_p_kept.answer").read_bytes(), "")


@pytest.mark.parametrize(
    "words",
    [["alfa=1001"], ["alfa=00100"], ["alfa=x"], ["Alfa=1"], ["alfa"], ["=1"]]
    + [
        ["--equal", it] for it in ("", "5, 10", "5,", "00010", "1001", "10,5", "10,10", ",".join(map(str, range(33))))
    ],
)
def test_values(words: list[str]) -> None:
    assert run("--at", "1780315000", *words) == (2, b"", "uss_desk: value\n")


@pytest.mark.parametrize(
    "words",
    [
        [],
        ["--at", "-1"],
        ["--at", "253370764801"],
        ["--port", "0"],
        ["--port", "1", "--requests", "0"],
        ["--at", "x"],
        ["--at", "0", "--cells", "0"],
        ["--at", "0", "--cells", "5000001"],
        ["--at", "0", "--cells", "x"],
    ],
)
def test_lines_that_are_none(words: list[str]) -> None:
    status, output, complained = run(*words)
    assert (status, output) == (2, b"") and complained


def test_ends() -> None:
    line = ["--at", "1780315000", "alfa=1", "alfa=100"]
    assert run(*line, given=b"") == (0, b"", "")
    status, output, complained = run(*line, given=STATUS + b"GET")
    assert (status, output[-18:], complained) == (3, READY, "uss_desk: cut_short\n")
    status, output, complained = run(*line, given=b"\x00\r\n\r\n" + STATUS)
    assert (status, output[-20:], complained) == (3, b'{"error":"bad_head"}', "uss_desk: unframed\n")
    assert run("--db", "/no/such/folder/mock.db", *line)[::2] == (4, "uss_desk: store\n")
    assert run("--at", "1780315000", "--", "-=5", given=STATUS.replace(b"alfa", b"-"))[1].endswith(READY)


def test_a_port_in_use() -> None:
    with socket.create_server(("127.0.0.1", 0)) as other:
        port = other.getsockname()[1]
        cause = f"uss_desk: 127.0.0.1:{port}: in use by another program\n"
        assert run("--port", str(port), "alfa=100") == (4, b"", f"{cause}uss_desk: network\n")


TRIES = 10
"""How often another port is taken if somebody else was faster."""


@contextlib.contextmanager
def listening() -> Iterator[tuple[subprocess.Popen[bytes], int]]:
    """A desk that serves three requests, and its port."""
    for _ in range(TRIES):
        with socket.socket() as free:
            free.bind(("127.0.0.1", 0))
            port = free.getsockname()[1]
        line = [sys.executable, "-m", "mock_desk", "--port", str(port), "--requests", "3", "alfa=100"]
        with subprocess.Popen(line, cwd=PLACE, stdout=subprocess.PIPE, stderr=subprocess.PIPE) as served:
            assert served.stdout and served.stderr
            told = served.stdout.readline()
            if told == f"listening 127.0.0.1:{port}\n".encode():
                yield served, port
                return
            assert (told, b"in use by another program" in served.stderr.read()) == (b"", True)
    raise OSError("no port is free")


def test_a_port() -> None:
    with listening() as (served, port):
        for pieces, wanted in [([STATUS], READY), ([STATUS[:9], STATUS[9:]], READY), ([STATUS[:9]], b"")]:
            with socket.create_connection(("127.0.0.1", port)) as client:
                for piece in pieces:
                    client.sendall(piece)
                client.shutdown(socket.SHUT_WR)
                answer = b"".join(iter(lambda: client.recv(4096), b""))
                assert answer.endswith(wanted) and bool(answer) == bool(wanted)
        assert served.wait(300) == 0
