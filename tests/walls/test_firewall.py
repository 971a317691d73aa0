"""The rules for nftables: who may listen and ask at the desk's ports of the loopback, and what an address may do.

They are loaded in a network of its own, with users that every Debian has in the place of the package's."""

from __future__ import annotations

import os
import re
import shlex
import subprocess
from collections.abc import Iterator

import pytest
from harness.places import DEPLOY
from harness.rows import Rows

pytestmark = [pytest.mark.root, pytest.mark.alone]

USERS = {"uss_desk_proxy": "www-data", "uss_desk": "games", "haproxy": "backup"}
LISTEN = """
import socket, sys
listener = socket.create_server(("127.0.0.1", int(sys.argv[1])), backlog=512)
print("listening", flush=True)
while True:
    with listener.accept()[0] as link:
        print("asked", flush=True)
        link.sendall(b"answer")
        link.recv(99)
"""
ASK = """
import socket, sys
try:
    with socket.create_connection(("127.0.0.1", int(sys.argv[1])), timeout=float(sys.argv[2])) as link:
        print(link.recv(99).decode())
except OSError as fault:
    print(type(fault).__name__)
"""
MANY = """
import socket
held, refused = [], 0
for _ in range(150):
    try:
        held.append(socket.create_connection(("127.0.0.1", 443), timeout=20))
    except ConnectionError:
        refused += 1
print(len(held), refused)
"""
SILENCE, PATIENCE = 2, 60
"""Seconds for which a port is asked that answers nothing, and one that does."""


class Network:
    """A network of its own, in which commands are run."""

    def __init__(self, holder: subprocess.Popen[bytes]) -> None:
        self._under = ["nsenter", f"--target={holder.pid}", "--net"]

    def run(self, *words: str, given: str = "") -> str:
        """What a command prints there."""
        line = [*self._under, *words]
        return subprocess.run(
            line, input=given, capture_output=True, text=True, timeout=3 * PATIENCE, check=False
        ).stdout

    def python(self, user: str, script: str, *words: str) -> list[str]:
        """The words that run a script as a user."""
        return [
            *self._under,
            "setpriv",
            f"--reuid={user}",
            "--clear-groups",
            "/usr/bin/python3",
            "-c",
            script,
            *words,
        ]

    def ask(self, user: str, port: int, seconds: int) -> str:
        """What a user hears at a port within so many seconds."""
        line = self.python(user, ASK, str(port), str(seconds))
        ran = subprocess.run(line, capture_output=True, text=True, timeout=3 * PATIENCE, check=False)
        return ran.stdout.strip()

    def load(self, name: str) -> None:
        """Loads rules of deploy/."""
        lines = (DEPLOY / name).read_text(encoding="utf-8").splitlines(True)
        for at, rule in enumerate(lines):
            if "skuid" in rule and not rule.startswith("#"):
                lines[at] = re.sub(r"\b(uss_desk_proxy|uss_desk|haproxy)\b", lambda found: USERS[str(found[1])], rule)
        line = [*self._under, "nft", "-f", "-"]
        subprocess.run(line, input="".join(lines), text=True, timeout=3 * PATIENCE, check=True)


@pytest.fixture
def network() -> Iterator[Network]:
    """A network with a loopback alone."""
    os.environ["PATH"] = f"{os.environ['PATH']}:/usr/sbin"
    line = ["unshare", "--net", "sh", "-c", "ip link set lo up && echo up && exec sleep infinity"]
    with subprocess.Popen(line, stdout=subprocess.PIPE) as holder:
        try:
            assert holder.stdout and holder.stdout.readline() == b"up\n"
            yield Network(holder)
        finally:
            holder.kill()


WHO = [
    ("the desk, asked by the queue", "games", "backup", 8080, "answer", 1),
    ("the desk, asked by root", "games", "root", 8080, "answer", 1),
    ("the desk, asked by another user", "games", "nobody", 8080, "ConnectionRefusedError", 0),
    ("another user in its place", "nobody", "backup", 8080, "TimeoutError", 0),
    ("another user in its place, asked by root", "nobody", "root", 8080, "TimeoutError", 0),
    ("the queue, asked by the proxy", "backup", "www-data", 8083, "answer", 1),
    ("the queue, asked by another user", "backup", "nobody", 8083, "ConnectionRefusedError", 0),
    ("another user in the queue's place", "nobody", "www-data", 8083, "TimeoutError", 0),
    ("the proxy's other port, asked by another user", "www-data", "nobody", 8082, "ConnectionRefusedError", 0),
    ("another port", "nobody", "nobody", 8090, "answer", 1),
]
"""What, who listens, who asks, where, what is heard, and how often the listener is asked."""


def test_ports(rows: Rows, network: Network) -> None:
    """Without the rules another user is taken for the desk; with them nobody hears it, and it is sent nothing."""
    for what, listens, asks, port, heard, count in (("no rules", "nobody", "backup", 8080, "answer", 1), *WHO):
        if what != "no rules":
            network.load("desk_port.nft")
        line = network.python(listens, LISTEN, str(port))
        with subprocess.Popen(line, stdout=subprocess.PIPE, text=True) as listener:
            try:
                assert listener.stdout and listener.stdout.readline() == "listening\n", shlex.join(line)
                seconds = SILENCE if heard == "TimeoutError" else PATIENCE
                rows.equal(what, heard, network.ask(asks, port, seconds))
            finally:
                listener.kill()
            rows.equal(f"{what}: how often it is asked", count, listener.stdout.read().count("asked"))


def test_limits(rows: Rows, network: Network) -> None:
    """One address has a hundred connections, and the others are refused."""
    network.load("address_limits.nft")
    listen = LISTEN.replace("link.recv(99)", "held.append(link.dup())").replace("while True", "held = []\nwhile True")
    with subprocess.Popen(network.python("root", listen, "443"), stdout=subprocess.PIPE, text=True) as listener:
        try:
            assert listener.stdout and listener.stdout.readline() == "listening\n"
            rows.equal("held and refused", "100 50\n", network.run("/usr/bin/python3", "-c", MANY))
        finally:
            listener.kill()
