"""Ports of this machine, and waiting for whoever listens there."""

from __future__ import annotations

import os
import random
import socket
import time
from collections import deque
from collections.abc import Callable

PATIENCE = 120
"""Seconds that something may take to come about."""
FIRST, LAST = 20_000, 32_000
"""Below the ports from which the kernel lets clients connect, so that none of these takes one that is free."""
CHANCE = random.Random(os.getpid())
CLAIMED, MOST_CLAIMED = deque[socket.socket](), 64
"""Names that this process has bound, one for each port that it took lately. Until somebody listens at such a port, the
name keeps it from this process and from the others that run tests beside it."""


def free_port() -> int:
    """A port at which nobody listened a moment ago, and that no test has taken."""
    for _ in range(1_000):
        port = CHANCE.randrange(FIRST, LAST)
        claim = socket.socket(socket.AF_UNIX)
        try:
            claim.bind(f"\0uss_desk tests {port}")
            with socket.socket() as probe:
                probe.setsockopt(socket.SOL_SOCKET, socket.SO_REUSEADDR, 1)
                probe.bind(("127.0.0.1", port))
        except OSError:
            claim.close()
            continue
        CLAIMED.append(claim)
        if len(CLAIMED) > MOST_CLAIMED:
            CLAIMED.popleft().close()
        return port
    raise OSError("no port is free")


def is_listening(port: int) -> bool:
    """Whether somebody listens at a port."""
    try:
        with socket.create_connection(("127.0.0.1", port), timeout=1):
            return True
    except OSError:
        return False


def until(what: str, condition: Callable[[], object], patience: float = PATIENCE, pause: float = 0.05) -> None:
    """Waits until a condition holds, which is looked at after each pause."""
    end = time.monotonic() + patience
    while not condition():
        if time.monotonic() > end:
            raise TimeoutError(f"{what} took more than {patience} s")
        time.sleep(pause)
