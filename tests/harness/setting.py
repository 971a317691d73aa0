"""A desk over a file, which is started again whenever it ends, behind nginx, for some operators."""

from __future__ import annotations

import contextlib
import os
import pathlib
import signal
import subprocess
import tempfile
import threading
import time
from collections.abc import Iterator, Mapping

from harness.nginx import Nginx
from harness.ports import free_port, until
from harness.program import DESK, run

OPERATORS = {"alfa": "a", "bravo": "b", "carol": "c"}
"""Names and passwords, unless others are wanted; each has the ceiling 100."""


class Setting:
    """The desk and nginx, from the first connection that both take until it is left."""

    process: subprocess.Popen[bytes]
    nginx: Nginx

    def __init__(self, operators: Mapping[str, str] = OPERATORS) -> None:
        self.operators = operators
        self.port = free_port()
        self.starts = self.ends = 0
        self._is_ending = False
        self._left = contextlib.ExitStack()

    @property
    def url(self) -> str:
        """Where nginx is asked."""
        return self.nginx.url

    def __enter__(self) -> Setting:
        with contextlib.ExitStack() as left:
            self.folder = pathlib.Path(left.enter_context(tempfile.TemporaryDirectory(prefix="setting-")))
            # nginx's workers, which are another user's, read what is in it
            self.folder.chmod(0o755)
            for name in self.operators:
                enrolled = run("enrol", "--db", str(self.folder / "desk.db"), name, "100")
                assert enrolled.status == 0, enrolled
            keeper = threading.Thread(target=self._keep, daemon=True)
            left.callback(self._end, keeper)
            keeper.start()
            until("the desk", self._is_started)
            self.nginx = left.enter_context(Nginx(self.folder, self.operators, self.port))
            self._left = left.pop_all()
        return self

    def __exit__(self, *_: object) -> None:
        self._left.close()

    def _is_started(self) -> bool:
        """Whether the desk listens, after its last start too."""
        output = self.folder / "output"
        return self.starts > self.ends and output.read_text().count("listening") >= self.starts

    def _keep(self) -> None:
        """Starts the desk, and again each time that it ends."""
        words = ["--db", str(self.folder / "desk.db"), "--port", str(self.port), "--requests", "1000000"]
        with open(self.folder / "output", "w", encoding="utf-8") as output:
            while not self._is_ending:
                self.process = subprocess.Popen(
                    [*DESK, "serve", *words],
                    stdout=output,
                    stderr=subprocess.DEVNULL,
                    stdin=subprocess.DEVNULL,
                    start_new_session=True,
                )
                self.starts += 1
                self.process.wait()
                self.ends += 1
                time.sleep(0.1)

    def kill(self) -> None:
        """Kills the desk, once it listens, and waits for its end; it is started again."""
        until("the desk", self._is_started)
        ends = self.ends
        self._signal(signal.SIGKILL)
        until("the desk's end", lambda: self.ends > ends)

    @contextlib.contextmanager
    def held(self) -> Iterator[None]:
        """Within it the desk answers nothing."""
        until("the desk", self._is_started)
        self._signal(signal.SIGSTOP)
        try:
            yield
        finally:
            self._signal(signal.SIGCONT)

    def _signal(self, number: signal.Signals) -> None:
        """Signals all processes of the desk: the script uss_desk runs the program as a child of its shell."""
        os.killpg(self.process.pid, number)

    def _end(self, keeper: threading.Thread) -> None:
        """Ends the desk for good, also one that was being started again."""
        self._is_ending, ended = True, list[subprocess.Popen[bytes]]()

        def is_over() -> bool:
            if self.process not in ended:
                ended.append(self.process)
                self.process.terminate()
            return not keeper.is_alive()

        until("the desk's end", is_over)
