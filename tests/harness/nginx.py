"""nginx with deploy/nginx.conf before a desk, at ports of its own."""

from __future__ import annotations

import pathlib
import shutil
import subprocess
from collections.abc import Mapping

from harness.places import DEPLOY
from harness.ports import PATIENCE, free_port, is_listening, until

MODULE = "/usr/lib/nginx/modules/ngx_http_js_module.so"
"""The module without which nginx doesn't take this configuration."""
BESIDE = ("nginx_refusals.conf", "nginx_outcome.js")


class Nginx:
    """nginx, run in a folder that its workers may read, for operators by their passwords.

    `next_port` is the port that it hands requests to: a desk's, without the queue that nginx.conf has in between.
    """

    process: subprocess.Popen[bytes]

    def __init__(self, folder: pathlib.Path, passwords: Mapping[str, str], next_port: int) -> None:
        self._folder, self._passwords, self._next_port = folder, passwords, next_port
        self.port, self.inner_port = free_port(), free_port()

    @property
    def url(self) -> str:
        """Where it is asked."""
        return f"http://127.0.0.1:{self.port}"

    def _write(self) -> None:
        """Writes what it reads."""
        text = (DEPLOY / "nginx.conf").read_text(encoding="utf-8")
        for old, new in (("8081", self.port), ("8082", self.inner_port), ("8083", self._next_port)):
            text = text.replace(f"127.0.0.1:{old}", f"127.0.0.1:{new}")
        (self._folder / "nginx.conf").write_text(text, encoding="utf-8")
        for name in BESIDE:
            shutil.copy(DEPLOY / name, self._folder)
        lines = "".join(f"{name}:{{PLAIN}}{password}\n" for name, password in self._passwords.items())
        (self._folder / "operators.htpasswd").write_text(lines, encoding="utf-8")

    def __enter__(self) -> Nginx:
        self._write()
        words = ["nginx", "-p", str(self._folder), "-c", str(self._folder / "nginx.conf")]
        with open(self._folder / "nginx.errors", "w", encoding="utf-8") as errors:
            self.process = subprocess.Popen(words, stderr=errors, umask=0o027)
        until("nginx", lambda: is_listening(self.port))
        return self

    def __exit__(self, *_: object) -> None:
        self.process.terminate()
        self.process.wait(timeout=PATIENCE)
