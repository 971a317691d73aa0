"""The proxy before a desk: nginx with nginx.conf and TLS, and HAProxy with haproxy.cfg, at ports of their own."""

from __future__ import annotations

import contextlib
import os
import pathlib
import re
import subprocess
from collections.abc import Iterator, Mapping
from typing import NamedTuple

from harness.nginx import Nginx
from harness.places import DEPLOY
from harness.ports import PATIENCE, free_port, until

PASSWORDS = {"alfa": "a", "bravo": "b"}
HASTE = ("timeout server 60s", "timeout server 9s")
"""For the desk's answer HAProxy waits 9 s and not 60."""


class Proxy(NamedTuple):
    """Where nginx is asked, also by TLS, and HAProxy, whose master has this process id; the port of the desk behind
    them; and the folder of nginx."""

    url: str
    port: int
    tls_port: int
    queue_port: int
    queue_id: int
    desk_port: int
    folder: pathlib.Path


class NginxByTls(Nginx):
    """nginx with nginx_tls.conf too, and with a certificate that the line in it makes."""

    def __init__(self, folder: pathlib.Path, next_port: int) -> None:
        super().__init__(folder, PASSWORDS, next_port)
        self.tls_port = free_port()

    def _write(self) -> None:
        super()._write()
        text = (DEPLOY / "nginx_tls.conf").read_text().replace("listen 443", f"listen 127.0.0.1:{self.tls_port}")
        (self._folder / "nginx_tls.conf").write_text(text)
        line = re.search(r"^# *(openssl req.*)$", text, re.MULTILINE)
        assert line
        subprocess.run(line[1].split(), cwd=self._folder, capture_output=True, check=True)


@contextlib.contextmanager
def queue(
    folder: pathlib.Path, port: int, desk_port: int, texts: Mapping[str, str] = {HASTE[0]: HASTE[1]}
) -> Iterator[int]:
    """HAProxy before a desk, with other texts in its file; its process id. Whoever isn't root can't have it run as
    another user."""
    text = (DEPLOY / "haproxy.cfg").read_text()
    for old, new in texts.items():
        assert old in text, old
        text = text.replace(old, new)
    text = text.replace("127.0.0.1:8080", f"127.0.0.1:{desk_port}").replace("127.0.0.1:8083", f"127.0.0.1:{port}")
    if os.geteuid():
        text = re.sub(r"(?m)^    (user|group|chroot) .*\n", "", text)
    (folder / "haproxy.cfg").write_text(text)
    with open(folder / "haproxy", "wb") as told:
        words = ["haproxy", "-W", "-f", str(folder / "haproxy.cfg")]
        process = subprocess.Popen(words, stdout=told, stderr=subprocess.STDOUT)
    try:
        until("HAProxy", lambda: "Loading success" in (folder / "haproxy").read_text())
        yield process.pid
    finally:
        process.terminate()
        process.wait(timeout=PATIENCE)


@contextlib.contextmanager
def proxy_in(folder: pathlib.Path, texts: Mapping[str, str] = {HASTE[0]: HASTE[1]}) -> Iterator[Proxy]:
    """The proxy, in a folder that nginx's workers may read, with other texts in HAProxy's file."""
    inner = folder / "proxy"
    inner.mkdir()
    for made in (folder, inner):
        made.chmod(0o755)
    desk_port, queue_port = free_port(), free_port()
    nginx = NginxByTls(inner, queue_port)
    with queue(folder, queue_port, desk_port, texts) as queue_id, nginx:
        yield Proxy(nginx.url, nginx.port, nginx.tls_port, queue_port, queue_id, desk_port, inner)
