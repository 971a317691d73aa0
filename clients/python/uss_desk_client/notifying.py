"""Telling others of a change: a command that is run, a URL that is posted to."""
from __future__ import annotations

import json
import os
import shlex
import subprocess
import urllib.request
from collections import deque
from typing import Deque, List, Optional
from urllib.parse import urlsplit

from uss_desk_client.watching import Change

TIMEOUT = 30.0
"""Seconds that a command or a URL may take."""
MOST_WAITING = 100
"""Changes that are kept to be told again."""


class Notifier:
    """Tells each change by a command, which gets it as JSON on standard input, and by a POST of the same JSON. What
    couldn't be told is told again at the next look. The command isn't given the desk's password."""

    def __init__(self, command: Optional[str] = None, url: Optional[str] = None) -> None:
        self._words = shlex.split(command) if command else []
        if url is not None and (urlsplit(url).scheme not in ("http", "https") or not urlsplit(url).hostname):
            raise ValueError(f"{url!r} is no URL to post to")
        self._url = url
        self._waiting: Deque[Change] = deque(maxlen=MOST_WAITING)

    def tell(self, changes: List[Change]) -> List[str]:
        """Tells these changes, and those that couldn't be told before; what went wrong."""
        self._waiting.extend(changes)
        wrong: List[str] = []
        for _ in range(len(self._waiting)):
            change = self._waiting.popleft()
            try:
                self._tell(change)
            except (OSError, subprocess.SubprocessError, ValueError) as why:
                wrong.append(f"{change.plan_id}: it couldn't be told: {why}; it is told again at the next look")
                self._waiting.append(change)
        return wrong

    def _tell(self, change: Change) -> None:
        data = json.dumps(change.to_json()).encode()
        if self._words:
            environment = {name: value for name, value in os.environ.items() if name != "USS_DESK_PASSWORD"}
            environment["USS_DESK_PLAN"] = change.plan_id
            subprocess.run(self._words, input=data, env=environment, timeout=TIMEOUT, check=True)
        if self._url:
            fields = {"content-type": "application/json"}
            asked = urllib.request.Request(self._url, data, fields, method="POST")
            with urllib.request.urlopen(asked, timeout=TIMEOUT):
                pass
