"""Commands that are run, and what promtool says of metrics."""

from __future__ import annotations

import subprocess
from collections.abc import Mapping, Sequence
from os import PathLike

PATIENCE = 900


def run(
    words: Sequence[str | PathLike[str]],
    given: str = "",
    cwd: str | PathLike[str] | None = None,
    env: Mapping[str, str] | None = None,
) -> str:
    """What a command prints, on both outputs; behind it how it ended if it failed."""
    ran = subprocess.run(
        [str(word) for word in words],
        input=given,
        stdout=subprocess.PIPE,
        stderr=subprocess.STDOUT,
        text=True,
        timeout=PATIENCE,
        check=False,
        cwd=cwd,
        env=env,
    )
    return f"{ran.stdout}status {ran.returncode}\n" if ran.returncode else ran.stdout


def promtool(text: str) -> str:
    """What promtool finds in metrics: nothing, if all is well."""
    return run(["promtool", "check", "metrics"], given=text)
