"""The lines of Python and those of the terminal that docs/clients.md begins with, asked of a desk."""

from __future__ import annotations

import contextlib
import io
import subprocess
from typing import Any

import pytest
from clients.given import at, environment
from harness.places import DOCS
from harness.rows import Rows
from harness.setting import Setting

pytestmark = pytest.mark.proxy

TEXT = (DOCS / "clients.md").read_text(encoding="utf-8")
WHY = [
    (10, 1, "A flight of priority 10 is blocked in 64 of 64 cells"),
    (11, 0, "Nothing blocks this flight of priority 11"),
]
"""The priority that a flight is asked with, the exit status, and the first line that is printed."""


def terminal_lines(begin: str, end: str) -> list[str]:
    """The lines of a terminal between two places of the page, without the one that names the day."""
    part = TEXT.split(begin)[1].split(end)[0]
    lines = [line[4:] for line in part.splitlines() if line.startswith("    ")]
    return [line for line in lines if not line.startswith("day=")]


def in_shell(setting: Setting, lines: list[str], plan_id: str = "") -> tuple[int, str]:
    """The exit status and the output of lines of a terminal, asked as alfa of this desk for a day to come."""
    script = "\n".join([f"day={at(0):%F}", 'python3() { "$PYTHON" "$@"; }', *lines]).replace(" ID", f" {plan_id}")
    ran = subprocess.run(
        ["bash", "-e"],
        input=script,
        capture_output=True,
        text=True,
        timeout=600,
        check=False,
        cwd=setting.folder,
        env=environment(setting, "alfa"),
    )
    return ran.returncode, ran.stdout


@pytest.mark.quick
def test_lines_of_python(rows: Rows, setting: Setting) -> None:
    """What the page's program prints, and leaves."""
    lines = TEXT.split("```python\n")[1].split("```")[0]
    lines = lines.replace('"http://127.0.0.1:8080", operator="alfa"', f'"{setting.url}", user="alfa", password="a"')
    printed, names = io.StringIO(), dict[str, Any]()
    with contextlib.redirect_stdout(printed):
        exec(lines, names)
    rows.equal("the page's lines", "Completed, Planned\n", printed.getvalue())
    rows.equal("the page's plan", "Closed", names["desk"].show(names["plan_id"]).status)


def test_lines_of_a_terminal(rows: Rows, setting: Setting) -> None:
    """A plan, what blocks another, and the plan reported, listed, shown and closed."""
    lines = terminal_lines("The same from a terminal", "Before it plans")
    at_list = next(at for at, line in enumerate(lines) if line.endswith(" list"))
    status, output = in_shell(setting, lines[1:at_list])
    plan_id, _, said = output.partition("  ")
    rows.equal("the page's plan in a terminal", (0, "Completed, OkToFly\n"), (status, said))
    why = terminal_lines("## What blocks a flight", "\n## ")
    why_lines = "\n".join(why)
    for priority, blocked, first in WHY:
        status, output = in_shell(setting, [why_lines.replace("--priority 10", f"--priority {priority}")])
        rows.equal(f"the page's why of {priority}", (blocked, first), (status, output.splitlines()[0]))
    (setting.folder / "where.geojson").write_text('{"type":"Point","coordinates":[8.548,47.374]}')
    told = in_shell(setting, terminal_lines("## In the air", "\n## "), plan_id)
    rows.equal("the page's report", (0, f"{plan_id}  Completed, OffNominal\n"), told)
    status, output = in_shell(setting, lines[at_list:], plan_id)
    wanted = ["no conflict", f"{plan_id}  Completed, Closed"]
    rows.equal("the page's list, show and close", (0, wanted), (status, output.splitlines()[-2:]))
