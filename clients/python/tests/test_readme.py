"""The lines of README.md for a terminal and for Python, asked of the mock desk."""
import os
import re
import subprocess
import sys
import time
from pathlib import Path
from typing import Any

import pytest

pytest_plugins = "mocked"
FOLDER = Path(__file__).resolve().parents[1]
TEXT = (FOLDER / "README.md").read_text()


def lines_of(language: str) -> list[str]:
    """The parts of the page in a language."""
    return re.findall(rf"```{language}\n(.*?)```", TEXT, re.DOTALL)


def test_lines_of_a_terminal(mock_desk: str, tmp_path: Path) -> None:
    plan, look = lines_of("sh")
    after_the_start = plan.splitlines()[3:]
    lines = [
        'python3() { "$PYTHON" "$@"; }',
        *after_the_start,
        look.replace("client watch", "client watch --looks 1"),
    ]
    given = {"PYTHONPATH": str(FOLDER), "PYTHON": sys.executable, "PYTHONDONTWRITEBYTECODE": "1"}
    whom = {"USS_DESK_URL": mock_desk, "USS_DESK_OPERATOR": "alfa"}
    ran = subprocess.run(
        ["bash"],
        input="\n".join(lines),
        capture_output=True,
        text=True,
        check=False,
        cwd=tmp_path,
        env={**os.environ, **given, **whom},
    )
    wanted = ["  Completed, Planned\n", "blocked in 64 of 64 cells", "T13:00:00Z ", "T20:00:00Z\n"]
    assert (ran.returncode, [part for part in wanted if part not in ran.stdout]) == (0, []), ran.stderr
    assert (tmp_path / "why.svg").is_file()


def test_lines_of_python(mock_desk: str, capsys: pytest.CaptureFixture[str]) -> None:
    lines, caught = lines_of("python")
    names: dict[str, Any] = {}
    exec(lines.replace("http://127.0.0.1:8080", mock_desk), names)
    assert names["metres"] == (515, 575)
    area_of, field, start = names["area_of"], names["field"], int(time.time()) + 3600
    names |= {
        "plan_id": names["new_id"](),
        "priority": 10,
        "area": area_of(field, names["metres"], start, start + 60),
    }
    exec(caught, names)
    assert capsys.readouterr().out == ""
    names |= {"plan_id": names["new_id"]()}
    exec(caught, names)
    assert capsys.readouterr().out.startswith("conflict priority 10 at ")
