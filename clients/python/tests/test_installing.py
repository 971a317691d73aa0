"""One version number everywhere, and a wheel that pip installs without network."""
import re
import subprocess
import sys
from pathlib import Path

import pytest

import uss_desk_client

TOP = Path(__file__).resolve().parents[3]
COMMAND = TOP / "crates" / "desk_cli" / "src" / "command.rt"


def test_all_clients_have_the_version_of_the_program() -> None:
    found = re.search(r'const VERSION: &str = "([^"\\]+)', COMMAND.read_text())
    assert found
    texts = [path.read_text() for path in sorted((TOP / "clients").glob("*/pyproject.toml"))]
    versions = [re.findall(r'^version = "(.*)"$', text, re.MULTILINE) for text in texts]
    assert versions == [[found[1]]] * 4 and uss_desk_client.__version__ == found[1]


@pytest.fixture(scope="module")
def wheel(tmp_path_factory: pytest.TempPathFactory) -> Path:
    """The path of a wheel that is built."""
    folder = tmp_path_factory.mktemp("wheel")
    words = [sys.executable, str(TOP / "packaging" / "build_wheel"), str(folder)]
    return Path(subprocess.run(words, capture_output=True, text=True, check=True).stdout.strip())


def test_the_wheel_is_the_same_each_time(wheel: Path, tmp_path: Path) -> None:
    subprocess.run([sys.executable, str(TOP / "packaging" / "build_wheel"), str(tmp_path)], check=True)
    assert (tmp_path / wheel.name).read_bytes() == wheel.read_bytes()


def test_pip_installs_the_wheel_without_network(wheel: Path, tmp_path: Path) -> None:
    place = tmp_path / "environment"
    subprocess.run([sys.executable, "-m", "venv", str(place)], check=True)
    python = str(place / "bin" / "python")
    words = [python, "-m", "pip", "install", "-q", "--no-index", "--disable-pip-version-check", str(wheel)]
    subprocess.run(words, check=True)
    field = tmp_path / "field.geojson"
    field.write_text('{"type":"Polygon","coordinates":[[[8.54,47.37],[8.556,47.369],[8.56,47.379],[8.54,47.37]]]}')
    command = str(place / "bin" / "uss-plan")
    ran = subprocess.run([command, "cells", str(field)], capture_output=True, text=True, check=False, cwd=tmp_path)
    # in an environment of its own there is no S2 library
    assert ran.returncode == 0 and "\n479aa" in ran.stdout and "the client's own coverer is used" in ran.stderr
