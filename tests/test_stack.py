"""The stack, of which no contract speaks: the largest frame of the program, and what the deepest texts take.

The desk calls itself only where a text nests. The body of a request does: the toolchain's reader of JSON refuses one
that nests more than 127 deep. So does the SQL in a file that is opened: the toolchain's parser refuses what is higher
than 300, and more than 60 queries within each other. Each is tried near that depth, and far beyond it. It has the same
answer within an eighth of the stack that systemd gives a unit.
"""

from __future__ import annotations

import pathlib
import re
import sqlite3
import subprocess
from collections.abc import Callable

import pytest
from harness.program import PROGRAM, Ran, run
from harness.requests import MOMENT, plan_id, request

FRAME = 200_000
"""How many bytes of the stack one function may take."""
STACK = 1 << 20
"""How many bytes of it the deepest text may take; a unit has 8 MB, which the desk's own doesn't change."""
ALLOCATED = re.compile(r"\b(?:sub +\$|lea +-)0x([0-9a-f]{1,8})(?:,%r11|,%rsp|\(%rsp\),%r11)$", re.MULTILINE)
"""How both compilers make room for a frame: at once, or page by page up to %r11."""
NEAR, BEYOND = 290, 3_000
SCHEMAS: dict[str, Callable[[int], str]] = {
    "parentheses": lambda depth: f"CREATE TABLE t (a CHECK ({'(' * depth}a{')' * depth}))",
    "cases": lambda depth: f"CREATE TABLE t (a CHECK ({'CASE WHEN a THEN ' * (depth // 3)}1{' END' * (depth // 3)}))",
    "operators": lambda depth: f"CREATE TABLE t (a CHECK ({'+'.join(['a'] * depth)}))",
    "denials": lambda depth: f"CREATE TABLE t (a CHECK ({'NOT ' * depth}a))",
    "queries": lambda depth: f"CREATE TABLE t (a CHECK ({'(SELECT ' * (depth // 5)}1{')' * (depth // 5)}))",
}


def deep_file(path: pathlib.Path, sql: str) -> str:
    """A database whose one table was made by this text, however deep it is."""
    database = sqlite3.connect(path, isolation_level=None)
    database.execute("CREATE TABLE t (a)")
    database.execute("PRAGMA writable_schema = 1")
    database.execute("UPDATE sqlite_master SET sql = ?", (sql,))
    database.close()
    return str(path)


def run_within(stack: int, *words: str, given: bytes = b"") -> Ran:
    """Runs a line of the program with so much stack."""
    return run(*words, given=given, under=["prlimit", f"--stack={stack}"])


@pytest.mark.proved
def test_frames() -> None:
    """No function of the program takes much of the stack at once."""
    code = subprocess.run(["objdump", "-d", "--no-show-raw-insn", PROGRAM], capture_output=True, check=True).stdout
    frames = [int(found, 16) for found in ALLOCATED.findall(code.decode())]
    assert len(frames) > 1_000
    assert max(frames) <= FRAME


@pytest.mark.proved
@pytest.mark.parametrize("depth", [127, 128, 60_000])
@pytest.mark.parametrize("opened, closed", [("[", "]"), ('{"a":', "}")])
def test_bodies(opened: str, closed: str, depth: int) -> None:
    """A body that nests deep is refused, and the next request is answered."""
    body = (opened * depth + "0" + closed * depth).encode()[:131_000]
    asked = request("PUT", f"/flight_plans/{plan_id(1)}", "alfa", body)
    ran = run_within(STACK, "play", "alfa=5", "--at", str(MOMENT), given=asked * 2)
    assert (ran.status, ran.errors) == (0, "")
    assert ran.output.count(b"HTTP/1.1 400 ") == 2


@pytest.mark.proved
@pytest.mark.parametrize("depth", [NEAR, BEYOND])
@pytest.mark.parametrize("kind", SCHEMAS)
def test_schemas(kind: str, depth: int, room: pathlib.Path) -> None:
    """A file whose schema nests deep is refused, as it is with more stack."""
    path = deep_file(room / "deep.db", SCHEMAS[kind](depth))
    refused = run_within(STACK, "check", "--db", path)
    assert refused.status == 4
    assert refused == run("check", "--db", path)
