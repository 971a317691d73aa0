"""Single lines of sizes at which a desk could give up."""

from __future__ import annotations

import json
import pathlib
import subprocess
from collections.abc import Callable

import pytest
from harness.places import TESTS
from harness.program import run
from harness.requests import MOMENT, READY, Answer, answers, clear, list_plans, over, plan_id, put, status
from harness.serving import Served

CELL = "001"


def played(given: bytes, *operators: str) -> list[Answer]:
    """What a desk answers, in which these are enrolled."""
    return answers(run("play", "--at", str(MOMENT), *operators, given=given).output)


@pytest.mark.quick
def test_longest_body() -> None:
    """A body of 131,072 bytes is read, and one of 131,073 isn't."""
    head, _, body = put("bravo", plan_id(1), [over([CELL])], 1).partition(b"\r\n\r\n")
    head = head.partition(b"content-length")[0]
    found: list[Answer] = []
    for length in 131_072, 131_073:
        found += played(head + b"content-length: %d\r\n\r\n" % length + body.ljust(length), "bravo=100")
    assert [answer.status for answer in found] == [200, 413]
    assert found[0].value["planning_result"] == "Completed"


def test_clear_of_150_plans() -> None:
    """150 plans are cleared at once."""
    plans = [put("bravo", plan_id(n), [over([CELL], n * 5, n * 5 + 4)], 1) for n in range(150)]
    found = played(b"".join(plans) + clear("bravo", over([CELL], 0, 1001)), "bravo=100")
    assert len(found) == 151
    assert b'"cleared 150"' in found[-1].body


def test_seventy_operators() -> None:
    """70 operators are enrolled by one line, and each is answered."""
    names = [f"rival{number}" for number in range(70)]
    found = played(b"".join(map(list_plans, names)), *(f"{name}=1" for name in names))
    assert [answer.body for answer in found] == [b'{"flight_plans":[]}'] * 70


def test_five_mib() -> None:
    """Tables in memory of over 5 MiB: 200 plans of 4 volumes of 64 cells that don't touch, answered; and one of another
    operator in the same places."""
    cells = [f"{(n << 44) + (1 << 36):016x}".rstrip("0") for n in range(64)]
    areas = [[over(cells, n * 20 + m * 5, n * 20 + m * 5 + 4) for m in range(4)] for n in range(200)]
    plans = [put("bravo", plan_id(n), area, 1) for n, area in enumerate(areas)]
    plans.append(put("alfa", plan_id(0), areas[0], 1))
    found = played(b"".join(plans), "bravo=100", "alfa=100", "--equal", "1")
    assert [answer.value["planning_result"] for answer in found] == ["Completed"] * 201


def old_file_of_200(path: pathlib.Path) -> None:
    """Makes a file of schema 1 of 200 plans of 8 volumes each."""
    made = (TESTS / "schema1.sql").read_text(encoding="utf-8").partition("INSERT")[0]
    made += "BEGIN;\nINSERT INTO operator VALUES ('bravo', 100);\n"
    for number, place in ((number, place) for number in range(200) for place in range(8)):
        if place == 0:
            made += f"INSERT INTO plan VALUES ('bravo', '{plan_id(number)}', 10, 0, 0);\n"
        named, level = f"'bravo', '{plan_id(number)}', {place}", f"{place * 10}, {place * 10 + 10}"
        made += f"INSERT INTO volume VALUES ({named}, {level}, 1780315200, 1780318800, x'010400000000000000');\n"
        made += f"INSERT INTO span VALUES ({named}, 0, 288230376151711743, {level}, 1780315200, 1780318800, 10);\n"
    subprocess.run(["sqlite3", path], input=f"{made}COMMIT;\n".encode(), check=True)


def test_move_of_200_plans(room: pathlib.Path) -> None:
    """200 plans of 8 volumes each are moved from schema 1, and shown."""
    path = room / "desk.db"
    old_file_of_200(path)
    assert run("migrate", "--db", str(path)).output == b"migrated 200 plans\n"
    (listed,) = played(list_plans("bravo"), "--db", str(path))
    assert [len(plan["area"]) for plan in json.loads(listed.body)["flight_plans"]] == [8] * 200


def test_5001_requests() -> None:
    """5,001 requests of one line are all answered."""
    assert [answer.body for answer in played(status("bravo") * 5001, "bravo=100")] == [READY] * 5001


def test_10001_connections(serve: Callable[..., Served]) -> None:
    """10,001 connections are all answered, and the line ends with 0 after just as many."""
    desk = serve("bravo=100", connections=10_001)
    assert sum(desk.ask(status("bravo")).endswith(READY) for _ in range(10_001)) == 10_001
    assert desk.end().status == 0
