"""Some operators that hold all that they may, in their share of the unit's memory."""

from __future__ import annotations

import http.client
import pathlib
import re
from collections.abc import Iterator

import crowds

import pytest
from harness.places import DEPLOY
from harness.requests import delete, plan_id, show, status
from harness.rows import Rows
from harness.serving import Served
from keeping.given import TOMORROW

pytestmark = pytest.mark.alone

SOME, ALL, SPANS, CELLS = 4, 40, 25_000, 200_000
"""So many of the operators for which the unit's memory is reckoned, and the spans and cells that each may have."""
CLOSED = CELLS // 32_768 - 1
"""So many closed plans fit beside one of as many cells, the most that a plan may have."""
NAMES = [f"op{number}" for number in range(SOME)]


def answered(port: int, operator: str, asked: bytes) -> int | str:
    """The status of the answer to a request, of which the plan is tomorrow's."""
    head, _, body = asked.replace(b"2026-06-01", TOMORROW.encode()).partition(b"\r\n\r\n")
    method, path, _ = head.decode().split(" ", 2)
    link = http.client.HTTPConnection("127.0.0.1", port, timeout=300)
    try:
        link.request(method, path, body=body, headers={"x-operator": operator})
        return link.getresponse().status
    except (ConnectionError, http.client.HTTPException) as lost:
        return str(lost)
    finally:
        link.close()


def closed_ones(operator: str, plan: bytes) -> Iterator[bytes]:
    """PUTs and DELETEs by which an operator has closed plans, of the cells of this one, which is put later."""
    for number in range(100, 100 + CLOSED):
        yield plan.replace(plan.split()[1], f"/flight_plans/{plan_id(number)}".encode(), 1)
        yield delete(operator, plan_id(number))


@pytest.mark.proved
def test_within_memory(rows: Rows, room: pathlib.Path) -> None:
    """Plans are put, also ones that are closed, and the desk is killed, started again, and put to again."""
    limit = re.search(r"MemoryMax=(\d+)G", (DEPLOY / "uss_desk.service").read_text())
    assert limit
    most = int(limit[1]) * 2**30 * SOME // ALL
    plans = [next(crowds.strips(1, name, min(crowds.VOLUMES, SPANS // 768), at)) for at, name in enumerate(NAMES)]
    shows = [show(name, plan.split()[1].decode().rpartition("/")[2]) for plan, name in zip(plans, NAMES)]
    for life in range(3):
        operators = [] if life else [f"{name}=100" for name in NAMES]
        under = ["prlimit", f"--as={most}"]
        words = ["--db", str(room / "full.db"), "--spans", str(SPANS), "--cells", str(CELLS)]
        with Served(*words, *operators, connections=99, under=under) as desk:
            told = [answered(desk.port, name, status(name)) for name in NAMES]
            rows.equal(f"life {life} within {most >> 20} MB", [200] * SOME, told)
            told = [answered(desk.port, name, asked) for name, asked in zip(NAMES, shows)]
            rows.equal(f"plans in life {life}", [200 if life else 404] * SOME, told)
            for name, plan in () if life else zip(NAMES, plans):
                told = [answered(desk.port, name, asked) for asked in closed_ones(name, plan)]
                rows.equal(f"closed plans of {name}", [200] * 2 * CLOSED, told)
            again = plans[: 1 if life else SOME]
            told = [answered(desk.port, name, asked) for name, asked in zip(NAMES, again)]
            rows.equal(f"PUTs in life {life}", [200] * len(again), told)
