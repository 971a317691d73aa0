"""The server over desks that are lists of what they answer: guards, calls, steps that are stopped, changes in a row."""
from __future__ import annotations

import asyncio
import json
import threading
import time
from collections.abc import Awaitable, Callable
from typing import Any, Optional

import pytest
from aiohttp import ClientSession, web

from uss_desk_client import Answer, BadAnswer, Conflict, Desk, NoAnswer, NoSuchPlan, Plan, Rectangle, Refused, Volume
from uss_desk_client.tokens import id_of, leaves_of
from uss_desk_map.door import Door
from uss_desk_map.server import Map, files_of

from test_drafts import DRAFT

ID = DRAFT["plan_id"]
AREA = (Volume(("479aa0a5c",), 600, 1200, 1_780_315_200, 1_780_318_800),)
DONE, BLOCKED = Answer("Completed", "Planned"), Answer(
    "Rejected", "NotPlanned", "conflict", Conflict("0" * 15 + "1", 600, 5, 30)
)
PLAN = Plan(ID, "Planned", "Planned", "Nominal", 10, AREA, None)


class FakeDesk:
    """Answers by functions; counts what is asked."""

    def __init__(self, **answers: Any) -> None:
        self.answers = answers
        self.asked: list[Any] = []

    def __getattr__(self, name: str) -> Callable[..., Any]:
        def call(*words: Any) -> Any:
            self.asked.append((name, *words))
            answer = self.answers[name]
            answer = answer(*words) if callable(answer) else answer
            if isinstance(answer, Exception):
                raise answer
            return answer

        return call


class Served:
    """A server over a desk, and one who asks it as its page does."""

    def __init__(self, desk: FakeDesk, tiles: Optional[str] = None) -> None:
        self.desk: Any = desk
        self.tiles = tiles

    async def __aenter__(self) -> Served:
        self.door = Door(0)
        self._runner = web.AppRunner(web.Application())
        await self._runner.setup()
        site = web.TCPSite(self._runner, "127.0.0.1", 0)
        await site.start()
        port = self._runner.addresses[0][1]
        await self._runner.cleanup()
        self.door = Door(port)
        desk: Desk = self.desk
        self._runner = web.AppRunner(Map(self.door, lambda: desk, {"operator": "alfa"}, self.tiles).application())
        await self._runner.setup()
        await web.TCPSite(self._runner, "127.0.0.1", port).start()
        self.session = ClientSession(headers={"origin": self.door.origin})
        return self

    async def __aexit__(self, *_: object) -> None:
        await self.session.close()
        await self._runner.cleanup()

    async def ask(self, call: str, data: Any = b"{}", **fields: str) -> tuple[int, Any]:
        data = data if isinstance(data, bytes) else json.dumps(data).encode()
        async with self.session.post(f"{self.door.address}api/{call}", data=data, headers=fields) as answer:
            body = await answer.read()
            return answer.status, json.loads(body) if answer.content_type == "application/json" else body.decode()


def over(desk: FakeDesk, run: Callable[[Served], Awaitable[Any]]) -> Any:
    """What is found by asking a server over this desk."""

    async def whole() -> Any:
        async with Served(desk) as served:
            return await run(served)

    return asyncio.run(whole())


def asked(desk: FakeDesk, call: str, words: Any) -> Any:
    return over(desk, lambda served: served.ask(call, words))


def test_each_answer_is_guarded() -> None:
    async def run(served: Served) -> Any:
        found = []
        for url in (
            served.door.address,
            served.door.origin,
            f"{served.door.address}api/none",
            f"{served.door.address}api/setting",
        ):
            async with served.session.get(url) as answer:
                found.append(
                    (
                        answer.status,
                        "default-src 'none'" in answer.headers["content-security-policy"],
                        answer.headers["x-content-type-options"],
                        answer.headers["cache-control"],
                    )
                )
        return found

    assert over(FakeDesk(), run) == [(status, True, "nosniff", "no-store") for status in (200, 403, 404, 200)]


@pytest.mark.parametrize(
    "path",
    [
        "../../../../etc/passwd",
        "static/../server.py",
        "static/%2e%2e/server.py",
        "static",
        "static/",
        "leaflet/leaflet.js.map",
        "api/plans",
        "index.html",
    ],
)
def test_nothing_else_is_served(path: str) -> None:
    async def run(served: Served) -> Any:
        reader, writer = await asyncio.open_connection("127.0.0.1", served.door.port)
        writer.write(
            f"GET /{served.door.token}/{path} HTTP/1.1\r\nhost: 127.0.0.1:{served.door.port}\r\n"
            "connection: close\r\n\r\n".encode()
        )
        answer = await reader.read()
        writer.close()
        return answer.split(b" ")[1]

    assert over(FakeDesk(), run) == b"404"


def test_the_files_of_the_page_are_there() -> None:
    files = files_of()
    assert files[""].name == "index.html" and "static/page.js" in files and "leaflet/leaflet.js" in files
    assert not any(name.endswith((".py", ".typed")) for name in files)


@pytest.mark.parametrize(
    "data, status",
    [(b"", 400), (b"[]", 400), (b"{", 400), (b"[" * 100_000, 400), (b"\xff", 400), (b" " * 1_000_001, 413)],
)
def test_what_is_no_object(data: bytes, status: int) -> None:
    assert asked(FakeDesk(), "plans", data)[0] == status


def test_a_plan_is_planned_and_shown() -> None:
    desk = FakeDesk(plan=DONE, show=PLAN)
    status, told = asked(desk, "plan", {"draft": DRAFT})
    assert status == 200 and told["answer"]["result"] == "Completed" and told["plan"]["id"] == ID
    assert [one[0] for one in desk.asked] == ["plan", "show"] and desk.asked[0][1] == ID and desk.asked[0][3] == 10
    assert len(told["plan"]["volumes"][0]["rings"][0]) == 4


def test_a_plan_that_is_stored_is_changed() -> None:
    desk = FakeDesk(change=BLOCKED, show=NoAnswer("502", 1, False))
    _, told = asked(desk, "plan", {"draft": DRAFT, "is_change": True})
    assert (
        told["answer"]["note"] == "conflict" and told["answer"]["conflict"]["altitude"] == 60 and told["plan"] is None
    )
    assert "uss-plan" not in told["answer"]["advice"]


@pytest.mark.parametrize(
    "raised, kind, word",
    [
        (Refused(401, "unauthorized"), "refused", "unauthorized"),
        (Refused(403, "unknown_operator"), "refused", "unknown_operator"),
        (NoAnswer("502 bad_gateway", 15, True), "no_answer", ""),
        (NoAnswer("429 too_many_requests", 15, False), "too_many", ""),
        (BadAnswer("another"), "other_server", ""), (PermissionError(13, "denied"), "password", ""),
    ],
)  # fmt: skip
def test_troubles_are_told(raised: Exception, kind: str, word: str) -> None:
    status, told = asked(FakeDesk(plans=raised), "plans", {})
    assert (
        status == 502
        and (told["trouble"]["kind"], told["trouble"]["word"]) == (kind, word)
        and told["trouble"]["text"]
    )
    assert told["trouble"]["may_stand"] == (getattr(raised, "may_stand", False))


def test_what_was_drawn_wrong_is_told() -> None:
    status, told = asked(FakeDesk(), "cover", {"draft": {**DRAFT, "places": [[0, 0], [1, 1], [1, 0], [0, 1]]}})
    assert status == 400 and told["trouble"]["kind"] == "drawn" and "crosses itself" in told["trouble"]["text"]


def test_a_cover_is_told_with_what_it_takes_beyond() -> None:
    _, told = asked(FakeDesk(), "cover", {"draft": DRAFT})
    assert told["volumes"] == 1 and not told["fault"] and len(told["rings"]) == len(told["cells"])
    assert 1.0 < told["square_metres"] / told["shape_square_metres"] < 1.5
    _, told = asked(FakeDesk(), "cover", {"draft": {**DRAFT, "end": DRAFT["start"]}})
    assert told["rings"] and "isn't before the end" in told["fault"]


def test_a_cover_is_told_before_the_altitudes_are_filled_in() -> None:
    _, told = asked(FakeDesk(), "cover", {"draft": {**DRAFT, "lower": None}})
    assert told["rings"] and told["altitudes"]["lower"] is None and "fill in both altitudes" in told["fault"]
    _, told = asked(FakeDesk(), "cover", {"draft": {**DRAFT, "above": "ground", "ground": 408}})
    assert (told["altitudes"]["lower"], told["altitudes"]["upper"], told["fault"]) == (468, 528.05, "")


@pytest.mark.parametrize("metres, is_large", [(5_000, False), (6_000, True)])
def test_a_drawing_of_more_than_a_hundred_square_kilometres_is_large(metres: int, is_large: bool) -> None:
    _, told = asked(FakeDesk(), "cover", {"draft": {**DRAFT, "kind": "circle", "metres": metres}})
    assert told["is_large"] is is_large


def test_there_is_no_draft() -> None:
    assert asked(FakeDesk(), "cover", {})[0] == 400


def test_plans_that_a_clear_removes() -> None:
    beside = (Volume((), 600, 700, AREA[0].start, AREA[0].end, Rectangle(2, 0, 2**30 - 1, 0, 2**30 - 1, 8)),)
    later = (Volume(("479aa0a5c",), 600, 1200, AREA[0].end, AREA[0].end + 1),)
    stored = [PLAN] + [
        Plan(name, "Closed", "Closed", "Nominal", 1, area, None) for name, area in (("b", beside), ("c", later))
    ]
    assert asked(FakeDesk(plans=stored), "would_clear", {"id": ID}) == (200, {"ids": [ID, "b"]})
    assert asked(FakeDesk(plans=stored), "would_clear", {"id": "x"})[0] == 400


def test_plans_that_are_gone() -> None:
    desk = FakeDesk(show=lambda plan_id: PLAN if plan_id == ID else NoSuchPlan(404, "no_such_plan"))
    _, told = asked(desk, "show", {"ids": [ID, "b"]})
    assert [one["id"] for one in told["plans"]] == [ID] and told["gone"] == ["b"]


class ListedDesk(FakeDesk):
    """Every cell is blocked at its first leaf; each request takes a while."""

    def try_plan(self, area: Any, *words: Any) -> Answer:
        time.sleep(0.02)
        self.asked.append(("try_plan", area, *words))
        return Answer(
            "Rejected",
            "NotPlanned",
            "conflict",
            Conflict(f"{leaves_of(id_of(area[0].cells[0]) or 0)[0]:016x}", 600, 5, 30),
        )


def test_steps_are_told_one_by_one() -> None:
    desk = ListedDesk()
    status, told = asked(desk, "why", {"draft": DRAFT, "usage": "Planned"})
    steps = [json.loads(line) for line in told.splitlines()]
    assert (
        status == 200
        and len(steps) == len(desk.asked) + 1
        and steps[-1] == {"is_done": True, "requests": len(desk.asked)}
    )
    assert steps[0]["decided"] == 1 and len(steps[0]["blocked"]) == 1


def test_steps_end_when_the_page_goes() -> None:
    desk = ListedDesk()

    async def run(served: Served) -> Any:
        words = json.dumps({"draft": DRAFT, "usage": "Planned"}).encode()
        async with served.session.post(f"{served.door.address}api/why", data=words) as answer:
            await answer.content.readline()
            answer.close()
        await at_rest(desk)

    asked(whole := ListedDesk(), "why", {"draft": DRAFT, "usage": "Planned"})
    over(desk, run)
    assert 1 <= len(desk.asked) < len(whole.asked)


async def at_rest(desk: FakeDesk) -> None:
    """Waits until nothing has been asked for a while, on a slow machine too."""
    before = -1
    while before != len(desk.asked):
        before = len(desk.asked)
        await asyncio.sleep(0.5)


def test_trouble_ends_steps() -> None:
    _, told = asked(FakeDesk(try_plan=NoAnswer("502", 1, False)), "why", {"draft": DRAFT, "usage": "Planned"})
    assert json.loads(told)["trouble"]["kind"] == "no_answer"
    _, told = asked(
        FakeDesk(try_plan=Answer("Rejected", "NotPlanned", "priority")), "why", {"draft": DRAFT, "usage": "Planned"}
    )
    assert json.loads(told)["refused"]["note"] == "priority"


HOUR = 3600
MORNING = (int(time.time()) // HOUR + 2) * HOUR
"""A full hour that is still to come."""
LATER: "dict[str, Any]" = {**DRAFT, "start": MORNING, "end": MORNING + HOUR}


def held_from(start: int, end: int) -> Callable[..., Answer]:
    """What a desk answers that is blocked everywhere between two moments."""

    def try_plan(area: Any, *_: object) -> Answer:
        first = max(area[0].start, start)
        if first >= min(area[0].end, end):
            return DONE
        return Answer("Rejected", "NotPlanned", "conflict", Conflict("0" * 15 + "1", 600, first, 30))

    return try_plan


def test_free_times_are_told_with_own_flights() -> None:
    held = (MORNING + 2 * HOUR, MORNING + 3 * HOUR)
    own = Plan("b", "Planned", "Planned", "Nominal", 1, (Volume(AREA[0].cells, 600, 700, *held),), None)
    desk = FakeDesk(try_plan=held_from(*held), plans=[own])
    draft = {**LATER, "kind": "cells", "cells": list(AREA[0].cells)}
    words = {"draft": draft, "usage": "InUse", "from": MORNING, "to": MORNING + 12 * HOUR}
    _, told = asked(desk, "free_times", words)
    steps = [json.loads(line) for line in told.splitlines()]
    assert [one["is_done"] for one in steps] == [False] * (len(steps) - 1) + [True]
    assert steps[-1]["free"] == [[MORNING, held[0]], [held[1], MORNING + 12 * HOUR]] and steps[-1]["is_whole"]
    assert steps[-1]["own"] == [{"id": "b", "start": held[0], "end": held[1]}]
    tries = [one for one in desk.asked if one[0] == "try_plan"]
    assert steps[-1]["requests"] == len(tries) < 40
    assert {one[4] for one in tries} == {"InUse"} and {one[3] for one in tries} == {ID}


def test_a_time_that_is_free_is_one_request() -> None:
    desk = FakeDesk(try_plan=DONE, plans=[])
    words = {"draft": LATER, "usage": "Planned", "from": MORNING, "to": MORNING + 24 * HOUR}
    last = json.loads(asked(desk, "free_times", words)[1].splitlines()[-1])
    assert last["requests"] == 1 and last["free"] == [[MORNING, MORNING + 24 * HOUR]]


def test_free_times_of_a_flight_that_is_refused_anyway() -> None:
    desk = FakeDesk(try_plan=Answer("Rejected", "NotPlanned", "priority"), plans=[])
    words = {"draft": LATER, "usage": "Planned", "from": MORNING, "to": MORNING + 24 * HOUR}
    last = json.loads(asked(desk, "free_times", words)[1].splitlines()[-1])
    assert last["refused"]["note"] == "priority"


def test_changes_are_made_in_a_row_though_the_page_goes() -> None:
    under_way, most = [], []
    lock, has_gone = threading.Lock(), threading.Event()

    def slow(*_: object) -> Answer:
        with lock:
            under_way.append(1)
            most.append(len(under_way))
        time.sleep(0.2)
        with lock:
            under_way.pop()
        return DONE

    def closing(*words: object) -> Answer:
        has_gone.wait(60)
        return slow(*words)

    desk = FakeDesk(activate=slow, close=closing, show=PLAN)

    async def run(served: Served) -> Any:
        asking = [asyncio.ensure_future(served.ask(call, {"id": ID})) for call in ("activate", "close", "activate")]
        await until(lambda: "close" in names_of(desk))
        asking[1].cancel()
        await asyncio.sleep(0.1)  # in which its connection ends
        has_gone.set()
        await asyncio.gather(*asking, return_exceptions=True)
        await until(lambda: len(names_of(desk)) == 3 and not under_way)
        await at_rest(desk)
        return names_of(desk)

    assert sorted(over(desk, run)) == ["activate", "activate", "close"] and most == [1, 1, 1]


def names_of(desk: FakeDesk) -> list[str]:
    """The changes that were asked, by their names."""
    return [one[0] for one in desk.asked if one[0] != "show"]


async def until(condition: Callable[[], bool]) -> None:
    """Waits until a condition holds, for a minute at most."""
    for _ in range(1_200):
        if condition():
            return
        await asyncio.sleep(0.05)
    raise TimeoutError
